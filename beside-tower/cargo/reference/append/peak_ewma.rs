
// ---- added by beside-tower: what a comparison looks at

impl<S, C> PeakEwma<S, C> {
    pub fn service(&self) -> &S {
        &self.service
    }

    pub fn count(&self) -> usize {
        Arc::strong_count(&self.rtt_estimate) - 1
    }

    /// The bits of the estimate, and the instant of its last update.
    pub fn estimate(&self) -> (u64, u64) {
        let rtt = self.rtt_estimate.lock().expect("an estimate");
        (rtt.rtt_ns.to_bits(), rtt.update_at.0)
    }
}
