
// ---- added by beside-tower: what a comparison looks at

impl<K: Eq + Hash, S, Req> ReadyCache<K, S, Req> {
    /// The pending services in order, each with its key and whether it is cancelled.
    pub fn iter_pending(&self) -> impl Iterator<Item = (&K, &S, bool)> {
        self.pending.iter().map(|p| {
            let key = p.key.as_ref().expect("a pending service has its key");
            let service = p.ready.as_ref().expect("a pending service is there");
            let cancel = p.cancel.as_ref().expect("a pending service has its mark");
            (key, service, cancel.0.canceled.load(Ordering::SeqCst))
        })
    }

    /// The place among the pending where the next pass starts.
    pub fn resume(&self) -> usize {
        self.pending.resume()
    }
}
