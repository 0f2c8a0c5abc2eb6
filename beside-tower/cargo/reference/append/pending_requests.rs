
// ---- added by beside-tower: what a comparison looks at

impl<S, C> PendingRequests<S, C> {
    pub fn service(&self) -> &S {
        &self.service
    }

    pub fn count(&self) -> usize {
        self.ref_count.ref_count() - 1
    }
}
