
// ---- added by beside-tower: what a comparison looks at

impl<D, Req> Balance<D, Req>
where
    D: Discover,
    D::Key: Hash,
{
    pub fn ready_index(&self) -> Option<usize> {
        self.ready_index
    }

    pub fn services(&self) -> &ReadyCache<D::Key, D::Service, Req> {
        &self.services
    }

    pub fn services_mut(&mut self) -> &mut ReadyCache<D::Key, D::Service, Req> {
        &mut self.services
    }
}
