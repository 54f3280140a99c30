#[derive(Clone, Copy)]
pub enum CpuDivider {
    One,
    Two,
}

#[derive(Default)]
pub struct Clock {
    pub edge: u64,
}

impl Clock {
    pub fn master_edge(&self) -> u64 {
        self.edge
    }
    pub fn set_divider(&mut self, _divider: CpuDivider) {}
}
