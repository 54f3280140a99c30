//! A small generator of numbers, the same for the same seed on every machine (SplitMix64).
pub struct Random(u64);

impl Random {
    pub fn new(seed: u64) -> Self {
        Self(seed)
    }
    pub fn next(&mut self) -> u64 {
        self.0 = self.0.wrapping_add(0x9E37_79B9_7F4A_7C15);
        let mut z = self.0;
        z = (z ^ (z >> 30)).wrapping_mul(0xBF58_476D_1CE4_E5B9);
        z = (z ^ (z >> 27)).wrapping_mul(0x94D0_49BB_1331_11EB);
        z ^ (z >> 31)
    }
    /// A stream of its own from where this one stands, which stays there: what joined later is drawn from it, so that a seed
    /// gives all the rest as ever.
    pub fn aside(&self) -> Self {
        Self(self.0.rotate_left(32) ^ 0xD1B5_4A32_D192_ED03)
    }
    /// A number below n.
    pub fn below(&mut self, n: u64) -> u64 {
        self.next() % n
    }
    pub fn flag(&mut self) -> bool {
        self.next() & 1 == 1
    }
    /// True once in n.
    pub fn one_in(&mut self, n: u64) -> bool {
        self.below(n) == 0
    }
    pub fn pick<T: Copy>(&mut self, of: &[T]) -> T {
        of[self.below(of.len() as u64) as usize]
    }
    /// A byte: small ones and those at the limits come often.
    pub fn byte(&mut self) -> u8 {
        match self.below(4) {
            0 => self.below(4) as u8,
            1 => self.pick(&[15, 16, 17, 35, 36, 127, 128, 254, 255]),
            _ => self.next() as u8,
        }
    }
}
