//! Lent memory in a vector: its contents are a rule of the index and a seed, so that only the bytes that a
//! call changed are written down. The replaying side has the same rule.

pub const CARTRIDGE: usize = 40_960;
pub const WRAM: usize = 32_768;
pub const VRAM: usize = 16_384;
pub const OAM: usize = 160;

/// What stands at an index before a call; `which` is 0 cartridge, 1 WRAM, 2 VRAM, 3 OAM.
pub fn filled(which: u8, seed: u8, index: usize) -> u8 {
    let mixed = (index % 256) + (index / 256) * 7 + which as usize * 85 + seed as usize;
    (mixed % 256) as u8
}

/// A byte that a call changed, or nothing.
#[derive(Clone, Copy, Default, Debug, PartialEq)]
pub struct Change {
    pub which: u8,
    pub index: u16,
    pub value: u8,
}
