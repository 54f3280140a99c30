//! The original behind an entry like the port's exported one: the state and the call as bytes, decoded and encoded at every
//! call. bench/ times the two side by side.
use crate::calls::{Call, Oracle};
use crate::layout::SIZE;

pub struct Entry {
    oracle: Oracle,
}

impl Entry {
    pub fn new(cartridge: &[u8], wram: &[u8], vram: &[u8], oam: &[u8]) -> Self {
        let mut oracle = Oracle::new();
        oracle.refills = false;
        oracle.set_memory(cartridge, wram, vram, oam);
        Self { oracle }
    }

    /// The refusal, or 0.
    pub fn perform(&mut self, state: &mut [u8; SIZE], record: &[u8; 16]) -> u8 {
        let mut call = Call::new(record[0]);
        call.record = *record;
        let outcome = self.oracle.perform(&call, state);
        *state = outcome.state;
        outcome.answer.refusal()
    }
}
