//! One vector: a call with the state before it, and what the original answered and left. Its 568 bytes: 0-15 the call's record, 16-31
//! the four lengths, 32-279 the state before, 280-303 the answer, 304-551 the state after, 552-567 up to four changed
//! bytes of memory (which slice, or 0 for none; the index in two bytes; the value). Kind 0 is power-on: compat in byte
//! 4, nothing before, the original's `Default` after.
use crate::answer::{self, Answer};
use crate::calls::{Call, Oracle};
use crate::layout::SIZE;
use crate::memory::Change;

pub const BYTES: usize = AFTER + SIZE + 16;

const LENGTHS: usize = 16;
const BEFORE: usize = LENGTHS + 16;
const ANSWER: usize = BEFORE + SIZE;
const AFTER: usize = ANSWER + answer::SIZE;
const CHANGES: usize = AFTER + SIZE;

pub struct Vector {
    pub call: Call,
    pub before: [u8; SIZE],
    pub answer: Answer,
    pub after: [u8; SIZE],
    pub changes: Vec<Change>,
}

impl Vector {
    pub fn of(oracle: &mut Oracle, call: Call, before: [u8; SIZE]) -> Self {
        let outcome = oracle.enter(&call, &before);
        Self { call, before, answer: outcome.answer, after: outcome.state, changes: outcome.changes }
    }

    pub fn power_on(oracle: &Oracle, compat: u8) -> Self {
        let mut call = Call { record: [0; 16], lengths: [0; 4] };
        call.record[4] = compat;
        let after = oracle.power_on(compat != 0);
        Self { call, before: [0; SIZE], answer: Answer::default(), after, changes: Vec::new() }
    }

    /// The vector that the original gives for the call and the state of these bytes.
    pub fn again(oracle: &mut Oracle, bytes: &[u8; BYTES]) -> Self {
        if bytes[0] == 0 {
            return Self::power_on(oracle, bytes[4]);
        }
        let length = |k: usize| u32::from_le_bytes(bytes[LENGTHS + 4 * k..LENGTHS + 4 * k + 4].try_into().unwrap());
        let call = Call { record: bytes[..16].try_into().unwrap(), lengths: [0, 1, 2, 3].map(length) };
        Self::of(oracle, call, bytes[BEFORE..ANSWER].try_into().unwrap())
    }

    pub fn bytes(&self) -> [u8; BYTES] {
        let mut out = [0u8; BYTES];
        out[..16].copy_from_slice(&self.call.record);
        for (k, n) in self.call.lengths.iter().enumerate() {
            out[LENGTHS + 4 * k..LENGTHS + 4 * k + 4].copy_from_slice(&n.to_le_bytes());
        }
        out[BEFORE..ANSWER].copy_from_slice(&self.before);
        out[ANSWER..AFTER].copy_from_slice(&self.answer.0);
        out[AFTER..CHANGES].copy_from_slice(&self.after);
        assert!(self.changes.len() <= 4);
        for (k, change) in self.changes.iter().enumerate() {
            let at = CHANGES + 4 * k;
            out[at] = change.which;
            out[at + 1..at + 3].copy_from_slice(&change.index.to_le_bytes());
            out[at + 3] = change.value;
        }
        out
    }

    /// The slices of the changed bytes, 0 where there is none.
    pub fn changed(&self) -> [u8; 4] {
        std::array::from_fn(|k| self.changes.get(k).map_or(0, |change| change.which))
    }

    /// The bytes of the state that the call changed.
    pub fn touched(&self) -> Vec<usize> {
        (0..SIZE).filter(|&k| self.before[k] != self.after[k]).collect()
    }
}
