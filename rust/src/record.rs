//! A call's record and an answer's (include/cgb_vram_dma.h), put together and taken apart.
use crate::answers::{Arbitration, Cause, Claim, CutOutcome, Cycle, Moved, ObjectDma, Pair, Status, Tally};
use crate::entry::{ANSWER_BYTES, CALL_BYTES};

pub(crate) struct Record([u8; CALL_BYTES]);

impl Record {
    pub fn of(kind: u8) -> Self {
        let mut bytes = [0; CALL_BYTES];
        bytes[0] = kind;
        Self(bytes)
    }
    pub fn address(mut self, address: u16) -> Self {
        self.0[2..4].copy_from_slice(&address.to_le_bytes());
        self
    }
    pub fn small(mut self, value: u8) -> Self {
        self.0[4] = value;
        self
    }
    /// 4 stands for no phase: a phase of 4 must not be taken for that, so all that are none of 0 to 3 go as one that is
    /// refused.
    pub fn dot_phase(self, phase: Option<u8>) -> Self {
        self.small(match phase {
            None => 4,
            Some(phase @ 0..=3) => phase,
            Some(_) => u8::MAX,
        })
    }
    pub fn arbitration(self, answer: Arbitration) -> Self {
        self.small(match answer {
            Arbitration::Clear => 0,
            Arbitration::Contended => 1,
            Arbitration::Stall => 2,
        })
    }
    pub fn bits(mut self, bits: &[bool]) -> Self {
        self.0[5] = bits.iter().rev().fold(0, |all, bit| (all << 1) | u8::from(*bit));
        self
    }
    pub fn edge(mut self, edge: u64) -> Self {
        self.0[8..].copy_from_slice(&edge.to_le_bytes());
        self
    }
    pub fn bytes(&self) -> &[u8; CALL_BYTES] {
        &self.0
    }
}

pub(crate) struct Answer([u8; ANSWER_BYTES]);

impl Answer {
    pub fn new(bytes: [u8; ANSWER_BYTES]) -> Self {
        Self(bytes)
    }
    fn at(&self, at: usize) -> u16 {
        u16::from_le_bytes([self.0[at], self.0[at + 1]])
    }
    pub fn word(&self, k: usize) -> u16 {
        self.at(2 + 2 * k)
    }
    pub fn flag(&self, k: usize) -> bool {
        self.word(k) != 0
    }
    pub fn byte(&self, k: usize) -> u8 {
        self.0[2 + 2 * k]
    }
    pub fn claim(&self) -> Claim {
        Claim { committed: self.flag(0), standing: self.flag(1) }
    }
    fn cause(&self, at: usize) -> Cause {
        match self.0[at] {
            0 => Cause::GoingOn,
            1 => Cause::CountedOut,
            _ => Cause::Carried,
        }
    }
    pub fn handed(&self) -> Option<Pair> {
        self.flag(0).then(|| Pair { source: self.word(1), destination: self.word(2), cause: self.cause(8) })
    }
    pub fn conflict(&self) -> Option<u16> {
        self.flag(0).then(|| self.word(1))
    }
    pub fn cut(&self) -> CutOutcome {
        match self.word(0) {
            0 => CutOutcome::None,
            1 => CutOutcome::Discarded,
            _ => CutOutcome::Cut,
        }
    }
    pub fn arbitration(&self) -> Arbitration {
        match self.word(0) {
            0 => Arbitration::Clear,
            1 => Arbitration::Contended,
            _ => Arbitration::Stall,
        }
    }
    pub fn tally(&self) -> Tally {
        Tally {
            source: self.word(0),
            destination_register: self.word(1),
            left: self.word(2),
            escape_owed: self.flag(3),
        }
    }
    pub fn status(&self) -> Status {
        match self.word(0) {
            0 => Status::Idle,
            1 => Status::General { left: self.word(1) },
            _ => Status::HBlank { left: self.word(1), source: self.word(2), destination: self.word(3) },
        }
    }
    pub fn cycle(&self) -> Cycle {
        match self.word(0) {
            0 => Cycle::Nothing,
            1 => Cycle::Moved { source: self.word(1), byte: self.0[18] },
            _ => Cycle::PassedOver { source: self.word(1) },
        }
    }
    pub fn object_dma(&self) -> ObjectDma {
        ObjectDma { runs: self.flag(0), counted: self.byte(1), page: self.byte(2) }
    }
    pub fn moved(&self) -> Moved {
        let pair = |k: usize| {
            let at = 10 + 4 * k;
            let pair = Pair { source: self.at(at), destination: self.at(at + 2), cause: self.cause(20 + k) };
            (k < self.word(0).into()).then_some((pair, self.0[18 + k]))
        };
        Moved { pairs: [pair(0), pair(1)], set_up_cell: self.flag(1) }
    }
}
