//! An answer as the exported entry writes it (include/cgb_vram_dma.h), written a second time and by hand: the port's
//! layout is held against it too.
use std::ops::Range;

use crate::cause::Pair;
use crate::kind;

pub const SIZE: usize = 24;

/// Of a bus call's first pair and its second: document 02, A3.
const BUS_CAUSES: usize = 20;

/// Byte 0 the refusal or 0, 1 zero, 2-9 four values of two bytes, 10-17 the pairs of a bus call, each as source and
/// destination, 18 and 19 their bytes, 20 and 21 their causes, 22 and 23 zero. Of object DMA's M-cycle 18 is the byte moved.
#[derive(Clone, Copy, Default, Debug, PartialEq)]
pub struct Answer(pub [u8; SIZE]);

impl Answer {
    pub fn refused(number: u8) -> Self {
        let mut answer = Self::default();
        answer.0[0] = number;
        answer
    }
    pub fn value(n: impl Into<u16>) -> Self {
        Self::values(&[n.into()])
    }
    pub fn values(values: &[u16]) -> Self {
        let mut answer = Self::default();
        for (k, v) in values.iter().enumerate() {
            answer.0[2 + 2 * k..4 + 2 * k].copy_from_slice(&v.to_le_bytes());
        }
        answer
    }
    /// A next pair's or an escape drain's: the cause is the fourth value.
    pub fn single(pair: Option<Pair>) -> Self {
        pair.map_or(Self::default(), |p| Self::values(&[1, p.source, p.destination, p.cause as u16]))
    }
    /// With a bus call's pair 0 or 1.
    pub fn with_pair(mut self, k: usize, pair: Pair, byte: u8) -> Self {
        let at = 10 + 4 * k;
        self.0[at..at + 2].copy_from_slice(&pair.source.to_le_bytes());
        self.0[at + 2..at + 4].copy_from_slice(&pair.destination.to_le_bytes());
        self.0[18 + k] = byte;
        self.0[BUS_CAUSES + k] = pair.cause as u8;
        self
    }

    /// With the byte that object DMA moved.
    pub fn with_byte(mut self, byte: u8) -> Self {
        self.0[18] = byte;
        self
    }

    pub fn refusal(&self) -> u8 {
        self.0[0]
    }
    fn word(&self, at: usize) -> u16 {
        u16::from_le_bytes([self.0[at], self.0[at + 1]])
    }
    pub fn nth(&self, k: usize) -> u16 {
        self.word(2 + 2 * k)
    }
    /// Source and destination of a bus call's pair 0 or 1.
    pub fn pair(&self, k: usize) -> (u16, u16) {
        (self.word(10 + 4 * k), self.word(12 + 4 * k))
    }
    /// The causes of the pairs that a call of this kind answered with, in order.
    pub fn causes(&self, kind: u8) -> &[u8] {
        let pairs = if has_pairs(kind) { self.nth(0) as usize } else { 0 };
        &self.0[causes_at(kind)][..pairs]
    }
    #[cfg(feature = "port")]
    pub fn without_causes(mut self, kind: u8) -> Self {
        self.0[causes_at(kind)].fill(0);
        self
    }
}

/// Whether a call of this kind answers with pairs.
pub fn has_pairs(kind: u8) -> bool {
    !causes_at(kind).is_empty()
}

/// Where the causes stand in an answer to a call of this kind: they are the second reading's, all else there is the original's.
fn causes_at(kind: u8) -> Range<usize> {
    match kind {
        kind::NEXT_PAIR | kind::ESCAPE_DRAIN => 8..10,
        kind::BUS_CALL | kind::BUS_CALL_FROM_INSIDE => BUS_CAUSES..BUS_CAUSES + 2,
        _ => 0..0,
    }
}
