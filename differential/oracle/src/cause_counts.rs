//! How often each cause came, by kind, and how often what a misreading of document 02's A3 would get wrong: for the reports.
use std::fmt;

use crate::answer::Answer;
use crate::calls::Call;
use crate::cause::Registers;
use crate::kind;
use crate::layout::SIZE;

/// The calls that answer with pairs.
const KINDS: [(u8, &str); 4] = [
    (kind::NEXT_PAIR, "next pair"),
    (kind::ESCAPE_DRAIN, "escape drain"),
    (kind::BUS_CALL, "bus"),
    (kind::BUS_CALL_FROM_INSIDE, "bus inside"),
];

#[derive(Default)]
pub struct CauseCounts {
    /// Of each kind: going on, counted out, carried.
    by_kind: [[u64; 3]; 4],
    /// Carried where left would have reached 0 anyway, where more was left, and by a free pair.
    carried_at_1: u64,
    carried_with_more: u64,
    carried_free: u64,
    /// A free pair goes on, though 1 is left.
    free_at_1: u64,
    /// Of a bus call's two pairs the second; the first goes on.
    second_counted_out: u64,
    second_carried: u64,
}

const COUNTED_OUT: u8 = 1;
const CARRIED: u8 = 2;

impl CauseCounts {
    pub fn count(&mut self, call: &Call, before: &[u8; SIZE], answer: &Answer) {
        let kind = call.record[0];
        let Some(row) = KINDS.iter().position(|(of, _)| *of == kind) else { return };
        let word = |at: usize| u16::from_le_bytes([before[at], before[at + 1]]);
        let mut registers = Registers { destination: word(2), left: word(5), free: before[8] == 1 };
        for (k, &cause) in answer.causes(kind).iter().enumerate() {
            let Registers { left, free, .. } = registers;
            // From the state in front of the call, also where the original showed what was left after the pair.
            assert_eq!(registers.pair() as u8, cause);
            self.by_kind[row][cause as usize] += 1;
            self.carried_at_1 += (cause == CARRIED && left == 1 && !free) as u64;
            self.carried_with_more += (cause == CARRIED && left > 1 && !free) as u64;
            self.carried_free += (cause == CARRIED && free) as u64;
            self.free_at_1 += (cause != CARRIED && left == 1 && free) as u64;
            self.second_counted_out += (cause == COUNTED_OUT && k == 1) as u64;
            self.second_carried += (cause == CARRIED && k == 1) as u64;
        }
    }

    pub fn pairs(&self) -> u64 {
        self.by_kind.as_flattened().iter().sum()
    }
}

impl fmt::Display for CauseCounts {
    fn fmt(&self, f: &mut fmt::Formatter) -> fmt::Result {
        writeln!(f, "{:<20} {:>12}  going on, counted out, carried", "kind", "pairs")?;
        for ((_, name), [going_on, counted_out, carried]) in KINDS.iter().zip(self.by_kind) {
            let pairs = going_on + counted_out + carried;
            writeln!(f, "{name:<20} {pairs:>12}  {going_on}, {counted_out}, {carried}")?;
        }
        let (at_1, more, free) = (self.carried_at_1, self.carried_with_more, self.carried_free);
        writeln!(f, "carried with 1 left {at_1}, with more {more}, by a free pair {free}")?;
        writeln!(f, "a free pair that goes on with 1 left {}", self.free_at_1)?;
        let (counted_out, carried) = (self.second_counted_out, self.second_carried);
        write!(f, "the second pair of a bus call counted out {counted_out}, carried {carried}")
    }
}
