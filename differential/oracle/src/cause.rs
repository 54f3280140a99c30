//! How the run goes on after a pair: the second reading. "The display needs to know if a pair was the last, and by which cause": the
//! original hands out pairs and says nothing of it, so this is document 02's A3, read a second time, sentence by sentence, and not
//! from the port's definitions. What it looks at is the original's: the registers in front of a call, the pairs that came, and what is
//! left after them.
use crate::vram_dma::VramDma;

/// The last destination: "carried (past FFFFh)".
const LAST: u16 = 0xFFFF;

/// "one of going on, counted out (left fell to 0), or carried (past FFFFh)"; "0, 1 or 2"
#[derive(Clone, Copy, Debug, PartialEq)]
pub enum Cause {
    GoingOn = 0,
    CountedOut = 1,
    Carried = 2,
}

impl Cause {
    /// Of a pair that came, by the destination register in front of it and what is left after it. "carried (past FFFFh), this also
    /// where left would have reached 0 anyway": the destination is asked first. "counted out (left fell to 0)": since "At left 0
    /// the engine never moves" (document 01, section 3), left was above 0 in front of the pair.
    fn of(destination: u16, left_after: u16) -> Self {
        if destination == LAST {
            Self::Carried
        } else if left_after == 0 {
            Self::CountedOut
        } else {
            Self::GoingOn
        }
    }
}

/// Source and destination as the original's answer has them, and the cause.
#[derive(Clone, Copy, Debug, PartialEq)]
pub struct Pair {
    pub source: u16,
    pub destination: u16,
    pub cause: Cause,
}

/// "Next pair shall answer with one of going on, counted out .., or carried ..": the original's `next_byte`.
#[inline]
pub fn next_pair(engine: &mut VramDma) -> Option<Pair> {
    single(engine, VramDma::next_byte)
}

/// "Bus call, escape drain and replay pass it on": the original's `drain_escape`.
#[inline]
pub fn escape_drain(engine: &mut VramDma) -> Option<Pair> {
    single(engine, VramDma::drain_escape)
}

#[inline]
fn single(engine: &mut VramDma, take: impl Fn(&mut VramDma) -> Option<(u16, u16)>) -> Option<Pair> {
    let register = engine.cursor.dest;
    let (source, destination) = take(engine)?;
    Some(Pair { source, destination, cause: Cause::of(register, engine.cursor.remaining) })
}

/// What a pair's cause hangs on. A bus call of the original gives its pairs at once, so what stood between two of them is worked out
/// from what stood in front of the call.
#[derive(Clone, Copy, Debug, PartialEq)]
pub struct Registers {
    pub destination: u16,
    pub left: u16,
    /// An escape is owed: the next pair is free.
    pub free: bool,
}

impl Registers {
    pub fn of(engine: &VramDma) -> Self {
        let cursor = &engine.cursor;
        Self { destination: cursor.dest, left: cursor.remaining, free: cursor.escape_byte }
    }

    /// "each pair with its own", by what document 01, section 5, says happens at a pair: "if free, that pair is a *free pair* and free
    /// is cleared, else left falls by 1; if destination was FFFFh, .. left becomes 0 and destination 0, else destination grows by 1".
    pub fn pair(&mut self) -> Cause {
        let destination = self.destination;
        if self.free {
            self.free = false;
        } else {
            self.left -= 1;
        }
        if destination == LAST {
            self.left = 0;
            self.destination = 0;
        } else {
            self.destination += 1;
        }
        Cause::of(destination, self.left)
    }
}

/// The causes of a bus call's pairs, so many, from the registers in front of it. The original must have left what they leave, and left
/// 0 exactly if the last pair was a run's last; in front of another pair that cannot be.
pub fn of_bus_call(mut registers: Registers, pairs: usize, engine: &VramDma) -> Vec<Cause> {
    let causes: Vec<Cause> = (0..pairs).map(|_| registers.pair()).collect();
    assert_eq!(registers, Registers::of(engine));
    if let Some((last, earlier)) = causes.split_last() {
        assert_eq!(*last != Cause::GoingOn, engine.cursor.remaining == 0);
        assert!(earlier.iter().all(|cause| *cause == Cause::GoingOn));
    }
    causes
}
