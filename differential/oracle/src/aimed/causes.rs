//! Aimed vectors of how the run goes on (document 02, A3): the pairs that are a run's last, those just in front of them, and what
//! looks like one of them and is not; then lists from power-on, of which the causes are asserted.
use super::*;
use crate::cases::run_of;
use crate::cause::Cause;

/// The calls that answer with pairs, the bus held.
fn calls() -> [Call; 4] {
    [plain(kind::NEXT_PAIR), plain(kind::ESCAPE_DRAIN), bus(HOLD, 0), bus_inside(HOLD)]
}

/// A General transfer, else at rest: the destination at FFFFh and before it, left at 1 and above it, an escape owed or not, quota 1 and
/// 2, each with each. Then left and destinations of which a part alone is at its limit.
pub fn each_with_each(a: &mut Aim) {
    let general = a.rest().with(&[(MODE, 1), (SOURCE, 0xC123)]);
    for dest in [0xFFFF, 0xFFFE, 0xFFFD, 0x9FFF] {
        for left in [1, 2, 3] {
            for (escape, quota) in [(0, 1), (0, 2), (1, 1), (1, 2)] {
                let state = general.with(&[(DEST, dest), (LEFT, left), (ESCAPE, escape), (QUOTA, quota)]);
                a.around(state, &[], &calls());
            }
        }
    }
    let far = general.with(&[(DEST, 0x0123), (LEFT, 32), (QUOTA, 2)]);
    let limits: [Settings; 12] = [
        &[(LEFT, 256)],
        &[(LEFT, 257)],
        &[(LEFT, 258)],
        &[(LEFT, 2048)],
        &[(LEFT, 17)],
        &[(LEFT, 16)],
        &[(DEST, 0x00FF)],
        &[(DEST, 0xFF00)],
        &[(DEST, 0xFEFF)],
        &[(DEST, 0x7FFF)],
        &[(DEST, 0x1FFE)],
        &[(DEST, 0xFFFF), (LEFT, 2048)],
    ];
    a.around(far, &limits, &calls());
    a.around(far.with(&[(ESCAPE, 1)]), &limits, &[plain(kind::ESCAPE_DRAIN), bus(SUSPENDED, 0)]);
}

/// A block's last pair is a run's last only where left or the destination makes it so; what remains of a block does not change it.
pub fn blocks(a: &mut Aim) {
    let block = a.rest().with(&[(BLOCK, 1), (QUOTA, 2), (SOURCE, 0xC123), (DEST, 0x0123), (GRANTED, 1)]);
    let changes: [Settings; 9] = [
        &[(LEFT, 1)],
        &[(LEFT, 2)],
        &[(LEFT, 17)],
        &[(LEFT, 17), (DEST, 0xFFFF)],
        &[(LEFT, 1), (DEST, 0xFFFF)],
        &[(LEFT, 2), (DEST, 0xFFFE), (BLOCK, 2)],
        &[(LEFT, 16), (BLOCK, 16), (DEST, 0xFFFF)],
        &[(LEFT, 2), (BLOCK, 16)],
        &[(LEFT, 17), (BLOCK, 2)],
    ];
    for mode in [0, 2] {
        for escape in [0, 1] {
            for change in changes {
                let state = block.with(&[(MODE, mode), (ESCAPE, escape)]).with(change);
                a.around(state, &[], &calls());
            }
        }
    }
    // A deposit, and the other speed.
    let last = block.with(&[(MODE, 2), (LEFT, 2), (BLOCK, 2), (CONTENDED, 1), (START_EDGE, 100)]);
    let changes: [Settings; 3] = [&[(DEST, 0xFFFE)], &[(DEST, 0xFFFF)], &[(DOUBLE, 1), (QUOTA, 1), (LEFT, 1)]];
    a.around(last, &changes, &[bus(HOLD, 98), bus(HOLD, 96), bus_inside(HOLD)]);
}

/// No pair and no cause: with the destination at FFFFh and 1 left nothing moves, for each reason, or the call is refused.
pub fn no_pair(a: &mut Aim) {
    let last = a.rest().with(&[(MODE, 1), (LEFT, 1), (DEST, 0xFFFF), (QUOTA, 1)]);
    let changes: [Settings; 6] = [
        &[(QUOTA, 0)],
        &[(MODE, 0)],
        &[(MODE, 0), (BLOCK, 1), (READY, 1), (ESCAPE, 1)],
        &[(MODE, 0), (LEFT, 0), (BLOCK, 1), (ESCAPE, 1)],
        &[(SETUP, 1)],
        &[(QUOTA, 3)],
    ];
    a.around(last, &changes, &calls());
    a.around(last, &[], &[bus(0, 0), bus_inside(0)]);
    for which in 0..4 {
        a.around(last, &[], &[bus(HOLD, 0), bus_inside(HOLD)].map(|call| resized(call, which, -1)));
    }
}

/// What is read off a list besides.
impl List<'_, '_> {
    fn left(&self) -> u16 {
        u16::from_le_bytes([self.state.0[5], self.state.0[6]])
    }

    /// A fall in this mode and the call: the causes of its pairs.
    fn after_fall(&mut self, mode: u8, call: Call) -> Vec<u8> {
        assert_eq!(self.call(fall(mode, RUNNING)).refusal(), 0);
        let answer = self.call(call);
        assert_eq!(answer.refusal(), 0);
        answer.causes(call.record[0]).to_vec()
    }

    /// A transfer to this destination, armed or started by FF55.
    fn begin(&mut self, dest: u16, value: u8) {
        self.set(0xFF53, (dest >> 8) as u8);
        self.set(0xFF54, dest as u8);
        self.set(0xFF55, value);
    }

    /// A block of HBlank up to its last byte, two pairs at a time and then one, which all go on; then a switch cuts it. Written from the
    /// last three pairs on.
    fn cut_at_last(&mut self, dest: u16, value: u8) {
        self.written = false;
        self.begin(dest, value);
        for mode in [3, 0, 0] {
            assert_eq!(self.call(fall(mode, RUNNING)).refusal(), 0);
        }
        // The set-up cell.
        assert!(self.after_fall(0, bus(HOLD, 0)).is_empty());
        for k in 0..7 {
            self.written = k == 6;
            assert_eq!(self.after_fall(0, bus(HOLD, 0)), run_of(2, Cause::GoingOn));
        }
        assert_eq!(self.after_fall(0, plain(kind::NEXT_PAIR)), run_of(1, Cause::GoingOn));
        self.set(0xFF4D, 0x01);
        assert_eq!(self.call(switch(4, 0)).nth(0), 2);
    }
}

/// A General transfer: so many pairs, the last with this cause, two in a bus call or one in a next pair; then none.
fn general(a: &mut Aim, dest: u16, value: u8, pairs: usize, last: Cause) {
    for call in [plain(kind::NEXT_PAIR), bus(HOLD, 0), bus_inside(HOLD)] {
        let mut l = List::new(a, false);
        l.begin(dest, value);
        let mut causes = Vec::new();
        for _ in 0..=pairs {
            l.written = causes.len() + 2 >= pairs;
            causes.extend(l.after_fall(3, call));
        }
        assert_eq!((causes, l.left()), (run_of(pairs, last), 0));
    }
}

/// "carried (past FFFFh), this also where left would have reached 0 anyway"
fn generals(a: &mut Aim) {
    general(a, 0x8000, 0x00, 16, Cause::CountedOut);
    general(a, 0x9FF0, 0x01, 32, Cause::CountedOut);
    general(a, 0xFFE0, 0x00, 16, Cause::CountedOut);
    general(a, 0xFFF0, 0x01, 16, Cause::Carried);
    general(a, 0xFFF0, 0x00, 16, Cause::Carried);
    general(a, 0xFFE0, 0x01, 32, Cause::Carried);
    general(a, 0xFFE0, 0x02, 32, Cause::Carried);
}

/// The free byte of a cut, by each call that may hand it out: at FFFFh it carries, whatever is left; else it goes on, with 1 left too.
fn free_pairs(a: &mut Aim) {
    for (dest, value, cause, left) in [
        (0xFFF0, 0x80, Cause::Carried, 0),
        (0xFFF0, 0x81, Cause::Carried, 0),
        (0x8000, 0x80, Cause::GoingOn, 1),
        (0x8000, 0x81, Cause::GoingOn, 17),
    ] {
        for call in calls() {
            let mut l = List::new(a, false);
            l.cut_at_last(dest, value);
            assert_eq!(l.after_fall(0, call), run_of(1, cause));
            assert_eq!(l.left(), left);
        }
    }
}

/// A General transfer of 16 bytes with a free one in front of it: 17 pairs, if it does not carry in front of the last.
fn free_in_front(a: &mut Aim) {
    for (dest, pairs, cause) in
        [(0x8000, 17, Cause::CountedOut), (0xFFE0, 17, Cause::CountedOut), (0xFFF0, 16, Cause::Carried)]
    {
        let mut l = List::new(a, false);
        l.cut_at_last(0x8000, 0x81);
        l.begin(dest, 0x00);
        let mut causes = Vec::new();
        for _ in 0..18 {
            l.written = causes.is_empty() || causes.len() + 2 >= pairs;
            causes.extend(l.after_fall(3, bus(HOLD, 0)));
        }
        assert_eq!((causes, l.left()), (run_of(pairs, cause), 0));
    }
}

/// The lists, each from power-on.
pub fn lists(a: &mut Aim) {
    generals(a);
    free_pairs(a);
    free_in_front(a);
}
