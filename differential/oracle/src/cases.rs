//! Document 01's cases, run through the original: each number of the paper is asserted of the original itself,
//! and every call of every case is written as a vector, so that the port can be held beside it. The causes of the pairs, which
//! document 02's A3 gives them, are asserted of the second reading. The lists of the aimed vectors, object DMA's and the causes', are
//! run too, and section 6's six records.
use std::io::Write;

use crate::answer::Answer;
use crate::calls::{Call, Oracle};
use crate::cause::Cause;
use crate::kind;
use crate::layout::SIZE;
use crate::vector::Vector;

struct Case<'a> {
    oracle: &'a mut Oracle,
    state: [u8; SIZE],
    /// Of all pairs that came, in order.
    causes: Vec<u8>,
    out: &'a mut dyn Write,
    /// Vectors are written only while this is set: K9 is long.
    written: bool,
}

impl Case<'_> {
    fn vector(&mut self, call: Call) -> Vector {
        let vector = Vector::of(self.oracle, call, self.state);
        if self.written {
            self.out.write_all(&vector.bytes()).unwrap();
        }
        self.state = vector.after;
        self.causes.extend(vector.answer.causes(call.record[0]));
        vector
    }
    fn call(&mut self, call: Call) -> Answer {
        self.vector(call).answer
    }
    fn set(&mut self, address: u16, value: u8) {
        let mut c = Call::new(kind::WRITE);
        c.record[2..4].copy_from_slice(&address.to_le_bytes());
        c.record[4] = value;
        c.record[5] = 1;
        assert_eq!(self.call(c).refusal(), 0);
    }
    fn read(&mut self, address: u16) -> u8 {
        let mut c = Call::new(kind::READ);
        c.record[2..4].copy_from_slice(&address.to_le_bytes());
        self.call(c).nth(0) as u8
    }
    fn ff55(&mut self) -> u8 {
        self.read(0xFF55)
    }
    /// The refusal of a fall: bit 0 of the flags is halted.
    fn fall(&mut self, mode: u8, flags: u8, edge: u64) -> u8 {
        let mut c = Call::new(kind::FALL);
        c.record[4] = mode;
        c.record[5] = flags;
        c.record[8..16].copy_from_slice(&edge.to_le_bytes());
        self.call(c).refusal()
    }
    /// A held bus call: its pairs, and whether it took a set-up cell.
    fn bus(&mut self, oam_edge: u64) -> (Vec<(u16, u16)>, bool) {
        let mut c = Call::new(kind::BUS_CALL);
        c.record[5] = 1;
        c.record[8..16].copy_from_slice(&oam_edge.to_le_bytes());
        let a = self.call(c);
        assert_eq!(a.refusal(), 0);
        let pairs = (0..a.nth(0).into()).map(|k| a.pair(k)).collect();
        (pairs, a.nth(1) == 1)
    }
    /// 0 none, 1 discarded, 2 cut.
    fn switch(&mut self, phase: u8) -> u16 {
        let mut c = Call::new(kind::SPEED_SWITCH);
        c.record[4] = phase;
        let a = self.call(c);
        assert_eq!(a.refusal(), 0);
        a.nth(0)
    }
    fn drain_blackout(&mut self, elapsed: u32) {
        let mut c = Call::new(kind::BLACKOUT_DRAIN);
        c.record[8..12].copy_from_slice(&elapsed.to_le_bytes());
        assert_eq!(self.call(c).nth(0), 1);
    }
    fn blackout(&self) -> u32 {
        u32::from_le_bytes(self.state[45..49].try_into().unwrap())
    }
    fn left(&self) -> u16 {
        u16::from_le_bytes([self.state[5], self.state[6]])
    }
    /// Rounds of fall and held bus, with all their pairs.
    fn rounds(&mut self, n: usize, mode: u8) -> Vec<(u16, u16)> {
        let mut all = Vec::new();
        for _ in 0..n {
            assert_eq!(self.fall(mode, 0, 0), 0);
            all.extend(self.bus(0).0);
        }
        all
    }
    /// Armed with a value, K2's falls; each bus call where the case has it.
    fn k2(&mut self, value: u8) -> Vec<(u16, u16)> {
        self.set(0xFF55, value);
        self.fall(3, 0, 0);
        self.fall(0, 0, 0);
        assert_eq!(self.ff55(), value - 0x80);
        self.fall(0, 0, 0);
        assert_eq!(self.ff55(), if value == 0x80 { 0xFF } else { 0x00 });
        self.fall(0, 0, 0);
        assert_eq!(self.bus(0), (vec![], true));
        self.fall(0, 0, 0);
        let (pairs, cell) = self.bus(0);
        assert!(!cell);
        pairs
    }
}

fn upward(n: u16, source: u16, dest: u16) -> Vec<(u16, u16)> {
    (0..n).map(|k| (source + k, dest + k)).collect()
}

/// The causes of a run of n pairs: the last has this one, those in front of it go on.
pub fn run_of(n: usize, last: Cause) -> Vec<u8> {
    let mut causes = vec![Cause::GoingOn as u8; n];
    causes[n - 1] = last as u8;
    causes
}

fn k1(c: &mut Case) {
    c.set(0xFF55, 0x00);
    assert_eq!(c.rounds(8, 3), upward(16, 0x0000, 0x8000));
    assert_eq!(c.ff55(), 0xFF);
    assert_eq!(c.causes, run_of(16, Cause::CountedOut));
}

fn k2(c: &mut Case) {
    assert_eq!(c.k2(0x80), upward(2, 0x0000, 0x8000));
    assert_eq!(c.causes, run_of(2, Cause::GoingOn));
}

fn k3(c: &mut Case) {
    c.set(0xFF55, 0x83);
    c.set(0xFF55, 0x00);
    assert_eq!(c.ff55(), 0x80);
}

fn k4(c: &mut Case) {
    assert_eq!(thirty_two(c, 0xFF, 0xF0), upward(16, 0x0000, 0x9FF0));
    assert_eq!(c.causes, run_of(16, Cause::Carried));
}

fn k5(c: &mut Case) {
    let expected = [upward(16, 0x0000, 0x9FF0), upward(16, 0x0010, 0x8000)].concat();
    assert_eq!(thirty_two(c, 0x9F, 0xF0), expected);
    assert_eq!(c.causes, run_of(32, Cause::CountedOut));
}

/// K4 and K5: a General transfer of 32 bytes to this destination.
fn thirty_two(c: &mut Case, high: u8, low: u8) -> Vec<(u16, u16)> {
    c.set(0xFF53, high);
    c.set(0xFF54, low);
    c.set(0xFF55, 0x01);
    c.rounds(16, 3)
}

fn k6(c: &mut Case) {
    assert_eq!(c.k2(0x81), upward(2, 0x0000, 0x8000));
    c.set(0xFF4D, 0x01);
    assert_eq!(c.switch(4), 2);
    c.fall(0, 0, 0);
    assert_eq!(c.bus(0).0, vec![(0x0002, 0x8002)]);
    assert_eq!((c.left(), c.ff55()), (30, 0x80));
    assert_eq!(c.causes, run_of(3, Cause::GoingOn));
}

fn k7(c: &mut Case) {
    for edges in [131_077, 262_144, 131_079] {
        c.set(0xFF4D, 0x01);
        assert_eq!(c.switch(3), 0);
        assert_eq!(c.blackout(), edges);
        c.drain_blackout(edges);
    }
}

/// A block that committed at an edge, then a contended bus call: which source was deposited in OAM.
fn k8(c: &mut Case, block_edge: u64, oam_edge: u64, second: bool) {
    c.set(0xFF51, 0xC0);
    c.set(0xFF55, 0x80);
    c.fall(3, 0, 0);
    c.fall(0, 0, 0);
    c.fall(0, 0, block_edge);
    c.fall(0, 0, 0);
    assert_eq!(c.bus(0), (vec![], true));
    c.fall(0, 0, 0);
    let mut arbitrate = Call::new(kind::ARBITRATION);
    arbitrate.record[5] = 5;
    assert_eq!(c.call(arbitrate).nth(0), 1);
    let mut bus = Call::new(kind::BUS_CALL);
    bus.record[1] = 7;
    bus.record[5] = 1;
    bus.record[8..16].copy_from_slice(&oam_edge.to_le_bytes());
    let moved = c.vector(bus);
    let deposits: Vec<u16> =
        moved.changes.iter().filter(|change| change.which == 3).map(|change| change.index).collect();
    assert_eq!(deposits, vec![second as u16], "edges {block_edge} and {oam_edge}");
}

/// The fifth fall of round 256 is the first that gets 14.
fn k9(c: &mut Case) {
    c.set(0xFF55, 0xFF);
    for round in 1..=256 {
        c.written = round == 1 || round == 256;
        for (k, (mode, halted)) in [(3, 0), (3, 1), (3, 1), (0, 1), (0, 0), (0, 0)].into_iter().enumerate() {
            let refused = c.fall(mode, halted, 0);
            assert_eq!(refused, if round == 256 && k == 4 { 14 } else { 0 }, "round {round}, fall {}", k + 1);
            if refused == 14 {
                return;
            }
        }
    }
}

pub fn write(out: &mut dyn Write) {
    crate::six_records::check();
    eprintln!("section 6: the original gives the paper's lines, and the log and verdicts that follow from them");
    crate::sample::check_causes();
    eprintln!("the replay's script shows each cause");
    let mut oracle = Oracle::new();
    let mut run = |compat: bool, case: &mut dyn FnMut(&mut Case)| {
        let state = oracle.power_on(compat);
        case(&mut Case { oracle: &mut oracle, state, causes: Vec::new(), out, written: true });
    };
    run(false, &mut k1);
    run(false, &mut k2);
    run(false, &mut k3);
    run(false, &mut k4);
    run(false, &mut k5);
    run(false, &mut k6);
    run(false, &mut k7);
    for (block, oam, second) in [(100, 98, true), (100, 92, true), (100, 96, false), (100, 94, false), (0, 0, true)] {
        run(false, &mut |c| k8(c, block, oam, second));
    }
    run(false, &mut k9);
    run(true, &mut |c| {
        c.set(0xFF55, 0x00);
        assert_eq!(c.ff55(), 0xFF);
    });
    eprintln!("K1 to K10: the original gives the paper's numbers, and the second reading the causes of their pairs");
    crate::aimed::check_lists();
    eprintln!("object DMA and the causes of pairs: the second reading gives the requests' numbers");
}
