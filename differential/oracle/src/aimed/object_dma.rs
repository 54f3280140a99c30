//! Aimed vectors of object DMA (document 02, A1): its write, its M-cycle, the two calls from inside, the query, what every other
//! call leaves of it; then lists from power-on, of which the request's numbers are asserted.
use super::*;
use crate::memory::filled;
use crate::object_dma::REGISTER;

const RUNS: Field = Field(91, 1);
const PAGE: Field = Field(92, 1);
/// Bytes counted; `COUNTED` is the grant's mark.
const BYTES: Field = Field(93, 1);
const OBJECT_EDGE: Field = Field(94, 8);

/// Arbitration's answers, as a record has them.
const CLEAR: u8 = 0;
const CONTENDS: u8 = 1;
const STALL: u8 = 2;

fn start(page: u8, edge: u64) -> Call {
    with_edge(write(REGISTER, page, true), edge)
}

fn with_edge(mut call: Call, edge: u64) -> Call {
    call.record[8..16].copy_from_slice(&edge.to_le_bytes());
    call
}

fn cycle(said: u8) -> Call {
    let mut c = plain(kind::OBJECT_DMA_M_CYCLE);
    c.record[4] = said;
    c
}

fn arbitrate(flags: u8) -> Call {
    with_flags(kind::ARBITRATION_FROM_INSIDE, flags)
}

fn query() -> Call {
    plain(kind::OBJECT_DMA)
}

/// 57 bytes of page 12h are counted.
fn running(a: &Aim) -> State {
    a.rest().with(&[(RUNS, 1), (PAGE, 0x12), (BYTES, 57), (OBJECT_EDGE, EDGE)])
}

/// The write to FF46: pages in every part of the map and at 21's limit, from rest and over a transfer that runs, has ended, or
/// stands where no run leaves it; edges; what it does not look at and does not touch; two reasons at once.
pub fn starts(a: &mut Aim) {
    const PAGES: [u8; 17] =
        [0x00, 0x3F, 0x7F, 0x80, 0x9F, 0xA0, 0xBF, 0xC0, 0xCF, 0xD0, 0xDE, 0xDF, 0xE0, 0xE1, 0xEF, 0xF0, 0xFF];
    let over = running(a);
    for page in PAGES {
        a.around(a.rest(), &[&[(COMPAT, 1)]], &[start(page, 0)]);
        a.around(over, &[&[(COMPAT, 1)]], &[start(page, 100)]);
    }
    let changes: [Settings; 16] = [
        &[(BYTES, 0)],
        &[(BYTES, 1)],
        &[(BYTES, 159)],
        &[(BYTES, 160)],
        &[(BYTES, 160), (RUNS, 0)],
        &[(RUNS, 0)],
        &[(PAGE, 0xDF)],
        &[(WAS_TRANSFERRING, 1)],
        &[(WAS_TRANSFERRING, 1), (CONTENDED, 1)],
        &[(MODE, 2), (LEFT, 32), (BLOCK, 16), (QUOTA, 2)],
        &[(MODE, 1), (LEFT, 32)],
        &[(BLACKOUT, 9), (DOUBLE, 1)],
        &[(START_EDGE, 77), (ANCHOR, 78)],
        &[(SVBK, 5), (BANK, 1)],
        &[(COMPAT, 1), (SVBK, 5)],
        &[(DOUBLE, 1), (ESCAPE, 1), (BLOCK, 1), (LEFT, 30)],
    ];
    a.around(over, &changes, &[start(0xC3, 100), start(0xE0, 100)]);
    let mut dark = start(0x85, 3);
    dark.record[5] = 0;
    a.around(over, &[], &[dark]);
    for edge in [0, 1, 0xFF, 0x100, EDGE, 1 << 63, u64::MAX] {
        a.around(over, &[&[(RUNS, 0), (BYTES, 160)]], &[start(0xC3, edge)]);
        a.ask(a.rest(), start(0x40, edge));
    }
    // 7, 2, 21; only WRAM's length is looked at.
    for page in [0xDF, 0xE0] {
        let calls: Vec<Call> = [(1, -1), (1, 1), (0, 1), (2, -1), (3, -1)]
            .map(|(which, by)| resized(start(page, 100), which, by))
            .into_iter()
            .chain([start(page, 100)])
            .collect();
        a.around(over, &[&[(QUOTA, 3)], &[(BYTES, 161)], &[(PAGE, 0xE0)], &[(COMPAT, 1)]], &calls);
    }
    // A write elsewhere has no edge, and a read of FF46 no byte.
    for address in [0xFF45, 0xFF47, 0xFE46, 0xC046, 0xFF4D, 0xFF4F, 0xFF51, 0xFF55, 0xFF70, 0xFF72, 0xFF74] {
        a.around(over, &[&[(COMPAT, 1)], &[(RUNS, 0)]], &[with_edge(write(address, 0x05, true), 100)]);
    }
    let ended: Settings = &[(RUNS, 0), (BYTES, 160)];
    a.around(over, &[&[(COMPAT, 1)], ended], &[at(kind::READ, REGISTER), with_edge(at(kind::READ, REGISTER), 7)]);
}

/// The M-cycle: each answer of arbitration, from every place of a transfer; what it does not look at.
pub fn cycles(a: &mut Aim) {
    let said = [CLEAR, CONTENDS, STALL].map(cycle);
    let over = running(a);
    let changes: [Settings; 32] = [
        &[(BYTES, 0)],
        &[(BYTES, 1)],
        &[(BYTES, 127)],
        &[(BYTES, 128)],
        &[(BYTES, 158)],
        &[(BYTES, 159)],
        &[(BYTES, 160)],
        &[(RUNS, 0)],
        &[(RUNS, 0), (BYTES, 0)],
        &[(RUNS, 0), (BYTES, 159)],
        &[(RUNS, 0), (BYTES, 160)],
        &[(BYTES, 159), (WAS_TRANSFERRING, 1), (CONTENDED, 1)],
        &[(BYTES, 159), (COMPAT, 1)],
        &[(BYTES, 159), (OBJECT_EDGE, 0)],
        &[(WAS_TRANSFERRING, 1)],
        &[(CONTENDED, 1)],
        &[(DOUBLE, 1)],
        &[(DOUBLE, 1), (CONTENDED, 1)],
        &[(DOUBLE, 1), (ESCAPE, 1), (BLOCK, 1), (LEFT, 30), (QUOTA, 1)],
        &[(BLACKOUT, 9)],
        &[(BLACKOUT, 131_077), (DOUBLE, 1)],
        &[(COMPAT, 1)],
        &[(MODE, 1), (LEFT, 32), (QUOTA, 2)],
        &[(MODE, 2), (LEFT, 32), (BLOCK, 16), (QUOTA, 2), (CONTENDED, 1)],
        &[(SETUP, 1), (READY, 1), (BLOCK, 16), (LEFT, 32)],
        &[(PREV_HALTED, 1), (HALTED_FALLS, 3)],
        &[(PEND, 1), (PEND_AGE, 3), (TENURE, 9)],
        &[(OBJECT_EDGE, 0)],
        &[(OBJECT_EDGE, u64::MAX)],
        &[(SOURCE, 0xC123), (DEST, 0x0456)],
        &[(SVBK, 5)],
        &[(BANK, 1)],
    ];
    a.around(over, &changes, &said);
    a.around(a.rest(), &[], &said);
    let mut junk = with_edge(at(kind::OBJECT_DMA_M_CYCLE, 0xC123), u64::MAX);
    junk.record[5..8].fill(0xFF);
    a.ask(over, junk);
}

/// Where its byte comes from: each part of the map at its limits, in each bank, and OAM's ends.
pub fn cycle_sources(a: &mut Aim) {
    let over = running(a);
    for page in [0x00, 0x1F, 0x20, 0x3F, 0x40, 0x7F, 0x80, 0x9F, 0xA0, 0xBF, 0xC0, 0xCF, 0xD0, 0xDF] {
        for bytes in [0, 159] {
            let state = over.with(&[(PAGE, page), (BYTES, bytes)]);
            a.around(state, &[&[(BANK, 1), (SVBK, 3)], &[(SVBK, 3), (COMPAT, 1)]], &[cycle(CLEAR)]);
        }
    }
    for svbk in 0..8 {
        for page in [0xCF, 0xD0, 0xD7, 0xDF] {
            a.ask(over.with(&[(PAGE, page), (SVBK, svbk)]), cycle(CLEAR));
        }
    }
    for bank in [0, 1] {
        for page in [0x7F, 0x80, 0x8F, 0x90, 0x98, 0x9F, 0xA0] {
            a.ask(over.with(&[(PAGE, page), (BANK, bank)]), cycle(CLEAR));
        }
    }
}

/// The M-cycle's refusals: 6 for an answer that arbitration has not, 7, 2 for each slice, at rest and stalled too.
pub fn cycle_refusals(a: &mut Aim) {
    let over = running(a);
    let failing: [Settings; 4] = [&[(QUOTA, 3)], &[(BYTES, 161)], &[(PAGE, 0xE0)], &[(RUNS, 0), (BYTES, 160)]];
    for said in [3, 4, 16, 128, 255] {
        a.around(over, &failing, &[cycle(said)]);
        a.ask(over, resized(cycle(said), 1, -1));
    }
    for which in 0..4 {
        for by in [-1, 1] {
            for said in [CLEAR, CONTENDS, STALL] {
                let call = resized(cycle(said), which, by);
                a.around(over, &failing[if said == CLEAR { 0..4 } else { 3..4 }], &[call]);
            }
        }
    }
}

/// Arbitration from inside: each operand off by itself, as of the call from outside, and what it hears of object DMA.
pub fn inside_arbitration(a: &mut Aim) {
    let moving = running(a).with(&[(BLOCK, 16), (LEFT, 32), (QUOTA, 1), (ESCAPE, 1)]);
    let changes: [Settings; 24] = [
        &[(RUNS, 0)],
        &[(BYTES, 0)],
        &[(BYTES, 159)],
        &[(BYTES, 160)],
        &[(BYTES, 160), (RUNS, 0)],
        &[(BYTES, 160), (WAS_TRANSFERRING, 1)],
        &[(BYTES, 160), (RUNS, 0), (WAS_TRANSFERRING, 1)],
        &[(RUNS, 0), (WAS_TRANSFERRING, 1)],
        &[(RUNS, 0), (WAS_TRANSFERRING, 1), (CONTENDED, 1)],
        &[(RUNS, 0), (CONTENDED, 1)],
        &[(WAS_TRANSFERRING, 1)],
        &[(ESCAPE, 0)],
        &[(QUOTA, 0)],
        &[(SETUP, 1)],
        &[(READY, 1)],
        &[(BLOCK, 0)],
        &[(LEFT, 0)],
        &[(BLOCK, 0), (MODE, 1)],
        &[(MODE, 2)],
        &[(CONTENDED, 1), (LEFT, 0)],
        &[(COMPAT, 1)],
        &[(PAGE, 0), (OBJECT_EDGE, 0), (BYTES, 0)],
        &[(QUOTA, 3)],
        &[(BYTES, 161)],
    ];
    a.around_both(moving, &changes, &[arbitrate(HOLD)]);
    a.around_both(moving, &changes[..2], &[0, SUSPENDED].map(arbitrate));
    // The bit that says so from outside is not looked at.
    let at_rest: Settings = &[(RUNS, 0)];
    a.around_both(moving, &[at_rest], &[3, 4, 5, 6, 7, 0xFD].map(arbitrate));
    // From outside the state's object DMA is not looked at.
    a.around_both(moving, &[at_rest], &[1, 5].map(|flags| with_flags(kind::ARBITRATION, flags)));
}

/// The bus call from inside: K8's edges and others at their limits, the edge of the record being another; at rest too.
pub fn inside_bus(a: &mut Aim) {
    let block = running(a).with(&[(BLOCK, 16), (LEFT, 32), (QUOTA, 2), (MODE, 2), (SOURCE, 0xC010), (DEST, 0x0123)]);
    let contended = block.with(&[(CONTENDED, 1)]);
    for (start, object) in [
        (100, 98),
        (100, 96),
        (100, 94),
        (100, 92),
        (100, 97),
        (0, 0),
        (0, 1),
        (1, 0),
        (0, u64::MAX),
        (u64::MAX, 0),
        (1 << 63, 1),
        (0x100, 0),
    ] {
        let state = contended.with(&[(START_EDGE, start), (OBJECT_EDGE, object)]);
        let ended: Settings = &[(RUNS, 0), (BYTES, 160)];
        a.around(state, &[&[(QUOTA, 1)], &[(RUNS, 0)], ended], &[bus_inside(HOLD)]);
        // By this edge the other byte is deposited.
        let other = object.wrapping_add(4);
        a.around(state, &[], &[with_edge(bus_inside(HOLD), other), bus(HOLD, other)]);
    }
    let changes: [Settings; 14] = [
        &[(SETUP, 1)],
        &[(READY, 1)],
        &[(QUOTA, 0)],
        &[(QUOTA, 1)],
        &[(BLOCK, 0)],
        &[(BLOCK, 1)],
        &[(BLOCK, 0), (MODE, 1)],
        &[(LEFT, 1)],
        &[(MODE, 0), (LEFT, 0)],
        &[(ESCAPE, 1), (LEFT, 1)],
        &[(BANK, 1)],
        &[(DOUBLE, 1)],
        &[(DEST, 0xFFFF)],
        &[(SOURCE, 0xD0FF), (SVBK, 4)],
    ];
    a.around(block, &changes, &[bus_inside(HOLD)]);
    a.around(block, &changes[..1], &[0, SUSPENDED, 4, 7].map(bus_inside));
    a.around(contended.with(&[(START_EDGE, 100), (OBJECT_EDGE, 98)]), &changes, &[bus_inside(SUSPENDED)]);
    for which in 0..4 {
        for by in [-1, 1] {
            a.around(contended, &[&[(QUOTA, 3)], &[(BYTES, 161)]], &[resized(bus_inside(HOLD), which, by)]);
            a.ask(contended, resized(bus_inside(0), which, by));
        }
    }
}

/// The query, and refusal 7's two tests at their limits, in every call, running and at rest.
pub fn queries(a: &mut Aim) {
    let over = running(a);
    let changes: [Settings; 16] = [
        &[(RUNS, 0)],
        &[(BYTES, 0)],
        &[(BYTES, 159)],
        &[(BYTES, 160)],
        &[(BYTES, 161)],
        &[(BYTES, 255)],
        &[(RUNS, 0), (BYTES, 160)],
        &[(RUNS, 0), (BYTES, 161)],
        &[(RUNS, 0), (BYTES, 0)],
        &[(PAGE, 0)],
        &[(PAGE, 0xDF)],
        &[(PAGE, 0xE0)],
        &[(PAGE, 0xFF)],
        &[(RUNS, 0), (PAGE, 0xDF)],
        &[(RUNS, 0), (PAGE, 0xE0)],
        &[(OBJECT_EDGE, u64::MAX), (COMPAT, 1)],
    ];
    a.around(over, &changes, &[query(), plain(kind::TALLY)]);
    a.ask(a.rest(), query());
    for k in 1..=kind::LAST {
        for failing in [(BYTES, 161), (PAGE, 0xE0)] {
            a.ask(over.with(&[failing]), plain(k));
            a.ask(a.rest().with(&[failing]), plain(k));
        }
    }
}

/// Every other call leaves object DMA's bytes as they are, whether it is accepted or not.
pub fn kept(a: &mut Aim) {
    let over = running(a);
    let block = over.with(&[(MODE, 2), (LEFT, 32), (BLOCK, 16), (QUOTA, 2), (ESCAPE, 1), (KEY1, 1), (PARK, 1)]);
    let calls: Vec<Call> = (1..=kind::LAST).map(plain).collect();
    let ended: Settings = &[(RUNS, 0), (BYTES, 160), (PAGE, 0xDF)];
    a.around(block, &[ended], &calls);
    let registers: Vec<Call> = [0xC000, 0xD001, 0xFEA0, 0xFF4D, 0xFF4F, 0xFF51, 0xFF53, 0xFF55, 0xFF70, 0xFF75]
        .into_iter()
        .flat_map(|address| [write(address, 0x81, true), write(address, 0x02, false), at(kind::READ, address)])
        .collect();
    a.around(block, &[], &registers);
    let falls = [fall(0, RUNNING), fall(3, RUNNING), fall(0, HALTED), fall(0, OAM), fall(3, STOPPED), fall(4, RUNNING)];
    let pends: [Settings; 4] = [&[(PEND, 1)], &[(PEND, 1), (GRANTED, 255)], &[(BLOCK, 0), (PREV_HBLANK, 1)], ended];
    a.around(block, &pends, &falls);
    a.around(over, &[ended], &falls[..2]);
    let switches: Vec<Call> = (0..6).map(|phase| switch(phase, 0)).chain([switch(4, 1), switch(4, 2)]).collect();
    a.around_both(block, &[&[(BLOCK, 0)]], &switches);
    a.around(block.with(&[(BLACKOUT, 9), (LATENCY, 1), (LATENCY_LEFT, 1)]), &[ended], &[elapsed(4), elapsed(9)]);
    a.around(block, &[&[(CONTENDED, 1)], ended], &[bus(HOLD, 7), bus(SUSPENDED, EDGE), bus(0, 7)]);
}

/// Bytes that no state has, at object DMA's flag and behind its part.
pub fn no_state(a: &mut Aim) {
    let over = running(a);
    for (field, value) in [(RUNS, 2), (RUNS, 3), (RUNS, 255), (Field(102, 1), 1), (Field(103, 8), 1 << 63)] {
        a.around(over.with(&[(field, value)]), &[], &[query(), cycle(CLEAR), cycle(3), plain(kind::LAST + 1)]);
    }
    a.ask(over, plain(kind::LAST + 1));
}

impl List<'_, '_> {
    fn start(&mut self, page: u8, edge: u64) {
        assert_eq!(self.call(start(page, edge)).refusal(), 0);
    }

    /// Runs, counted and page, by the query.
    fn object_dma(&mut self) -> (u16, u16, u16) {
        let answer = self.call(query());
        (answer.nth(0), answer.nth(1), answer.nth(2))
    }

    /// An M-cycle in the console's order: a fall, arbitration, the M-cycle call with its answer, the bus call.
    fn m_cycle(&mut self, mode: u8, flags: u8) -> MCycle {
        assert_eq!(self.call(fall(mode, OAM)).refusal(), 0);
        let said = self.call(arbitrate(flags)).nth(0) as u8;
        let cycled = self.call(cycle(said));
        let moved = self.vector(bus_inside(flags));
        let deposits = moved.changes.iter().filter(|change| change.which == 3).count();
        MCycle { said, did: cycled.nth(0), source: cycled.nth(1), pairs: moved.answer.nth(0), deposits }
    }

    /// To double speed, and through the blackout.
    fn double(&mut self) -> u16 {
        self.set(0xFF4D, 0x01);
        let answer = self.call(switch(4, 0));
        assert_eq!(answer.refusal(), 0);
        assert_eq!(self.call(elapsed(131_077)).nth(0), 1);
        answer.nth(0)
    }
}

/// What an M-cycle gave: arbitration's answer; 0 nothing, 1 moved, 2 passed over; the source; pairs and deposits.
#[derive(Debug, PartialEq)]
struct MCycle {
    said: u8,
    did: u16,
    source: u16,
    pairs: u16,
    deposits: usize,
}

const NOTHING: u16 = 0;
const MOVED: u16 = 1;
const PASSED_OVER: u16 = 2;

/// By itself: 160 bytes, one each M-cycle, then rest.
fn alone(a: &mut Aim) {
    let mut l = List::new(a, false);
    assert_eq!(l.object_dma(), (0, 0, 0));
    assert_eq!(l.call(cycle(CLEAR)).nth(0), NOTHING);
    l.start(0xC0, 100);
    for k in 0..160 {
        l.written = k < 2 || k >= 158;
        assert_eq!(l.object_dma(), (1, k, 0xC0));
        let done = l.m_cycle(3, 0);
        assert_eq!(done, MCycle { said: CLEAR, did: MOVED, source: 0xC000 + k, pairs: 0, deposits: 0 });
    }
    assert_eq!(l.object_dma(), (0, 160, 0xC0));
    assert_eq!(l.m_cycle(3, 0).did, NOTHING);
    assert_eq!(l.object_dma(), (0, 160, 0xC0));
    l.start(0x00, 101);
    assert_eq!(l.object_dma(), (1, 0, 0));
}

/// A General transfer beside it at single speed: all 160 are passed over, and the M-cycle behind them is contended too.
fn beside_general(a: &mut Aim) {
    let mut l = List::new(a, false);
    l.set(0xFF51, 0x40);
    l.start(0xC1, 98);
    l.set(0xFF55, 0x7F);
    let mut contended = 0;
    for k in 0..163 {
        l.written = k < 3 || k >= 158;
        let done = l.m_cycle(3, HOLD);
        contended += (done.said == CONTENDS) as u16;
        assert_eq!(done.did, if k < 160 { PASSED_OVER } else { NOTHING });
        assert_eq!(done.pairs, 2);
        let in_oam = done.said == CONTENDS && (k * 2) % 256 < 160;
        assert!(done.deposits <= in_oam as usize);
        assert_eq!(l.object_dma(), ((k < 159) as u16, (k + 1).min(160), 0xC1));
    }
    assert_eq!(contended, 161);
}

/// An HBlank transfer of two blocks beside it: contended only where its bytes move.
fn beside_hblank(a: &mut Aim, double: bool) {
    let mut l = List::new(a, false);
    if double {
        assert_eq!(l.double(), 0);
    }
    l.set(0xFF51, 0xC0);
    l.set(0xFF55, 0x81);
    l.start(0x80, 6);
    let (mut moved, mut passed, mut pairs) = (0, 0, 0);
    for k in 0..64 {
        l.written = k < 12;
        // Eight M-cycles outside HBlank, then it, and again.
        let mode = if k % 32 < 8 { 3 } else { 0 };
        let seized = l.call(plain(kind::SEIZES_BUS)).nth(0) as u8;
        let done = l.m_cycle(mode, seized);
        moved += (done.did == MOVED) as u16;
        passed += (done.did == PASSED_OVER) as u16;
        pairs += done.pairs;
        assert_eq!(done.said == CONTENDS, !double && done.pairs > 0);
    }
    assert_eq!((moved + passed, pairs), (64, 32));
    assert_eq!(passed, if double { 0 } else { 16 });
}

/// A General transfer beside it at double speed: neither contended nor stalled.
fn beside_general_at_double(a: &mut Aim) {
    let mut l = List::new(a, false);
    assert_eq!(l.double(), 0);
    l.set(0xFF55, 0x01);
    l.start(0xA5, 7);
    for k in 0..6 {
        let done = l.m_cycle(3, HOLD);
        assert_eq!(done, MCycle { said: CLEAR, did: MOVED, source: 0xA500 + k, pairs: 1, deposits: 0 });
    }
}

/// K6 with object DMA beside it: at double speed the free byte's M-cycle stalls it, and it goes on in the next.
fn escape(a: &mut Aim) {
    let mut l = List::new(a, false);
    l.set(0xFF55, 0x81);
    l.start(0xD2, 40);
    // K2's falls: the set-up cell is taken after the fourth, two pairs after the fifth.
    for (mode, flags, did) in [(3, 0, MOVED), (0, 0, MOVED), (0, 0, MOVED), (0, HOLD, MOVED), (0, HOLD, PASSED_OVER)] {
        assert_eq!(l.m_cycle(mode, flags).did, did);
    }
    assert_eq!(l.double(), 2);
    let stalled = l.m_cycle(0, HOLD);
    assert_eq!(stalled, MCycle { said: STALL, did: NOTHING, source: 0, pairs: 1, deposits: 0 });
    assert_eq!(l.object_dma(), (1, 5, 0xD2));
    let next = l.m_cycle(0, HOLD);
    assert_eq!((next.said, next.did, next.source), (CLEAR, MOVED, 0xD205));
}

/// "a new write starts over", in the middle and at its end; one with a page above DFh changes nothing.
fn restart(a: &mut Aim) {
    let mut l = List::new(a, false);
    l.start(0x12, 1);
    for _ in 0..5 {
        l.m_cycle(3, 0);
    }
    l.start(0x34, 2);
    assert_eq!(l.object_dma(), (1, 0, 0x34));
    l.m_cycle(3, 0);
    assert_eq!(l.call(start(0xE0, 3)).refusal(), 21);
    assert_eq!(l.object_dma(), (1, 1, 0x34));
    let done = l.m_cycle(3, 0);
    assert_eq!((done.did, done.source), (MOVED, 0x3401));
    l.start(0x34, 4);
    assert_eq!(l.object_dma(), (1, 0, 0x34));
    assert_eq!(l.call(at(kind::READ, REGISTER)).refusal(), 4);
}

/// A bank that is switched in the middle counts from the next byte on.
fn banks(a: &mut Aim) {
    let mut l = List::new(a, false);
    // Which memory, and the index in it of the page's first byte, by document 01's stand-ins and FF70's rule.
    let mut check = |page: u8, register: u16, values: &[(u8, u8, usize)]| {
        l.start(page, 0);
        for (k, (value, which, index)) in values.iter().enumerate() {
            l.set(register, *value);
            for half in 0..2 {
                let at = 2 * k + half;
                let mut call = cycle(CLEAR);
                call.record[1] = 11 * at as u8;
                let moved = l.vector(call);
                let byte = filled(*which, call.record[1], index + at);
                assert_eq!((moved.answer.nth(0), moved.answer.0[18]), (MOVED, byte));
                assert!(moved.changes.iter().all(|c| (c.which, c.index, c.value) == (3, at as u16, byte)));
            }
        }
    };
    let work = |bank: usize| bank * 0x1000 + 0x300;
    check(0xD3, 0xFF70, &[(0, 1, work(1)), (2, 1, work(2)), (7, 1, work(7)), (1, 1, work(1)), (8, 1, work(1))]);
    check(0xC3, 0xFF70, &[(0, 1, 0x300), (2, 1, 0x300)]);
    check(0x93, 0xFF4F, &[(0, 2, 0x1300), (1, 2, 0x3300), (2, 2, 0x1300), (0xFF, 2, 0x3300)]);
    check(0xA3, 0xFF4F, &[(0, 0, 0x8300), (1, 0, 0x8300)]);
    check(0x73, 0xFF4F, &[(0, 0, 0x7300), (1, 0, 0x7300)]);
}

/// Compat does not lock it.
fn under_compat(a: &mut Aim) {
    let mut l = List::new(a, true);
    assert_eq!(l.call(start(0xE0, 5)).refusal(), 21);
    assert_eq!(l.object_dma(), (0, 0, 0));
    l.start(0xDF, 5);
    for k in 0..3 {
        assert_eq!(l.m_cycle(3, HOLD), MCycle { said: CLEAR, did: MOVED, source: 0xDF00 + k, pairs: 0, deposits: 0 });
    }
    assert_eq!(l.call(at(kind::READ, REGISTER)).refusal(), 4);
    assert_eq!(l.object_dma(), (1, 3, 0xDF));
}

/// The calls from outside among those from inside: arbitration keeps what it heard last, from whichever.
fn mixed(a: &mut Aim) {
    let mut l = List::new(a, false);
    let outside = |transfers: u8| with_flags(kind::ARBITRATION, HOLD | transfers << 2);
    l.set(0xFF55, 0x03);
    let steps = [
        (outside(1), CONTENDS),
        (arbitrate(HOLD), CONTENDS),
        (arbitrate(HOLD), CLEAR),
        (start(0x20, 92), 0),
        (outside(0), CLEAR),
        (arbitrate(HOLD), CONTENDS),
        (outside(0), CONTENDS),
        (outside(0), CLEAR),
    ];
    for (call, said) in steps {
        l.call(fall(3, RUNNING));
        assert_eq!(l.call(call).nth(0) as u8, said);
        l.call(cycle(said));
        l.call(if said == CLEAR { bus(HOLD, 92) } else { bus_inside(HOLD) });
    }
}

/// The lists, each from power-on.
pub fn lists(a: &mut Aim) {
    alone(a);
    beside_general(a);
    beside_hblank(a, false);
    beside_hblank(a, true);
    beside_general_at_double(a);
    escape(a);
    restart(a);
    banks(a);
    under_compat(a);
    mixed(a);
}
