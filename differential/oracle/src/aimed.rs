//! Aimed vectors: calls on states at rest but for what is named, each condition of the engine on and off by itself, each limit
//! at its number and beside it. A random state has nearly every field set, so that one condition more or less does not show in
//! it; here nothing else stands in its way. The original answers every one of them, as everywhere, and object DMA's the second
//! reading, as the causes of pairs.
mod causes;
mod object_dma;

use std::collections::HashSet;
use std::io::Write;

use crate::answer::Answer;
use crate::calls::{Call, Oracle};
use crate::kind;
use crate::layout::SIZE;
use crate::vector::Vector;

/// A field of the state: its first byte in docs/STATE-LAYOUT.md and how many it has.
#[derive(Clone, Copy)]
struct Field(usize, usize);

const SOURCE: Field = Field(0, 2);
const DEST: Field = Field(2, 2);
/// 0 Idle, 1 General, 2 HBlank.
const MODE: Field = Field(4, 1);
const LEFT: Field = Field(5, 2);
const QUOTA: Field = Field(7, 1);
const ESCAPE: Field = Field(8, 1);
const BLOCK: Field = Field(9, 1);
const START_EDGE: Field = Field(10, 8);
const TAKEN: Field = Field(18, 1);
const SETUP: Field = Field(19, 1);
const READY: Field = Field(20, 1);
const SEIZED: Field = Field(21, 1);
const FROM_ARM: Field = Field(22, 1);
const PROBATION: Field = Field(23, 1);
const PEND: Field = Field(24, 1);
const PEND_FROM_ARM: Field = Field(25, 1);
const ARMED_THIS_FALL: Field = Field(26, 1);
const HALTED_FALLS: Field = Field(27, 1);
const PREV_HBLANK: Field = Field(28, 1);
const PEND_AGE: Field = Field(29, 1);
const PEND_GRANTED: Field = Field(30, 1);
const TENURE: Field = Field(31, 1);
const PARK: Field = Field(32, 1);
const IDLE_CLAIM: Field = Field(33, 1);
const HALT_BLIND: Field = Field(34, 1);
const PREV_HALTED: Field = Field(35, 1);
const COUNTED: Field = Field(36, 1);
const WAKE_BLIND: Field = Field(37, 1);
const GRANTED: Field = Field(38, 1);
const WAS_TRANSFERRING: Field = Field(39, 1);
const CONTENDED: Field = Field(40, 1);
const SVBK: Field = Field(41, 1);
const KEY1: Field = Field(42, 1);
const DOUBLE: Field = Field(43, 1);
const COMPAT: Field = Field(44, 1);
const BLACKOUT: Field = Field(45, 4);
/// Whether a latency stands, and its number.
const LATENCY: Field = Field(49, 1);
const LATENCY_LEFT: Field = Field(50, 1);
const DEBIT: Field = Field(51, 1);
const FF72: Field = Field(52, 1);
const FF73: Field = Field(53, 1);
const FF74: Field = Field(54, 1);
const FF75: Field = Field(55, 1);
const BANK: Field = Field(80, 1);
const ANCHOR: Field = Field(81, 8);
const COMMITTED: Field = Field(89, 1);
const STANDING: Field = Field(90, 1);

type Settings<'a> = &'a [(Field, u64)];

#[derive(Clone, Copy)]
struct State([u8; SIZE]);

impl State {
    fn with(mut self, settings: Settings) -> Self {
        for (Field(at, width), value) in settings {
            self.0[*at..at + width].copy_from_slice(&value.to_le_bytes()[..*width]);
        }
        self
    }
}

fn plain(kind: u8) -> Call {
    Call::new(kind)
}

const RUNNING: u8 = 0;
const HALTED: u8 = 1;
/// Halted with a latched IRQ: the engine is not gated.
const WAKING: u8 = 3;
const STOPPED: u8 = 4;
const OAM: u8 = 8;

const EDGE: u64 = 0x0123_4567_89AB_CDEF;

fn fall(mode: u8, flags: u8) -> Call {
    let mut c = plain(kind::FALL);
    c.record[4] = mode;
    c.record[5] = flags;
    c.record[8..16].copy_from_slice(&EDGE.to_le_bytes());
    c
}

fn at(kind: u8, address: u16) -> Call {
    let mut c = plain(kind);
    c.record[2..4].copy_from_slice(&address.to_le_bytes());
    c
}

fn write(address: u16, value: u8, lcd_on: bool) -> Call {
    let mut c = at(kind::WRITE, address);
    c.record[4] = value;
    c.record[5] = lcd_on as u8;
    c
}

/// hold is bit 0, interrupt ready bit 1.
fn switch(phase: u8, flags: u8) -> Call {
    let mut c = plain(kind::SPEED_SWITCH);
    c.record[4] = phase;
    c.record[5] = flags;
    c.record[8..16].copy_from_slice(&EDGE.to_le_bytes());
    c
}

const HOLD: u8 = 1;
const SUSPENDED: u8 = 2;

/// hold is bit 0, suspended bit 1, and of arbitration OAM DMA's transfer bit 2.
fn with_flags(kind: u8, flags: u8) -> Call {
    let mut c = plain(kind);
    c.record[5] = flags;
    c
}

fn bus(flags: u8, oam_edge: u64) -> Call {
    let mut c = with_flags(kind::BUS_CALL, flags);
    c.record[8..16].copy_from_slice(&oam_edge.to_le_bytes());
    c
}

fn bus_inside(flags: u8) -> Call {
    with_flags(kind::BUS_CALL_FROM_INSIDE, flags)
}

fn resized(mut call: Call, which: usize, by: i32) -> Call {
    call.lengths[which] = (call.lengths[which] as i32 + by) as u32;
    call
}

fn elapsed(edges: u32) -> Call {
    let mut c = plain(kind::BLACKOUT_DRAIN);
    c.record[8..12].copy_from_slice(&edges.to_le_bytes());
    c
}

struct Aim<'a> {
    oracle: Oracle,
    out: &'a mut dyn Write,
    seen: HashSet<Vec<u8>>,
}

impl Aim<'_> {
    fn rest(&self) -> State {
        State(self.oracle.power_on(false))
    }

    /// One vector. What was asked before is not asked again. Memory's contents differ from vector to vector, and a byte that is
    /// written to WRAM differs from the one that stands there.
    fn ask(&mut self, state: State, mut call: Call) {
        let mut question = call.record.to_vec();
        question.extend(call.lengths.iter().flat_map(|n| n.to_le_bytes()));
        question.extend(state.0);
        if !self.seen.insert(question) {
            return;
        }
        call.record[1] = (self.seen.len() * 29) as u8;
        let mut vector = Vector::of(&mut self.oracle, call, state.0);
        let written = call.record[0] == kind::WRITE && vector.answer.refusal() == 0;
        if written && (0xC000..0xFE00).contains(&call.address()) && vector.changes.is_empty() {
            call.record[1] ^= 1;
            vector = Vector::of(&mut self.oracle, call, state.0);
            assert!(!vector.changes.is_empty());
        }
        self.out.write_all(&vector.bytes()).unwrap();
    }

    /// The calls on a state, and on it with each of the changes alone.
    fn around(&mut self, state: State, changes: &[Settings], calls: &[Call]) {
        for call in calls {
            self.ask(state, *call);
            for change in changes {
                self.ask(state.with(change), *call);
            }
        }
    }

    /// The same at both speeds.
    fn around_both(&mut self, state: State, changes: &[Settings], calls: &[Call]) {
        for double in 0..2 {
            self.around(state.with(&[(DOUBLE, double)]), changes, calls);
        }
    }
}

/// A list of calls from power-on. Its vectors are written while `written` is set: some lists are long.
struct List<'a, 'b> {
    aim: &'a mut Aim<'b>,
    state: State,
    written: bool,
}

impl<'a, 'b> List<'a, 'b> {
    fn new(aim: &'a mut Aim<'b>, compat: bool) -> Self {
        let state = State(aim.oracle.power_on(compat));
        Self { aim, state, written: true }
    }

    fn vector(&mut self, call: Call) -> Vector {
        if self.written {
            self.aim.ask(self.state, call);
        }
        let vector = Vector::of(&mut self.aim.oracle, call, self.state.0);
        self.state = State(vector.after);
        vector
    }

    fn call(&mut self, call: Call) -> Answer {
        self.vector(call).answer
    }

    fn set(&mut self, address: u16, value: u8) {
        assert_eq!(self.call(write(address, value, true)).refusal(), 0);
    }
}

/// All of power-on, without compat and with it.
fn power_on(a: &mut Aim) {
    for compat in 0..2 {
        a.out.write_all(&Vector::power_on(&a.oracle, compat).bytes()).unwrap();
    }
}

/// The write conflict: each of its conditions off by itself, and every address near the one that is written next.
fn conflict(a: &mut Aim) {
    let moving = [(DOUBLE, 1), (SEIZED, 2), (BLOCK, 16), (LEFT, 32), (SOURCE, 0xC123)];
    for dest in [0x1234, 0x0000, 0x1FFF, 0x2000, 0x7FFF, 0x8000, 0x9FFF, 0xFFFF] {
        let next = 0x8000 | dest & 0x1FFF;
        let state = a.rest().with(&moving).with(&[(DEST, dest as u64)]);
        for address in [next, next + 1, next - 1, dest, next ^ 0x2000, next & 0x1FFF, next ^ 0x0100, 0xC123] {
            a.ask(state, at(kind::WRITE_CONFLICT, address));
        }
    }
    let changes: [Settings; 18] = [
        &[(DOUBLE, 0)],
        &[(SEIZED, 0)],
        &[(SEIZED, 1)],
        &[(SEIZED, 3)],
        &[(SEIZED, 255)],
        &[(BLOCK, 0)],
        &[(BLOCK, 1)],
        &[(LEFT, 0)],
        &[(LEFT, 1)],
        &[(LEFT, 256)],
        &[(QUOTA, 2)],
        &[(READY, 1)],
        &[(SETUP, 1)],
        &[(MODE, 1)],
        &[(MODE, 2)],
        &[(ESCAPE, 1)],
        &[(COMPAT, 1)],
        &[(BANK, 1)],
    ];
    a.around(a.rest().with(&moving).with(&[(DEST, 0x0234)]), &changes, &[at(kind::WRITE_CONFLICT, 0x8234)]);
}

/// What is asked of the engine: each condition by itself, from rest and from a block that stands.
fn questions(a: &mut Aim) {
    let block = a.rest().with(&[(BLOCK, 16), (LEFT, 32)]);
    let changes: [Settings; 20] = [
        &[(PEND, 1)],
        &[(BLOCK, 0)],
        &[(BLOCK, 1)],
        &[(BLOCK, 16)],
        &[(LEFT, 0)],
        &[(LEFT, 1)],
        &[(LEFT, 256)],
        &[(READY, 1)],
        &[(READY, 2)],
        &[(SETUP, 1)],
        &[(SETUP, 2)],
        &[(SETUP, 1), (READY, 1)],
        &[(SETUP, 1), (LEFT, 0)],
        &[(SETUP, 1), (BLOCK, 0)],
        &[(MODE, 1), (LEFT, 16)],
        &[(MODE, 2), (LEFT, 16)],
        &[(PEND_GRANTED, 1)],
        &[(ESCAPE, 1)],
        &[(PARK, 1)],
        &[(QUOTA, 2)],
    ];
    let asked = [kind::REQUEST_STANDING, kind::HOLDS_CPU, kind::SEIZES_BUS].map(plain);
    a.around(a.rest(), &changes, &asked);
    a.around(block, &changes, &asked);
    a.around(block, &[&[(PARK, 1)], &[(PARK, 1), (BLOCK, 0), (LEFT, 0)]], &[plain(kind::PARK_WAITS_FOR_FETCH)]);
    let told = a.rest().with(&[(SOURCE, 0x1234), (DEST, 0xABCD), (LEFT, 0x0567)]);
    let modes: [Settings; 4] = [&[(MODE, 1)], &[(MODE, 2)], &[(ESCAPE, 1)], &[(MODE, 2), (DEST, 0x5FFF), (LEFT, 2048)]];
    a.around(told, &modes, &[kind::TALLY, kind::STATUS].map(plain));
    for (committed, standing) in [(0, 0), (0, 1), (1, 0), (1, 1)] {
        a.ask(a.rest().with(&[(COMMITTED, committed), (STANDING, standing)]), plain(kind::CLAIM));
    }
    for svbk in 0..8 {
        for asked in [kind::WRAM_BANK, kind::SVBK_REGISTER] {
            a.ask(a.rest().with(&[(SVBK, svbk)]), plain(asked));
        }
    }
    for blackout in [0, 1, 2, 3, 4, 5, 6, 255, 256, 65_536, 131_077, 1 << 24, u32::MAX as u64] {
        a.around_both(
            a.rest().with(&[(BLACKOUT, blackout)]),
            &[],
            &[kind::SWITCH_IN_PROGRESS, kind::DIVIDER_ACTIVE].map(plain),
        );
    }
    a.around_both(a.rest(), &[&[(BLACKOUT, 9)]], &[kind::DOUBLE_SPEED, kind::CPU_STEPS_PER_DOT].map(plain));
}

/// Arbitration: each operand of the contention, of the stall and of will_move off by itself, for every input.
fn arbitration(a: &mut Aim) {
    let moving = a.rest().with(&[(BLOCK, 16), (LEFT, 32), (QUOTA, 1), (ESCAPE, 1)]);
    let changes: [Settings; 14] = [
        &[(ESCAPE, 0)],
        &[(QUOTA, 0)],
        &[(QUOTA, 2)],
        &[(SETUP, 1)],
        &[(SETUP, 2)],
        &[(READY, 1)],
        &[(BLOCK, 0)],
        &[(BLOCK, 1)],
        &[(LEFT, 0)],
        &[(BLOCK, 0), (MODE, 1)],
        &[(MODE, 2)],
        &[(WAS_TRANSFERRING, 1)],
        &[(WAS_TRANSFERRING, 1), (ESCAPE, 0)],
        &[(CONTENDED, 1), (LEFT, 0)],
    ];
    let inputs: Vec<Call> = (0..8).map(|flags| with_flags(kind::ARBITRATION, flags)).collect();
    a.around_both(moving, &changes, &[5, 6, 1].map(|flags| with_flags(kind::ARBITRATION, flags)));
    a.around_both(moving, &[&[(WAS_TRANSFERRING, 1)]], &inputs);
}

/// The map's limits and every register, read with and without compat, each from a value that shows.
fn reads(a: &mut Aim) {
    let extra: Vec<(Field, u64)> = (0..24).map(|k| (Field(56 + k, 1), 0x40 + k as u64)).collect();
    let told = a.rest().with(&extra).with(&[(FF72, 0x12), (FF73, 0x34), (FF74, 0x56), (FF75, 0x70), (SVBK, 3)]);
    const LIMITS: [u16; 22] = [
        0x0000, 0x7FFF, 0x8000, 0x9FFF, 0xA000, 0xBFFF, 0xC000, 0xCFFF, 0xD000, 0xDFFF, 0xE000, 0xEFFF, 0xF000, 0xFDFF,
        0xFE00, 0xFE9F, 0xFEA0, 0xFEBF, 0xFEC0, 0xFEE0, 0xFEFF, 0xFF00,
    ];
    for address in LIMITS.into_iter().chain(0xFF4B..=0xFF56).chain(0xFF67..=0xFF77).chain([0xFF46, 0xFFFF]) {
        a.around(told, &[&[(COMPAT, 1)]], &[at(kind::READ, address)]);
    }
    for address in [0xC000, 0xD123, 0xE456, 0xF789] {
        for svbk in [0, 1, 2, 7] {
            a.ask(told.with(&[(SVBK, svbk)]), at(kind::READ, address));
        }
    }
    for address in (0xFEA0..=0xFEFF).step_by(5) {
        a.ask(told, at(kind::READ, address));
    }
    let changes: [Settings; 12] = [
        &[(KEY1, 1)],
        &[(DOUBLE, 1)],
        &[(KEY1, 1), (DOUBLE, 1)],
        &[(BANK, 1)],
        &[(SVBK, 0)],
        &[(SVBK, 7)],
        &[(FF74, 0)],
        &[(FF75, 0)],
        &[(FF75, 0xFF)],
        &[(COMPAT, 1), (KEY1, 1)],
        &[(COMPAT, 1), (SVBK, 0)],
        &[(COMPAT, 1), (FF74, 0)],
    ];
    a.around(told, &changes, &[0xFF4C, 0xFF4D, 0xFF4F, 0xFF70, 0xFF74, 0xFF75].map(|x| at(kind::READ, x)));
    for (mode, left, granted) in [
        (0, 0, 0),
        (0, 16, 0),
        (0, 2048, 0),
        (1, 16, 0),
        (1, 2048, 3),
        (2, 16, 0),
        (2, 16, 1),
        (2, 16, 2),
        (2, 15, 0),
        (2, 17, 1),
        (2, 32, 1),
        (2, 2048, 0),
        (2, 2048, 1),
        (2, 2048, 127),
        (2, 2048, 128),
        (2, 2048, 255),
        (2, 1, 0),
        (2, 31, 1),
        (0, 32, 1),
    ] {
        let state = told.with(&[(MODE, mode), (LEFT, left), (GRANTED, granted)]);
        a.around(state, &[&[(COMPAT, 1)]], &[at(kind::READ, 0xFF55)]);
    }
}

/// Writes at the map's limits, through both echoes and every bank; every register with a value that changes it.
fn writes(a: &mut Aim) {
    let told = a.rest().with(&[(SVBK, 3)]);
    const LIMITS: [u16; 20] = [
        0x7FFF, 0x9FFF, 0xBFFF, 0xC000, 0xCFFF, 0xD000, 0xDFFF, 0xE000, 0xEFFF, 0xF000, 0xFDFF, 0xFE00, 0xFE9F, 0xFEA0,
        0xFEBF, 0xFEC0, 0xFEE0, 0xFEFF, 0xFF00, 0xFFFF,
    ];
    for address in LIMITS {
        a.around(told, &[&[(COMPAT, 1)]], &[write(address, 0x5A, true)]);
    }
    for address in [0xC000, 0xD123, 0xE456, 0xF789, 0xFDFF] {
        for svbk in [0, 1, 2, 7] {
            a.ask(told.with(&[(SVBK, svbk)]), write(address, 0xC3, true));
        }
    }
    let from = told.with(&[(SOURCE, 0x1234), (DEST, 0x5678), (FF72, 1), (FF73, 2), (FF74, 3), (FF75, 0x10)]);
    for address in (0xFF4B..=0xFF56).chain(0xFF67..=0xFF77).chain([0xFF46]) {
        for value in [0xFF, 0xA5] {
            a.around(from, &[&[(COMPAT, 1)]], &[write(address, value, true)]);
        }
    }
    let set = from.with(&[(KEY1, 1), (BANK, 1), (SVBK, 7)]);
    for address in [0xFF4D, 0xFF4F, 0xFF70, 0xFF75] {
        for value in [0x00, 0x80, 0x02, 0x0F] {
            a.ask(set, write(address, value, true));
        }
    }
}

/// FF55: arm, cancel and start, from every mode, the LCD on and off, with a block and grants standing.
fn arming(a: &mut Aim) {
    let grants = [(GRANTED, 3), (COUNTED, 1), (PEND_GRANTED, 1)];
    let changes: [Settings; 10] = [
        &[(MODE, 1), (LEFT, 32)],
        &[(MODE, 2), (LEFT, 32)],
        &[(LEFT, 32)],
        &grants,
        &[(BLOCK, 5), (LEFT, 32), (SETUP, 1), (READY, 1), (PEND, 1)],
        &[(MODE, 2), (BLOCK, 5), (LEFT, 32), (SETUP, 1), (GRANTED, 1)],
        &[(MODE, 2), (LEFT, 32), (TAKEN, 1), (FROM_ARM, 1), (PROBATION, 1)],
        &[(QUOTA, 2), (ESCAPE, 1), (PEND_FROM_ARM, 1), (ARMED_THIS_FALL, 1)],
        &[(DOUBLE, 1), (SEIZED, 4), (START_EDGE, 99)],
        &[(COMPAT, 1)],
    ];
    for value in [0x00, 0x83] {
        a.around(a.rest(), &changes, &[true, false].map(|lcd_on| write(0xFF55, value, lcd_on)));
    }
    a.around(a.rest(), &changes[1..2], &[0x01, 0x7F, 0x80, 0xFF].map(|value| write(0xFF55, value, true)));
}

/// The next pair and the escape drain: each condition off by itself, the counts at 1, the carry and the wrap.
fn pairs(a: &mut Aim) {
    let block =
        a.rest().with(&[(BLOCK, 16), (LEFT, 32), (QUOTA, 2), (ESCAPE, 1), (MODE, 2), (SOURCE, 0x4321), (DEST, 0x8765)]);
    let changes: [Settings; 30] = [
        &[(ESCAPE, 0)],
        &[(QUOTA, 0)],
        &[(QUOTA, 1)],
        &[(READY, 1)],
        &[(SETUP, 1)],
        &[(LEFT, 1)],
        &[(LEFT, 1), (ESCAPE, 0)],
        &[(LEFT, 1), (ESCAPE, 0), (IDLE_CLAIM, 1)],
        &[(IDLE_CLAIM, 1)],
        &[(LEFT, 256), (ESCAPE, 0)],
        &[(LEFT, 2048), (ESCAPE, 0)],
        &[(MODE, 0)],
        &[(MODE, 0), (LEFT, 0)],
        &[(BLOCK, 0)],
        &[(BLOCK, 0), (MODE, 1)],
        &[(BLOCK, 0), (MODE, 1), (ESCAPE, 0)],
        &[(BLOCK, 0), (MODE, 1), (READY, 1), (GRANTED, 2)],
        &[(BLOCK, 1)],
        &[(BLOCK, 1), (GRANTED, 2), (FROM_ARM, 1), (PARK, 1)],
        &[(BLOCK, 2), (GRANTED, 2), (FROM_ARM, 1), (PARK, 1)],
        &[(BLOCK, 1), (GRANTED, 255), (PEND_FROM_ARM, 1), (COUNTED, 1), (PEND_GRANTED, 1)],
        &[(SOURCE, 0xFFFF)],
        &[(SOURCE, 0x00FF)],
        &[(DEST, 0xFFFF)],
        &[(DEST, 0xFFFF), (ESCAPE, 0), (IDLE_CLAIM, 1)],
        &[(DEST, 0xFFFF), (BLOCK, 0), (MODE, 1)],
        &[(DEST, 0xFFFE), (ESCAPE, 0)],
        &[(DEST, 0x9FFF)],
        &[(DEST, 0x1FFF)],
        &[(DEST, 0x7FFF), (TAKEN, 1), (START_EDGE, 77), (SEIZED, 9), (PROBATION, 1)],
    ];
    a.around(block, &changes, &[kind::NEXT_PAIR, kind::ESCAPE_DRAIN].map(plain));
}

/// The bus call: who holds it, the set-up cells, the sources and destinations at the map's limits.
fn bus_calls(a: &mut Aim) {
    let block = a.rest().with(&[(BLOCK, 16), (LEFT, 32), (QUOTA, 2), (MODE, 2), (SOURCE, 0xC010), (DEST, 0x0123)]);
    let changes: [Settings; 14] = [
        &[(SETUP, 1)],
        &[(SETUP, 2)],
        &[(SETUP, 255)],
        &[(READY, 1)],
        &[(QUOTA, 0)],
        &[(QUOTA, 1)],
        &[(BLOCK, 0)],
        &[(BLOCK, 1)],
        &[(BLOCK, 0), (MODE, 1)],
        &[(LEFT, 1)],
        &[(MODE, 0), (LEFT, 0)],
        &[(ESCAPE, 1), (LEFT, 1)],
        &[(BANK, 1)],
        &[(DOUBLE, 1)],
    ];
    a.around(block, &changes, &[bus(1, 0), bus(2, 0)]);
    a.around(block, &changes[..1], &[bus(0, 0), bus(3, 0)]);
    const SOURCES: [u64; 20] = [
        0x0000, 0x1FFF, 0x2000, 0x7FFF, 0x8000, 0x9FFF, 0xA000, 0xBFFF, 0xC000, 0xCFFF, 0xD000, 0xDFFF, 0xE000, 0xEFFF,
        0xF000, 0xFDFF, 0xFE00, 0xFEA0, 0xFF55, 0xFFFF,
    ];
    for source in SOURCES {
        for quota in [1, 2] {
            a.ask(block.with(&[(SOURCE, source), (QUOTA, quota)]), bus(1, 0));
        }
    }
    for source in [0xCFFF, 0xDFFE] {
        for svbk in [0, 1, 2, 7] {
            a.ask(block.with(&[(SOURCE, source), (SVBK, svbk)]), bus(1, 0));
        }
    }
    for dest in [0x0000, 0x1FFF, 0x2000, 0x7FFF, 0x8000, 0x9FFE, 0x9FFF, 0xFFFE, 0xFFFF] {
        for bank in [0, 1] {
            a.ask(block.with(&[(DEST, dest), (BANK, bank)]), bus(1, 0));
        }
    }
    deposits(a, block.with(&[(CONTENDED, 1)]));
}

/// A contended bus call: every phase, one pair and two, both edges at their limits, OAM's end.
fn deposits(a: &mut Aim, block: State) {
    for (start, oam) in [
        (100, 98),
        (100, 97),
        (100, 96),
        (100, 95),
        (100, 94),
        (100, 93),
        (100, 92),
        (100, 91),
        (100, 90),
        (0, 0),
        (1, 0),
        (0, 1),
        (2, 0),
        (0, u64::MAX),
        (u64::MAX, 0),
        (1 << 63, 1),
        (3, 8),
    ] {
        for quota in [1, 2] {
            a.ask(block.with(&[(START_EDGE, start), (QUOTA, quota)]), bus(1, oam));
        }
    }
    for source in [0xC000, 0xC09E, 0xC09F, 0xC0A0, 0xC0FE, 0xC0FF, 0x8050, 0xE020] {
        for oam in [98, 96] {
            for quota in [1, 2] {
                a.ask(block.with(&[(START_EDGE, 100), (SOURCE, source), (QUOTA, quota)]), bus(2, oam));
            }
        }
    }
    let changes: [Settings; 6] =
        [&[(CONTENDED, 0)], &[(SETUP, 1)], &[(QUOTA, 0)], &[(LEFT, 1)], &[(READY, 1)], &[(LEFT, 0), (MODE, 0)]];
    a.around(block.with(&[(START_EDGE, 100)]), &changes, &[0, 1, 2].map(|flags| bus(flags, 98)));
}

/// The switch, both ways: a block ready, waiting and none, left 0 with a block, the debit, the phases, the interrupt.
fn switches(a: &mut Aim) {
    let armed = a.rest().with(&[(KEY1, 1)]);
    let changes: [Settings; 26] = [
        &[(BLOCK, 16), (LEFT, 32), (MODE, 2)],
        &[(BLOCK, 16), (LEFT, 2048), (MODE, 2)],
        &[(BLOCK, 16), (LEFT, 2048), (MODE, 2), (READY, 1)],
        &[(BLOCK, 16), (LEFT, 32), (MODE, 2), (GRANTED, 1), (COUNTED, 1)],
        &[(BLOCK, 1), (LEFT, 1), (GRANTED, 255), (QUOTA, 2)],
        &[(BLOCK, 16), (LEFT, 32), (READY, 1), (SETUP, 1), (GRANTED, 2), (COUNTED, 1)],
        &[(BLOCK, 16), (LEFT, 32), (MODE, 2), (READY, 2)],
        &[(BLOCK, 7)],
        &[(BLOCK, 7), (GRANTED, 1)],
        &[(BLOCK, 7), (READY, 1)],
        &[(READY, 1), (SETUP, 1), (GRANTED, 4), (COUNTED, 1)],
        &[(GRANTED, 4), (COUNTED, 1)],
        &[(PEND, 1), (PEND_GRANTED, 1), (PEND_AGE, 3), (PEND_FROM_ARM, 1)],
        &[(PEND, 1), (LEFT, 32), (MODE, 2)],
        &[(WAKE_BLIND, 2), (HALT_BLIND, 2), (TENURE, 9)],
        &[(ESCAPE, 1)],
        &[(ESCAPE, 1), (BLOCK, 3), (LEFT, 9)],
        &[(MODE, 1), (LEFT, 32)],
        &[(MODE, 1), (LEFT, 32), (BLOCK, 2)],
        &[(MODE, 2), (LEFT, 32)],
        &[(DEBIT, 1)],
        &[(LATENCY, 1), (LATENCY_LEFT, 1)],
        &[(ANCHOR, 12_345), (COMMITTED, 1), (STANDING, 1)],
        &[(TAKEN, 1), (FROM_ARM, 1), (PROBATION, 1), (SEIZED, 3), (IDLE_CLAIM, 1), (PARK, 1)],
        &[(COMPAT, 1)],
        &[(SVBK, 5), (BANK, 1)],
    ];
    a.around_both(armed, &changes, &[switch(4, 0)]);
    let inputs: Vec<Call> = (0..5).flat_map(|phase| [0, 2].map(|flags| switch(phase, flags))).collect();
    a.around_both(armed, &[&[(DEBIT, 1)]], &inputs);
}

/// The blackout drains to 1, to 0 and past it; a wake is taken in.
fn blackouts(a: &mut Aim) {
    for (blackout, edges) in [
        (0, 0),
        (0, 1),
        (1, 0),
        (1, 1),
        (1, 2),
        (2, 1),
        (5, 4),
        (5, 5),
        (6, 5),
        (256, 255),
        (256, 256),
        (65_536, 1),
        (65_536, 65_535),
        (131_077, 131_076),
        (131_077, 131_077),
        (262_146, u32::MAX),
        (u32::MAX, 1),
        (u32::MAX, u32::MAX),
    ] {
        let state = a.rest().with(&[(BLACKOUT, blackout as u64)]);
        let changes: [Settings; 2] = [&[(LATENCY, 1)], &[(LATENCY, 1), (LATENCY_LEFT, 2)]];
        a.around(state, &changes, &[elapsed(edges)]);
    }
    let latencies: [Settings; 6] = [
        &[(LATENCY, 1)],
        &[(LATENCY, 1), (LATENCY_LEFT, 1)],
        &[(LATENCY, 1), (LATENCY_LEFT, 2)],
        &[(LATENCY, 1), (LATENCY_LEFT, 255)],
        &[(BLACKOUT, 7)],
        &[(BLACKOUT, 7), (LATENCY, 1), (LATENCY_LEFT, 1), (DOUBLE, 1)],
    ];
    a.around(a.rest(), &latencies, &[0, 1].map(|flags| with_flags(kind::WAKE_INTAKE, flags)));
}

/// LCD off and an instruction's end: each condition of the latched block off by itself.
fn lcd_off(a: &mut Aim) {
    let waits = a.rest().with(&[(MODE, 2), (LEFT, 32), (SETUP, 1), (DEBIT, 1), (IDLE_CLAIM, 1), (PARK, 1)]);
    let changes: [Settings; 12] = [
        &[(MODE, 1)],
        &[(MODE, 0)],
        &[(MODE, 0), (LEFT, 0)],
        &[(LEFT, 1)],
        &[(TAKEN, 1)],
        &[(BLOCK, 1)],
        &[(BLOCK, 16)],
        &[(READY, 1)],
        &[(PEND_FROM_ARM, 1), (PEND, 1)],
        &[(DEBIT, 0)],
        &[(IDLE_CLAIM, 0)],
        &[(START_EDGE, 5), (SEIZED, 7), (FROM_ARM, 1), (PROBATION, 1), (QUOTA, 2)],
    ];
    a.around(waits, &changes, &[kind::LCD_OFF, kind::INSTRUCTION_RETIRED].map(plain));
}

/// An engine at rest but for one of the fields that `still` looks at, and each of the others, in every kind of fall.
fn at_rest_but_for_one(a: &mut Aim) {
    let changes: [Settings; 24] = [
        &[(BLOCK, 1)],
        &[(SETUP, 1)],
        &[(READY, 1)],
        &[(READY, 2)],
        &[(PROBATION, 1)],
        &[(PEND, 1)],
        &[(PEND_GRANTED, 1)],
        &[(PREV_HALTED, 1)],
        &[(ARMED_THIS_FALL, 1)],
        &[(HALT_BLIND, 1)],
        &[(WAKE_BLIND, 1)],
        &[(TENURE, 1)],
        &[(SEIZED, 3)],
        &[(TAKEN, 1)],
        &[(PREV_HBLANK, 1)],
        &[(HALTED_FALLS, 3)],
        &[(QUOTA, 2)],
        &[(IDLE_CLAIM, 1)],
        &[(PARK, 1)],
        &[(PEND_AGE, 3)],
        &[(GRANTED, 2)],
        &[(COUNTED, 1)],
        &[(FROM_ARM, 1)],
        &[(COMMITTED, 1), (STANDING, 1)],
    ];
    let falls = [fall(0, RUNNING), fall(3, RUNNING), fall(0, STOPPED), fall(3, HALTED), fall(0, WAKING)];
    a.around(a.rest(), &changes, &falls);
    let armed = a.rest().with(&[(MODE, 2), (LEFT, 32)]);
    a.around(armed, &changes, &falls[..3]);
    a.around(a.rest().with(&[(MODE, 1), (LEFT, 32)]), &changes[..17], &[fall(0, RUNNING), fall(2, STOPPED)]);
    a.around(armed.with(&[(MODE, 0)]), &changes[..17], &[fall(0, RUNNING)]);
}

/// Steps 3 and 4 of the fall: halted falls and the taken flag, the wake's blind, the probation, the halt latch.
fn starts(a: &mut Aim) {
    for falls in [0, 1, 2, 3, 4, 5, 253, 254, 255] {
        let state = a.rest().with(&[(HALTED_FALLS, falls), (TAKEN, 1), (PREV_HALTED, 1)]);
        a.around_both(state, &[], &[fall(3, HALTED), fall(1, WAKING)]);
        a.around(state, &[], &[fall(0, HALTED), fall(2, RUNNING), fall(2, STOPPED)]);
    }
    let blinds: [Settings; 3] = [&[(PREV_HALTED, 1)], &[(PREV_HALTED, 1), (HALT_BLIND, 1)], &[(HALT_BLIND, 7)]];
    a.around(a.rest(), &blinds, &[fall(3, RUNNING), fall(3, STOPPED), fall(3, HALTED), fall(3, WAKING)]);
    let launched = [(PROBATION, 1), (FROM_ARM, 1), (BLOCK, 16), (LEFT, 32), (GRANTED, 2), (MODE, 2)];
    let probations: [Settings; 7] = [
        &[(PROBATION, 0)],
        &[(FROM_ARM, 0)],
        &[(BLOCK, 15)],
        &[(BLOCK, 1)],
        &[(GRANTED, 0)],
        &[(READY, 1)],
        &[(DOUBLE, 1)],
    ];
    let falls = [fall(3, RUNNING), fall(0, RUNNING), fall(3, HALTED), fall(3, STOPPED)];
    a.around(a.rest().with(&launched), &probations, &falls);
    let latched =
        [(BLOCK, 16), (READY, 2), (SETUP, 1), (LEFT, 32), (MODE, 2), (PEND_AGE, 3), (TAKEN, 1), (PEND_FROM_ARM, 1)];
    let joins: [Settings; 9] = [
        &[(PREV_HALTED, 1)],
        &[(BLOCK, 15)],
        &[(BLOCK, 1)],
        &[(READY, 1)],
        &[(READY, 0)],
        &[(READY, 3)],
        &[(PEND_FROM_ARM, 0)],
        &[(MODE, 0)],
        &[(PROBATION, 1), (FROM_ARM, 1), (GRANTED, 1)],
    ];
    a.around(a.rest().with(&latched), &joins, &[fall(3, HALTED), fall(3, WAKING), fall(3, RUNNING), fall(3, STOPPED)]);
}

/// Step 5: a pend ages, an entry in the halt pends and grants, quota is refilled; a stop does only the first and the last.
fn gates(a: &mut Aim) {
    for age in [0, 1, 2, 3, 4, 253, 254, 255] {
        let state = a.rest().with(&[(PEND, 1), (PEND_AGE, age), (MODE, 2), (LEFT, 32), (PREV_HALTED, 1)]);
        a.around(state, &[&[(PEND, 0)]], &[fall(3, HALTED), fall(3, STOPPED)]);
    }
    let entry = a.rest().with(&[(MODE, 2), (LEFT, 32), (PEND_AGE, 9), (PEND_FROM_ARM, 1), (PREV_HALTED, 1)]);
    let changes: [Settings; 24] = [
        &[(MODE, 0)],
        &[(MODE, 1)],
        &[(TAKEN, 1)],
        &[(PREV_HBLANK, 1)],
        &[(PEND, 1)],
        &[(LEFT, 1)],
        &[(LEFT, 15)],
        &[(LEFT, 16)],
        &[(LEFT, 31), (GRANTED, 1)],
        &[(GRANTED, 1)],
        &[(GRANTED, 2)],
        &[(GRANTED, 3)],
        &[(LEFT, 2048), (GRANTED, 127)],
        &[(LEFT, 2048), (GRANTED, 128)],
        &[(LEFT, 2048), (GRANTED, 255)],
        &[(HALTED_FALLS, 1)],
        &[(HALTED_FALLS, 2)],
        &[(HALTED_FALLS, 1), (TAKEN, 1)],
        &[(HALTED_FALLS, 2), (TAKEN, 1)],
        &[(HALTED_FALLS, 255)],
        &[(BLOCK, 16)],
        &[(BLOCK, 16), (READY, 1)],
        &[(HALT_BLIND, 2), (WAKE_BLIND, 5), (TENURE, 3), (SEIZED, 2)],
        &[(ARMED_THIS_FALL, 1)],
    ];
    a.around(entry, &changes, &[fall(0, HALTED), fall(0, STOPPED)]);
    a.around(entry, &changes[..3], &[fall(0, HALTED | STOPPED), fall(3, HALTED), fall(0, WAKING | STOPPED)]);
    a.around(entry.with(&[(DOUBLE, 1)]), &changes[13..22], &[fall(0, HALTED)]);
}

/// Step 6: the blinds and the tenure over an entry, at their limits, and that an entry in the tenure leaves no pend.
fn blinds(a: &mut Aim) {
    let entry = a.rest().with(&[(MODE, 2), (LEFT, 32)]);
    for ticks in [0, 1, 2, 3, 5, 6, 7, 36, 37, 255] {
        for blind in [HALT_BLIND, WAKE_BLIND, TENURE] {
            let state = entry.with(&[(blind, ticks)]);
            let changes: [Settings; 4] =
                [&[(PREV_HBLANK, 1)], &[(MODE, 0), (LEFT, 0)], &[(BLOCK, 3)], &[(ARMED_THIS_FALL, 1)]];
            a.around(state, if ticks == 1 { &changes } else { &changes[..1] }, &[fall(0, RUNNING)]);
            a.around(state, &[], &[fall(3, RUNNING), fall(0, WAKING)]);
        }
    }
    let both: [Settings; 4] = [
        &[(HALT_BLIND, 1), (WAKE_BLIND, 6)],
        &[(HALT_BLIND, 1), (WAKE_BLIND, 1), (TENURE, 1)],
        &[(WAKE_BLIND, 6), (TENURE, 1)],
        &[(PREV_HALTED, 1)],
    ];
    a.around(entry, &both, &[fall(0, RUNNING), fall(0, WAKING), fall(0, OAM)]);
}

/// Step 6: the commit, each of its conditions off by itself, and all that it sets.
fn commits(a: &mut Aim) {
    let pend = a.rest().with(&[(MODE, 2), (LEFT, 32), (PEND, 1), (PREV_HBLANK, 1)]);
    let falls = [fall(0, RUNNING), fall(3, RUNNING), fall(0, WAKING), fall(3, WAKING)];
    let changes: [Settings; 36] = [
        &[(PEND, 0)],
        &[(MODE, 0)],
        &[(MODE, 1)],
        &[(PREV_HBLANK, 0)],
        &[(PEND_FROM_ARM, 1)],
        &[(PEND_GRANTED, 1)],
        &[(PEND_FROM_ARM, 1), (PEND_GRANTED, 1)],
        &[(PEND_AGE, 2)],
        &[(PEND_AGE, 3)],
        &[(PEND_AGE, 4)],
        &[(PEND_AGE, 5)],
        &[(PEND_AGE, 255)],
        &[(PEND_AGE, 3), (PEND_GRANTED, 1)],
        &[(PEND_AGE, 4), (PEND_GRANTED, 1)],
        &[(PEND_AGE, 5), (PEND_FROM_ARM, 1)],
        &[(PREV_HALTED, 1)],
        &[(PREV_HALTED, 1), (PEND_FROM_ARM, 1)],
        &[(PREV_HALTED, 1), (PEND_GRANTED, 1)],
        &[(COUNTED, 1)],
        &[(COUNTED, 1), (GRANTED, 255)],
        &[(GRANTED, 254)],
        &[(GRANTED, 255)],
        &[(GRANTED, 255), (PEND, 0)],
        &[(GRANTED, 255), (PEND_AGE, 3)],
        &[(GRANTED, 255), (PEND_GRANTED, 1), (PEND_AGE, 4)],
        &[(IDLE_CLAIM, 1), (PARK, 1), (FROM_ARM, 1), (START_EDGE, 5)],
        &[(IDLE_CLAIM, 1), (PARK, 1), (PEND_FROM_ARM, 1)],
        &[(BLOCK, 3), (READY, 1), (SETUP, 3), (SEIZED, 2)],
        &[(TENURE, 5)],
        &[(TENURE, 5), (PEND_GRANTED, 1)],
        &[(TAKEN, 1)],
        &[(ARMED_THIS_FALL, 1)],
        &[(ARMED_THIS_FALL, 1), (PEND_FROM_ARM, 1)],
        &[(LEFT, 1)],
        &[(COMMITTED, 1), (STANDING, 1)],
        &[(PROBATION, 1), (FROM_ARM, 1), (BLOCK, 16)],
    ];
    a.around(pend, &changes, &falls);
    a.around(pend.with(&[(DOUBLE, 1)]), &changes[4..8], &falls);
    a.around(pend, &changes[8..14], &[fall(0, OAM), fall(3, OAM), fall(0, WAKING | OAM), fall(3, STOPPED)]);
    let granted = a.rest().with(&[(MODE, 2), (LEFT, 32), (PEND_GRANTED, 1), (PREV_HBLANK, 1), (TAKEN, 1)]);
    a.around(granted, &[&[(MODE, 0)], &[(COUNTED, 1)]], &falls);
}

/// Step 6: the new pend, readiness, quota and the seize count, each condition off by itself, the counters at their limits.
fn serves(a: &mut Aim) {
    let waits =
        a.rest().with(&[(MODE, 2), (LEFT, 32), (PEND_AGE, 7), (PEND_FROM_ARM, 1), (TENURE, 9), (PREV_HBLANK, 1)]);
    let pends: [Settings; 11] = [
        &[(MODE, 0)],
        &[(MODE, 1)],
        &[(LEFT, 1)],
        &[(MODE, 0), (LEFT, 0)],
        &[(TAKEN, 1)],
        &[(BLOCK, 1)],
        &[(BLOCK, 16)],
        &[(ARMED_THIS_FALL, 1)],
        &[(ARMED_THIS_FALL, 1), (PEND_FROM_ARM, 0)],
        &[(ARMED_THIS_FALL, 1), (TAKEN, 1)],
        &[(PREV_HBLANK, 0), (TENURE, 0)],
    ];
    a.around(waits, &pends, &[fall(0, RUNNING), fall(3, RUNNING), fall(1, RUNNING), fall(0, WAKING)]);
    let block = a.rest().with(&[(BLOCK, 16), (LEFT, 32), (FROM_ARM, 1), (READY, 1), (SEIZED, 7)]);
    let ready: [Settings; 20] = [
        &[(READY, 0)],
        &[(READY, 2)],
        &[(READY, 3)],
        &[(READY, 255)],
        &[(FROM_ARM, 0)],
        &[(BLOCK, 15)],
        &[(BLOCK, 0)],
        &[(LEFT, 0)],
        &[(LEFT, 1)],
        &[(SEIZED, 0)],
        &[(SEIZED, 1)],
        &[(SEIZED, 253)],
        &[(SEIZED, 254)],
        &[(SEIZED, 255)],
        &[(SETUP, 1)],
        &[(SETUP, 1), (BLOCK, 0)],
        &[(SETUP, 2), (READY, 2)],
        &[(SETUP, 1), (LEFT, 0)],
        &[(MODE, 1), (READY, 2)],
        &[(MODE, 1), (BLOCK, 0)],
    ];
    a.around_both(block, &ready, &[fall(3, RUNNING)]);
    a.around(block, &ready, &[fall(0, RUNNING), fall(3, STOPPED), fall(3, WAKING)]);
}

/// The six tests of refusal 7, each at its limit and one past it, and every call on a state that fails one.
fn unreached(a: &mut Aim) {
    let tests: [Settings; 14] = [
        &[(QUOTA, 2)],
        &[(QUOTA, 3)],
        &[(BLOCK, 16)],
        &[(BLOCK, 17)],
        &[(LEFT, 2048)],
        &[(LEFT, 2049)],
        &[(SVBK, 7)],
        &[(SVBK, 8)],
        &[(BANK, 1)],
        &[(BANK, 2)],
        &[(MODE, 1)],
        &[(MODE, 2)],
        &[(MODE, 1), (LEFT, 1)],
        &[(MODE, 2), (LEFT, 1)],
    ];
    a.around(a.rest(), &tests, &[plain(kind::TALLY), fall(3, RUNNING), bus(1, 0)]);
    let failing = a.rest().with(&[(QUOTA, 3), (KEY1, 1), (ESCAPE, 1), (PARK, 1), (BLACKOUT, 9), (COMMITTED, 1)]);
    for k in 1..=kind::LAST {
        a.ask(failing, plain(k));
    }
}

/// Two reasons at once: document 01's order says which number is given.
fn two_reasons(a: &mut Aim) {
    let failing: [Settings; 3] = [&[(QUOTA, 3)], &[(BLOCK, 17)], &[(SVBK, 8)]];
    // 7 with 1; 1 with 14.
    let pend = a.rest().with(&[(MODE, 2), (LEFT, 32), (PEND, 1), (GRANTED, 255)]);
    a.around(
        pend,
        &failing,
        &[fall(0, RUNNING), fall(3, RUNNING), fall(4, RUNNING), fall(255, RUNNING), fall(4, HALTED)],
    );
    // 7 with 2; 2 with 4; 7 with 4.
    for address in [0xC000, 0xFF55, 0x8000, 0xFF6C] {
        for access in [at(kind::READ, address), write(address, 0x80, true)] {
            a.around(
                a.rest(),
                &failing[..1],
                &[access, resized(access, 1, -1), resized(access, 1, 1), resized(access, 0, 1)],
            );
        }
    }
    let moving = a.rest().with(&[(BLOCK, 16), (LEFT, 32), (QUOTA, 2), (SOURCE, 0xC000)]);
    for which in 0..4 {
        let calls = [-1, 1].map(|by| resized(bus(1, 0), which, by));
        a.around(moving, &failing[..1], &calls);
        a.around(moving, &[], &[resized(bus(0, 0), which, 1)]);
    }
    // 7 with 3; then each of 3, 5, 11, 12, 13 with every other.
    let ready = a.rest().with(&[(DOUBLE, 1), (BLOCK, 16), (LEFT, 32)]);
    for blackout in [0, 1] {
        for key1 in [0, 1] {
            let state = ready.with(&[(BLACKOUT, blackout), (KEY1, key1)]);
            let changes: [Settings; 4] = [failing[0], &[(DOUBLE, 0)], &[(READY, 1)], &[(LEFT, 0)]];
            a.around(state, &changes, &[switch(5, 1), switch(5, 0), switch(4, 1), switch(4, 0)]);
        }
    }
    a.around(a.rest().with(&[(KEY1, 1)]), &[], &[switch(255, 0), switch(5, 0), switch(4, 1)]);
}

/// What the exported entry declines by itself: a byte that no state has, at each sort of place; a record of no call; both, and
/// the second with a state that fails refusal 7.
fn entry(a: &mut Aim) {
    let spare = Field(102, 1);
    let last = Field(SIZE - 1, 1);
    let bytes = [MODE, ESCAPE, TAKEN, PEND, CONTENDED, KEY1, LATENCY, STANDING, spare, last];
    let none = [kind::LAST + 1, 99, 255].map(plain);
    a.around(a.rest(), &[], &none);
    a.around(a.rest().with(&[(QUOTA, 3)]), &[], &none[..1]);
    for field in bytes {
        a.around(a.rest().with(&[(field, 3)]), &[], &[plain(kind::TALLY), none[0]]);
    }
    // A number beside the tag that says that there is none.
    a.around(a.rest().with(&[(LATENCY, 0), (LATENCY_LEFT, 1)]), &[], &[plain(kind::TALLY)]);
}

/// The lists alone, for what is asserted of them.
pub fn check_lists() {
    let mut a = Aim { oracle: Oracle::new(), out: &mut std::io::sink(), seen: HashSet::new() };
    object_dma::lists(&mut a);
    causes::lists(&mut a);
}

pub fn write_all(out: &mut dyn Write) {
    let mut a = Aim { oracle: Oracle::new(), out, seen: HashSet::new() };
    type Part = (&'static str, fn(&mut Aim));
    let parts: [Part; 34] = [
        ("write conflict", conflict),
        ("questions", questions),
        ("arbitration", arbitration),
        ("reads", reads),
        ("writes", writes),
        ("FF55", arming),
        ("pairs", pairs),
        ("bus", bus_calls),
        ("switch", switches),
        ("blackout", blackouts),
        ("LCD off", lcd_off),
        ("at rest but for one thing", at_rest_but_for_one),
        ("fall: start", starts),
        ("fall: gated", gates),
        ("fall: blinds and tenure", blinds),
        ("fall: commit", commits),
        ("fall: pend to seize count", serves),
        ("refusal 7", unreached),
        ("two reasons", two_reasons),
        ("the entry's own", entry),
        ("object DMA: write", object_dma::starts),
        ("object DMA: M-cycle", object_dma::cycles),
        ("object DMA: sources", object_dma::cycle_sources),
        ("object DMA: M-cycle's refusals", object_dma::cycle_refusals),
        ("object DMA: arbitration", object_dma::inside_arbitration),
        ("object DMA: bus", object_dma::inside_bus),
        ("object DMA: query and refusal 7", object_dma::queries),
        ("object DMA: kept", object_dma::kept),
        ("object DMA: bytes of no state", object_dma::no_state),
        ("object DMA: lists", object_dma::lists),
        ("causes: each with each", causes::each_with_each),
        ("causes: blocks", causes::blocks),
        ("causes: no pair", causes::no_pair),
        ("causes: lists", causes::lists),
    ];
    power_on(&mut a);
    for (name, part) in parts {
        let before = a.seen.len();
        part(&mut a);
        eprintln!("{name}: {}", a.seen.len() - before);
    }
    eprintln!("{} aimed vectors, and 2 of power-on", a.seen.len());
}
