//! Vectors at random: half of them step lists of calls from power-on, half start from arbitrary states, of which a few
//! fail refusal 7. Object DMA's part of a state and of a write is drawn aside: a seed and the kinds 1 to 26 give the other bytes
//! as they were before there was one. That runs come near their ends is asked for: what `select` and `object_dma` take is drawn
//! without it, as before.
use std::collections::HashSet;
use std::io::{BufWriter, Read, Write};

use crate::answer::{self, Answer};
use crate::calls::{Call, Oracle, Side};
use crate::cause_counts::CauseCounts;
use crate::kind;
use crate::layout::SIZE;
use crate::object_dma;
use crate::random::Random;
use crate::vector::{self, Vector};

fn edge(r: &mut Random) -> u64 {
    match r.below(4) {
        0 => r.below(64),
        1 => u64::MAX - r.below(8),
        _ => r.next(),
    }
}

fn address(r: &mut Random) -> u16 {
    const REGISTERS: [u16; 18] = [
        0xFF4C, 0xFF4D, 0xFF4F, 0xFF51, 0xFF52, 0xFF53, 0xFF54, 0xFF55, 0xFF55, 0xFF55, 0xFF70, 0xFF72, 0xFF73, 0xFF74,
        0xFF75, 0xFF46, 0xFF68, 0xFF6C,
    ];
    const LIMITS: [u16; 16] = [
        0x0000, 0x7FFF, 0xBFFF, 0xC000, 0xCFFF, 0xD000, 0xDFFF, 0xE000, 0xEFFF, 0xF000, 0xFDFF, 0xFE00, 0xFE9F, 0xFEA0,
        0xFEFF, 0xFFFF,
    ];
    match r.below(8) {
        0 => r.pick(&LIMITS),
        1 => 0xC000 + r.below(0x3E00) as u16,
        2 => 0xFEA0 + r.below(0x60) as u16,
        3 => 0xFF40 + r.below(0x40) as u16,
        _ => r.pick(&REGISTERS),
    }
}

/// A page of object DMA: each part of the map, and its limits.
fn page(r: &mut Random) -> u8 {
    const LIMITS: [u8; 12] = [0x00, 0x3F, 0x40, 0x7F, 0x80, 0x9F, 0xA0, 0xBF, 0xC0, 0xCF, 0xD0, 0xDF];
    match r.below(4) {
        0 => r.pick(&LIMITS),
        1 => 0x80 + r.below(0x20) as u8,
        2 => 0xC0 + r.below(0x20) as u8,
        _ => r.below(0xE0) as u8,
    }
}

/// A page as it is written to FF46: one in four is above DFh.
fn written_page(r: &mut Random) -> u8 {
    match r.below(8) {
        0 => 0xE0,
        1 => 0xE0 + r.below(0x20) as u8,
        _ => page(r),
    }
}

/// An arbitrary call of one of the kinds; its slices are of the right lengths but for a few.
pub fn call(r: &mut Random, kinds: &[u8]) -> Call {
    let mut c = Call::new(r.pick(kinds));
    c.record[1] = r.next() as u8;
    match c.record[0] {
        kind::WRITE | kind::READ | kind::WRITE_CONFLICT => {
            c.record[2..4].copy_from_slice(&address(r).to_le_bytes());
            c.record[4] = r.byte();
            c.record[5] = if r.one_in(4) { 0 } else { r.byte() };
            if c.record[0] == kind::WRITE {
                let mut aside = r.aside();
                if kinds.contains(&kind::OBJECT_DMA_M_CYCLE) && aside.one_in(6) {
                    c.record[2..4].copy_from_slice(&object_dma::REGISTER.to_le_bytes());
                }
                // At FF46 the start edge, elsewhere what is not looked at.
                c.record[8..16].copy_from_slice(&edge(&mut aside).to_le_bytes());
                if c.writes_ff46() {
                    c.record[4] = written_page(&mut aside);
                }
            }
        }
        kind::FALL => {
            c.record[4] = if r.one_in(50) { r.byte() } else { r.pick(&[0, 0, 3, 2, 1]) };
            c.record[5] = match r.below(4) {
                0 => 0,
                1 => r.pick(&[1, 1, 3, 8]),
                _ => r.next() as u8,
            };
            c.record[8..16].copy_from_slice(&edge(r).to_le_bytes());
        }
        kind::SPEED_SWITCH => {
            c.record[4] = if r.one_in(20) { r.byte() } else { r.below(5) as u8 };
            c.record[5] = if r.one_in(4) { r.next() as u8 } else { 0 };
            c.record[8..16].copy_from_slice(&edge(r).to_le_bytes());
        }
        kind::BLACKOUT_DRAIN => {
            let elapsed = r.next() as u32 >> r.below(32);
            c.record[8..12].copy_from_slice(&elapsed.to_le_bytes());
        }
        kind::BUS_CALL
        | kind::ARBITRATION
        | kind::WAKE_INTAKE
        | kind::ARBITRATION_FROM_INSIDE
        | kind::BUS_CALL_FROM_INSIDE => {
            c.record[5] = r.next() as u8;
            c.record[8..16].copy_from_slice(&edge(r).to_le_bytes());
        }
        kind::OBJECT_DMA_M_CYCLE => {
            c.record[4] = if r.one_in(20) { r.byte() } else { r.pick(&[0, 0, 1, 2]) };
            c.record[5] = r.next() as u8;
            c.record[8..16].copy_from_slice(&edge(r).to_le_bytes());
        }
        _ => {}
    }
    if r.one_in(40) {
        let which = r.below(4) as usize;
        c.lengths[which] = if r.flag() { c.lengths[which] + 1 } else { c.lengths[which] - 1 };
    }
    c
}

/// What an M-cycle of object DMA has still to do, in the order arbitration, M-cycle call, bus call.
#[derive(Clone, Copy)]
enum Due {
    Nothing,
    /// With hold and suspended, and what arbitration said.
    Cycle(u8, u8),
    Bus(u8),
}

/// What drives a list of calls, from call to call.
pub struct Drive {
    /// The CPU: 0 halted, 1 halted with a latched IRQ, 2 stopped now and then; else it runs.
    cpu: u8,
    due: Due,
    /// M-cycle calls that come one after the other, so that 160 are reached.
    burst: u64,
    /// Where short runs are started now and then: the writes that are still to come, the next one last.
    short_run: Option<Vec<Call>>,
}

fn with_flags(kind: u8, flags: u8) -> Call {
    let mut c = Call::new(kind);
    c.record[5] = flags;
    c
}

/// With the LCD on.
fn write_register(address: u16, value: u8) -> Call {
    let mut c = with_flags(kind::WRITE, 1);
    c.record[2..4].copy_from_slice(&address.to_le_bytes());
    c.record[4] = value;
    c
}

fn m_cycle(said: u8) -> Call {
    let mut c = Call::new(kind::OBJECT_DMA_M_CYCLE);
    c.record[4] = said;
    c
}

impl Drive {
    pub fn new() -> Self {
        Self { cpu: 5, due: Due::Nothing, burst: 0, short_run: None }
    }

    /// Runs come to their ends more often.
    pub fn to_ends() -> Self {
        Self { short_run: Some(Vec::new()), ..Self::new() }
    }

    /// A call that drives a transfer: what a console does, with something else now and then. Object DMA is driven where its
    /// M-cycle is among the kinds.
    pub fn next(&mut self, r: &mut Random, kinds: &[u8], step: u64) -> Call {
        if kinds.contains(&kind::WRITE)
            && let Some(call) = self.short_run(r)
        {
            return call;
        }
        if kinds.contains(&kind::OBJECT_DMA_M_CYCLE)
            && let Some(mut call) = self.object_dma(r, step)
        {
            call.record[1] = r.next() as u8;
            return call;
        }
        likely(r, kinds, step, &mut self.cpu)
    }

    /// Arbitration's answer is given to the M-cycle call that follows.
    pub fn heard(&mut self, call: &Call, answer: &Answer) {
        let arbitrates = matches!(call.record[0], kind::ARBITRATION | kind::ARBITRATION_FROM_INSIDE);
        if arbitrates && answer.refusal() == 0 {
            self.due = Due::Cycle(call.record[5] & 3, answer.nth(0) as u8);
        }
    }

    /// If nothing comes between, half of the runs carry at their 16th pair; of the others those of 16 bytes are counted out there.
    fn short_run(&mut self, r: &mut Random) -> Option<Call> {
        let writes = self.short_run.as_mut()?;
        if writes.is_empty() && r.one_in(64) {
            writes.push(write_register(0xFF55, r.pick(&[0x00, 0x01, 0x80, 0x81])));
            writes.push(write_register(0xFF54, 0xF0));
            writes.push(write_register(0xFF53, r.pick(&[0xFF, 0xFF, 0x9F, 0x00])));
        }
        writes.pop()
    }

    fn object_dma(&mut self, r: &mut Random, step: u64) -> Option<Call> {
        let due = std::mem::replace(&mut self.due, Due::Nothing);
        let outside = r.one_in(6);
        match due {
            _ if self.burst > 0 => {
                self.burst -= 1;
                return Some(m_cycle(if r.one_in(8) { r.below(3) as u8 } else { 0 }));
            }
            Due::Cycle(flags, said) if !r.one_in(16) => {
                self.due = Due::Bus(flags);
                return Some(m_cycle(said));
            }
            Due::Bus(flags) if !r.one_in(16) => {
                let mut bus = with_flags(if outside { kind::BUS_CALL } else { kind::BUS_CALL_FROM_INSIDE }, flags);
                bus.record[8..16].copy_from_slice(&(step * 2).saturating_sub(r.below(16)).to_le_bytes());
                return Some(bus);
            }
            _ => {}
        }
        match r.below(24) {
            0 => {
                let mut write = Call::new(kind::WRITE);
                write.record[2..4].copy_from_slice(&object_dma::REGISTER.to_le_bytes());
                write.record[4] = written_page(r);
                write.record[8..16].copy_from_slice(&(step * 2).to_le_bytes());
                Some(write)
            }
            1..=3 => {
                let flags = r.pick(&[1, 1, 1, 2, 3, 0]);
                let transfers = (r.below(2) as u8) << 2;
                Some(match outside {
                    true => with_flags(kind::ARBITRATION, flags | transfers),
                    false => with_flags(kind::ARBITRATION_FROM_INSIDE, flags),
                })
            }
            4 if r.one_in(32) => {
                self.burst = r.below(200);
                None
            }
            _ => None,
        }
    }
}

/// A call that drives a transfer of VRAM DMA.
fn likely(r: &mut Random, kinds: &[u8], step: u64, cpu: &mut u8) -> Call {
    if r.one_in(4) {
        return call(r, kinds);
    }
    let wanted = match r.below(20) {
        0 => kind::WRITE,
        1 => kind::SPEED_SWITCH,
        2..=11 => kind::FALL,
        12..=15 => kind::BUS_CALL,
        16 => kind::ARBITRATION,
        17 => kind::NEXT_PAIR,
        18 => kind::BLACKOUT_DRAIN,
        _ => kind::ESCAPE_DRAIN,
    };
    if !kinds.contains(&wanted) {
        return call(r, kinds);
    }
    let mut c = Call::new(wanted);
    c.record[1] = r.next() as u8;
    match wanted {
        kind::WRITE => {
            let (address, value) = match r.below(8) {
                0 => (0xFF4D, 1),
                1 => (0xFF53, 0xFF),
                2 => (0xFF54, 0xE0),
                3 => (0xFF55, r.below(4) as u8),
                4 => (0xFF51, r.byte()),
                5 => (0xFF52, r.byte()),
                _ => (0xFF55, 0x80 + r.below(8) as u8),
            };
            c.record[2..4].copy_from_slice(&(address as u16).to_le_bytes());
            c.record[4] = value;
            c.record[5] = !r.one_in(8) as u8;
        }
        kind::FALL => {
            if r.one_in(6) {
                *cpu = r.below(6) as u8;
            }
            c.record[4] = if r.one_in(3) { 3 } else { 0 };
            c.record[5] = match *cpu {
                0 => 1,
                1 => 3,
                2 if r.one_in(8) => 4,
                _ => 0,
            } | (r.one_in(4) as u8) << 3;
            c.record[8..16].copy_from_slice(&(step * 2).to_le_bytes());
        }
        kind::SPEED_SWITCH => {
            c.record[4] = r.below(5) as u8;
            c.record[8..16].copy_from_slice(&(step * 2).to_le_bytes());
        }
        kind::BUS_CALL | kind::ARBITRATION => {
            c.record[5] = r.pick(&[1, 1, 2, 5, 5, 0, 7]);
            c.record[8..16].copy_from_slice(&(step * 2).saturating_sub(r.below(16)).to_le_bytes());
        }
        kind::BLACKOUT_DRAIN => c.record[8..12].copy_from_slice(&(r.below(300_000) as u32).to_le_bytes()),
        _ => {}
    }
    c
}

fn small(r: &mut Random, limit: u64) -> u8 {
    if r.one_in(8) { r.byte() } else { r.below(limit + 1) as u8 }
}

/// Object DMA's part of an arbitrary state, as at power-on in a third of them. Its two tests of refusal 7 fail once in 40, where
/// they may.
fn put_object_dma(r: &mut Random, s: &mut [u8; SIZE], may_fail: bool) {
    if r.one_in(3) {
        return;
    }
    s[91] = !r.one_in(3) as u8;
    s[92] = page(r);
    s[93] = if r.flag() { r.pick(&[0, 1, 158, 159, 159, 160]) } else { r.below(161) as u8 };
    s[94..102].copy_from_slice(&edge(r).to_le_bytes());
    if may_fail && r.one_in(40) {
        if r.flag() {
            s[92] = 0xE0 + r.below(0x20) as u8;
        } else {
            s[93] = 161 + r.below(95) as u8;
        }
    }
}

/// An arbitrary state for a call of these kinds: every field anything of its type, document 01's six tests of refusal 7 passed but
/// once in 40.
pub fn state(r: &mut Random, kinds: &[u8]) -> [u8; SIZE] {
    let mut s = [0u8; SIZE];
    put_object_dma(&mut r.aside(), &mut s, kinds.contains(&kind::OBJECT_DMA_M_CYCLE));
    let put = |s: &mut [u8; SIZE], at: usize, bytes: &[u8]| s[at..at + bytes.len()].copy_from_slice(bytes);
    let near = |r: &mut Random| if r.one_in(3) { 0xFFFF - r.below(20) as u16 } else { r.next() as u16 };
    let source = near(r);
    put(&mut s, 0, &source.to_le_bytes());
    let dest = near(r);
    put(&mut s, 2, &dest.to_le_bytes());
    s[4] = r.below(3) as u8;
    let left = match r.below(4) {
        0 => r.below(3) as u16,
        1 => 16 * r.below(129) as u16,
        _ => r.below(2049) as u16,
    };
    let left = if s[4] != 0 && left == 0 { 1 } else { left };
    put(&mut s, 5, &left.to_le_bytes());
    s[7] = r.below(3) as u8;
    s[8] = r.one_in(3) as u8;
    s[9] = r.pick(&[0, 0, 16, 16, 1, 15]);
    if r.one_in(4) {
        s[9] = r.below(17) as u8;
    }
    put(&mut s, 10, &edge(r).to_le_bytes());
    s[18] = r.flag() as u8;
    s[19] = small(r, 1);
    s[20] = small(r, 2);
    s[21] = small(r, 3);
    s[22] = r.flag() as u8;
    s[23] = r.one_in(3) as u8;
    for at in 24..39 {
        s[at] = r.flag() as u8;
    }
    s[27] = small(r, 5);
    s[29] = small(r, 5);
    s[31] = small(r, 36);
    s[34] = small(r, 3);
    s[37] = small(r, 6);
    s[38] = match r.below(4) {
        0 => 255,
        1 => r.byte(),
        _ => r.below(4) as u8,
    };
    // Nothing counting, nothing pending: the inert fall.
    if r.one_in(6) {
        for at in [4, 5, 6, 9, 19, 20, 23, 24, 26, 30, 31, 34, 35, 37] {
            s[at] = 0;
        }
    }
    s[39] = r.flag() as u8;
    s[40] = r.flag() as u8;
    s[41] = r.below(8) as u8;
    s[42] = r.flag() as u8;
    s[43] = r.flag() as u8;
    s[44] = r.one_in(8) as u8;
    let blackout = if r.flag() { 0 } else { r.next() as u32 >> r.below(32) };
    put(&mut s, 45, &blackout.to_le_bytes());
    s[49] = r.flag() as u8;
    s[50] = if s[49] == 1 { small(r, 2) } else { 0 };
    s[51] = r.flag() as u8;
    for at in 52..80 {
        s[at] = r.next() as u8;
    }
    s[80] = r.flag() as u8;
    put(&mut s, 81, &edge(r).to_le_bytes());
    s[89] = r.flag() as u8;
    s[90] = r.flag() as u8;
    if r.one_in(40) {
        match r.below(6) {
            0 => s[7] = 3 + r.below(253) as u8,
            1 => s[9] = 17 + r.below(239) as u8,
            2 => put(&mut s, 5, &(2049 + r.below(63_487) as u16).to_le_bytes()),
            3 => s[41] = 8 + r.below(248) as u8,
            4 => s[80] = 2 + r.below(254) as u8,
            _ => {
                s[4] = 1 + r.below(2) as u8;
                put(&mut s, 5, &[0, 0]);
            }
        }
    }
    s
}

/// Half of the states in front of a call that answers with pairs come near a run's end: the destination at FFFFh or below it, little
/// left, an escape owed or not, nothing in the first pair's way. Drawn aside.
pub fn near_end(r: &Random, call: &Call, s: &mut [u8; SIZE]) {
    let mut r = r.aside();
    if !answer::has_pairs(call.record[0]) || r.flag() {
        return;
    }
    let dest: u16 = r.pick(&[0xFFFF, 0xFFFF, 0xFFFE, 0xFFFE, 0xFFFD, 0x9FFF]);
    s[2..4].copy_from_slice(&dest.to_le_bytes());
    let left: u16 = r.pick(&[1, 1, 2, 2, 3, 16, 257]);
    s[5..7].copy_from_slice(&left.to_le_bytes());
    s[7] = 1 + r.below(2) as u8;
    s[8] = r.flag() as u8;
    // Any mode. Where it is not General a block moves.
    s[4] = r.below(3) as u8;
    if s[4] != 1 {
        s[9] = r.pick(&[1, 2, 15, 16]);
    }
    s[19..21].fill(0);
}

/// Makes vectors and hands each to `take`, until it has been given `count` or says that it has enough. `to_ends`: runs come to their
/// ends more often.
fn generate(seed: u64, count: u64, kinds: &[u8], to_ends: bool, mut take: impl FnMut(&Vector) -> bool) {
    let mut r = Random::new(seed);
    let mut oracle = Oracle::new();
    let mut given = 0;
    while given < count {
        let listed = r.flag();
        let mut now = oracle.power_on(r.one_in(16));
        let mut drive = if to_ends { Drive::to_ends() } else { Drive::new() };
        for step in 0..if listed { 64 + r.below(192) } else { 128 } {
            // A list of calls goes on from power-on; else each call has a state of its own.
            let c = if listed { drive.next(&mut r, kinds, step) } else { call(&mut r, kinds) };
            let mut before = if listed { now } else { state(&mut r, kinds) };
            if to_ends && !listed {
                near_end(&r, &c, &mut before);
            }
            let vector = Vector::of(&mut oracle, c, before);
            drive.heard(&vector.call, &vector.answer);
            now = vector.after;
            given += 1;
            if !take(&vector) || given == count {
                break;
            }
        }
    }
}

/// The kinds that a word lists, as 1-26,30; all where there is none.
pub fn kinds(word: Option<&String>) -> Option<Vec<u8>> {
    let Some(word) = word else { return Some((1..=kind::LAST).collect()) };
    let mut kinds = Vec::new();
    for part in word.split(',') {
        let (first, last) = part.split_once('-').unwrap_or((part, part));
        kinds.extend(first.parse::<u8>().ok()?..=last.parse::<u8>().ok()?);
    }
    let calls = |kind: &u8| (1..=kind::LAST).contains(kind);
    (!kinds.is_empty() && kinds.iter().all(calls)).then_some(kinds)
}

struct Words {
    seed: u64,
    count: u64,
    kinds: Vec<u8>,
}

fn words(words: &[String], usage: &str) -> Words {
    let parsed = |k: usize| words.get(k).and_then(|w| w.parse::<u64>().ok());
    match (parsed(0), parsed(1), kinds(words.get(2))) {
        (Some(seed), Some(count), Some(kinds)) => Words { seed, count, kinds },
        _ => {
            eprintln!("{usage}");
            std::process::exit(2);
        }
    }
}

pub fn write(given: &[String], usage: &str) {
    let w = words(given, usage);
    let mut out = BufWriter::new(std::io::stdout().lock());
    let mut causes = CauseCounts::default();
    generate(w.seed, w.count, &w.kinds, true, |v| {
        causes.count(&v.call, &v.before, &v.answer);
        out.write_all(&v.bytes()).is_ok()
    });
    out.flush().unwrap();
    eprintln!("{causes}");
}

/// The part of the map that a byte is read from: it changes with the source's upper four bits.
fn source_part(source: u16) -> u8 {
    match source >> 12 {
        0x0..=0x7 => 0,
        0x8 | 0x9 => 1,
        0xA | 0xB => 2,
        0xC => 3,
        0xD => 4,
        _ => 5,
    }
}

/// The phase of a contended call that moves something, and 4 of others.
fn phase(v: &Vector) -> u8 {
    let edge_at = |at: usize| u64::from_le_bytes(v.before[at..at + 8].try_into().unwrap());
    let inside = v.call.record[0] == kind::BUS_CALL_FROM_INSIDE;
    let object_dma = if inside { edge_at(94) } else { v.call.edge() };
    let apart = edge_at(10).wrapping_sub(object_dma).wrapping_sub(2);
    if v.before[40] == 1 && v.answer.nth(0) > 0 { (apart / 2 % 4) as u8 } else { 4 }
}

/// What tells a bus call apart besides: the slices' lengths, the set-up cell, the slices of its changed bytes,
/// the part that its first byte came from and the phase, so that each wrong length, each part and each phase
/// with its deposit are selected.
fn bus_sort(v: &Vector) -> Option<([u32; 4], u16, [u8; 4], u8, u8)> {
    let own = (v.call.lengths, v.answer.nth(1), v.changed(), source_part(v.answer.pair(0).0), phase(v));
    matches!(v.call.record[0], kind::BUS_CALL | kind::BUS_CALL_FROM_INSIDE).then_some(own)
}

/// What tells a call of object DMA apart besides. Of an M-cycle: what it was told, the slices' lengths, the part of the map that
/// its page is in, with the bank there, and whether it is the last one, the one behind it or another. Of a write to FF46: the
/// page's part, the length of WRAM's slice, compat. Of arbitration from inside: what it hears of object DMA, now and last.
fn object_dma_sort(v: &Vector) -> Option<[u32; 6]> {
    let (record, before) = (&v.call.record, &v.before);
    let part = |page: u8| source_part((page as u16) << 8) as u32;
    let whole = (v.call.lengths == Call::new(kind::WRITE).lengths) as u32;
    let running = before[91] as u32;
    let place = before[93].clamp(158, 161) as u32;
    match record[0] {
        kind::OBJECT_DMA_M_CYCLE => {
            let bank = match part(before[92]) {
                1 => before[80],
                4 => before[41].min(2),
                _ => 0,
            };
            Some([record[4].min(3) as u32, whole, part(before[92]), bank as u32, place, running])
        }
        kind::WRITE if v.call.writes_ff46() => {
            Some([part(record[4]), v.call.lengths[1], before[44] as u32, running, 0, 0])
        }
        kind::ARBITRATION_FROM_INSIDE => Some([running, place, before[39] as u32, before[43] as u32, 0, 0]),
        kind::OBJECT_DMA => Some([running, place, 0, 0, 0, 0]),
        _ => None,
    }
}

/// What an answer says first; a tally says three numbers of the state, and then whether an escape is owed.
fn says(v: &Vector) -> u8 {
    v.answer.nth(if v.call.record[0] == kind::TALLY { 3 } else { 0 }) as u8
}

/// The first vector of each sort among `count`: kind, refusal, answer, and which bytes of the state changed. `object_dma`: of those
/// alone that the second reading answers or has a part in.
pub fn select(given: &[String], usage: &str, object_dma: bool) {
    let w = words(given, usage);
    let mut out = BufWriter::new(std::io::stdout().lock());
    let mut seen = HashSet::new();
    generate(w.seed, w.count, &w.kinds, false, |v| {
        if object_dma && v.call.side() == Side::Original {
            return true;
        }
        let sort = (v.call.record[0], v.answer.refusal(), says(v), bus_sort(v), object_dma_sort(v), v.touched());
        !seen.insert(sort) || out.write_all(&v.bytes()).is_ok()
    });
    out.flush().unwrap();
    eprintln!("{} of {} vectors selected", seen.len(), w.count);
}

/// Stored vectors, given to the original and to the second reading again: a file that only the oracle wrote has none that differs,
/// and has every kind.
pub fn stored(input: &mut dyn Read) {
    let mut oracle = Oracle::new();
    let (mut count, mut second, mut joined, mut differ) = (0u64, 0u64, 0u64, 0u64);
    let mut causes = CauseCounts::default();
    let mut kinds = HashSet::new();
    let mut bytes = [0u8; vector::BYTES];
    while input.read_exact(&mut bytes).is_ok() {
        let vector = Vector::again(&mut oracle, &bytes);
        count += 1;
        second += (vector.call.side() == Side::SecondReading) as u64;
        joined += (vector.call.side() == Side::Joined) as u64;
        differ += (vector.bytes() != bytes) as u64;
        causes.count(&vector.call, &vector.before, &vector.answer);
        kinds.insert(bytes[0]);
    }
    let missing: Vec<u8> = (0..=kind::LAST).filter(|k| !kinds.contains(k)).collect();
    println!("{count} stored vectors, {differ} differ from the oracle's");
    println!("of them the second reading's alone {second}, the original's with an input from it {joined}");
    println!("the causes of their pairs, all of them the second reading's: {}", causes.pairs());
    println!("{causes}");
    if !missing.is_empty() {
        println!("no stored vector of kind {missing:?}");
    }
    if differ > 0 || !missing.is_empty() {
        std::process::exit(1);
    }
}
