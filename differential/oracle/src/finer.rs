//! The finer selection: the first vector of each sort among many, where a sort is told by address, path and limit. `select`
//! tells sorts by what a call changed, so that all calls that change nothing are one.
use std::collections::HashSet;
use std::io::{BufWriter, Write};

use crate::calls::{Call, Oracle, unreached};
use crate::kind;
use crate::layout::SIZE;
use crate::random::Random;
use crate::vector::Vector;
use crate::vectors;

/// The engine's fields as (first byte, width, limit): a counter is drawn at its limit and beside it, a flag has limit 1.
const FIELDS: [(usize, usize, u16); 27] = [
    (0, 2, 0xFFFF),
    (2, 2, 0xFFFF),
    (7, 1, 2),
    (8, 1, 1),
    (9, 1, 16),
    (18, 1, 1),
    (19, 1, 1),
    (20, 1, 2),
    (21, 1, 2),
    (22, 1, 1),
    (23, 1, 1),
    (24, 1, 1),
    (25, 1, 1),
    (26, 1, 1),
    (27, 1, 4),
    (28, 1, 1),
    (29, 1, 4),
    (30, 1, 1),
    (31, 1, 36),
    (33, 1, 1),
    (34, 1, 3),
    (35, 1, 1),
    (36, 1, 1),
    (37, 1, 6),
    (38, 1, 255),
    (39, 1, 1),
    (40, 1, 1),
];

/// Where the map changes from one part to the next.
const SOURCES: [u16; 11] = [0x0000, 0x7FFF, 0x8000, 0x9FFF, 0xA000, 0xBFFF, 0xC000, 0xCFFF, 0xD000, 0xDFFF, 0xE000];

fn limit(r: &mut Random, limit: u16) -> u16 {
    match limit {
        1 => 1,
        0xFFFF => r.pick(&SOURCES),
        2 | 16 => limit - r.below(2) as u16,
        _ => r.pick(&[1, limit - 1, limit, limit.saturating_add(1).min(255), 254, 255]),
    }
}

/// At rest but for one field or two, armed or not.
fn near_rest(r: &mut Random, rest: &[u8; SIZE]) -> [u8; SIZE] {
    let mut s = *rest;
    s[43] = r.flag() as u8;
    s[4] = r.below(3) as u8;
    let left = if s[4] == 0 && r.flag() { 0 } else { r.pick(&[1, 15, 16, 17, 32, 256, 2048]) };
    s[5..7].copy_from_slice(&(left as u16).to_le_bytes());
    for _ in 0..1 + r.below(3) {
        let (at, width, most) = r.pick(&FIELDS);
        let value = limit(r, most).to_le_bytes();
        s[at..at + width].copy_from_slice(&value[..width]);
    }
    if r.one_in(4) {
        let blackout = r.pick(&[1u32, 2, 3, 5, 6, 7, 131_077]);
        s[45..49].copy_from_slice(&blackout.to_le_bytes());
    }
    s[42] = r.flag() as u8;
    s
}

/// An arbitrary state with one of its fields at a limit.
fn at_limit(r: &mut Random, kinds: &[u8]) -> [u8; SIZE] {
    let mut s = vectors::state(r, kinds);
    let (at, width, most) = r.pick(&FIELDS);
    let value = limit(r, most).to_le_bytes();
    s[at..at + width].copy_from_slice(&value[..width]);
    s
}

/// Half of the write conflicts are asked at the address that the engine writes next.
pub fn aim(r: &mut Random, call: &mut Call, before: &[u8; SIZE]) {
    if call.record[0] == kind::WRITE_CONFLICT && r.flag() {
        let dest = u16::from_le_bytes([before[2], before[3]]);
        call.record[2..4].copy_from_slice(&(0x8000 | dest & 0x1FFF).to_le_bytes());
    }
}

/// The address of a read or a write: itself where the map is fine or has a limit, else its upper four bits.
fn place(address: u16) -> u16 {
    if address >= 0xFE00 || address & 0x0FFF == 0 || address & 0x0FFF == 0x0FFF || address == 0xFDFF {
        address
    } else {
        address >> 12
    }
}

/// What of a written value counts at an address.
fn value_class(address: u16, value: u8) -> u8 {
    match address {
        0xFF46 => (value > 0xDF) as u8,
        0xFF4D | 0xFF4F => value & 1 | (value > 1) as u8 * 2,
        0xFF55 => value & 0x80,
        0xFF70 => value & 7,
        0xFF75 => value & 0x70,
        _ => 0,
    }
}

/// WRAM's slice has another length than it must have.
fn wrong_wram(call: &Call) -> bool {
    call.lengths[1] != Call::new(kind::WRITE).lengths[1]
}

/// Address, compat, bank, lengths, the slice that changed, the value's class.
fn access_sort(v: &Vector) -> Vec<u16> {
    let address = v.call.address();
    let class = if v.call.record[0] == kind::WRITE { value_class(address, v.call.record[4]) } else { 0 };
    let wrong = wrong_wram(&v.call) as u16;
    vec![place(address), v.before[44] as u16, v.before[41].min(2) as u16, wrong, v.changed()[0] as u16, class as u16]
}

/// A state that fails refusal 7, and another reason beside it.
fn two_reasons(v: &Vector) -> bool {
    let r = &v.call.record;
    let other = match r[0] {
        kind::FALL => r[4] > 3,
        kind::SPEED_SWITCH => r[4] > 4 || r[5] & 1 == 1,
        kind::READ | kind::WRITE => wrong_wram(&v.call),
        kind::BUS_CALL | kind::BUS_CALL_FROM_INSIDE | kind::OBJECT_DMA_M_CYCLE => {
            v.call.lengths != Call::new(kind::BUS_CALL).lengths
        }
        _ => false,
    };
    unreached(&v.before) && other
}

/// What tells a call of its kind apart besides the path.
fn own_sort(v: &Vector) -> Vec<u16> {
    let (before, answer) = (&v.before, &v.answer);
    let blackout = u32::from_le_bytes(before[45..49].try_into().unwrap());
    match v.call.record[0] {
        kind::READ | kind::WRITE => access_sort(v),
        kind::CLAIM => vec![answer.nth(1)],
        kind::WRITE_CONFLICT => vec![before[21].min(3) as u16],
        kind::SWITCH_IN_PROGRESS | kind::DIVIDER_ACTIVE => vec![blackout.min(7) as u16, before[43] as u16],
        kind::BUS_CALL | kind::BUS_CALL_FROM_INSIDE => vec![answer.nth(0), answer.nth(1), place(answer.pair(0).0)],
        kind::OBJECT_DMA_M_CYCLE => vec![answer.nth(0), answer.nth(1) >> 12],
        kind::WRAM_BANK | kind::SVBK_REGISTER => vec![answer.nth(0)],
        _ => Vec::new(),
    }
}

/// The outcomes of the original's conditions in the call just made, where it was built to tell them (BRANCHES).
#[cfg(branches)]
fn path(_: &Vector) -> Vec<u16> {
    crate::reached::path()
}

#[cfg(not(branches))]
fn path(v: &Vector) -> Vec<u16> {
    v.touched().into_iter().map(|k| k as u16).collect()
}

pub fn select(seed: u64, count: u64, kinds: &[u8]) {
    let mut out = BufWriter::new(std::io::stdout().lock());
    let (mut r, mut oracle, mut seen) = (Random::new(seed), Oracle::new(), HashSet::new());
    for _ in 0..count {
        let rest = oracle.power_on(r.one_in(16));
        let before = if r.one_in(4) { near_rest(&mut r, &rest) } else { at_limit(&mut r, kinds) };
        let mut call = vectors::call(&mut r, kinds);
        aim(&mut r, &mut call, &before);
        #[cfg(branches)]
        crate::reached::begin();
        let v = Vector::of(&mut oracle, call, before);
        let sort = (v.call.record[0], v.answer.refusal(), two_reasons(&v), own_sort(&v), path(&v));
        if seen.insert(sort) {
            out.write_all(&v.bytes()).unwrap();
        }
    }
    out.flush().unwrap();
    eprintln!("{} of {count} vectors selected", seen.len());
}
