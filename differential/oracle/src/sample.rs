//! The scripts that are stored as crates/replay/stdin and crates/judge/data/script: document 01's six records, then what these
//! leave out. But for these six, the long repetitions and the calls at random, each record has junk in every bit that its kind
//! ignores.
use std::collections::HashSet;
use std::io::Write;

use crate::cause::Cause;
use crate::fill::BUFFER;
use crate::kind;
use crate::object_dma::REGISTER;
use crate::random::Random;
use crate::replay_step::Replay;
use crate::vectors;

type Record = [u8; 16];

/// Of the replay's script, in front of the runs' ends and its short record.
const RECORDS: usize = 10_200;

/// Of the judge's: somewhat more than a buffer.
const JUDGED_RECORDS: usize = 4_200;

const BUFFER_RECORDS: usize = BUFFER / 16;

/// The bits that a record's kind ignores (document 01, section 6); a write to FF46 has an edge, and ignores the LCD (document 02).
fn ignored(record: &Record) -> Record {
    let kind = record[0];
    let mut used = [0; 16];
    used[0] = 0xFF;
    match kind {
        kind::WRITE => {
            let starts = record[2..4] == REGISTER.to_le_bytes();
            used[2..5].fill(0xFF);
            used[5] = if starts { 0 } else { 0xFF };
            used[8..].fill(if starts { 0xFF } else { 0 });
        }
        kind::FALL | kind::SPEED_SWITCH => {
            used[4] = 0xFF;
            used[5] = if kind == kind::FALL { 0x0F } else { 0x03 };
            used[8..].fill(0xFF);
        }
        kind::BLACKOUT_DRAIN => used[8..12].fill(0xFF),
        _ => {}
    }
    used.map(|bits: u8| !bits)
}

fn plain(kind: u8) -> Record {
    let mut record = [0; 16];
    record[0] = kind;
    record
}

fn write(address: u16, value: u8) -> Record {
    let mut record = plain(kind::WRITE);
    record[2..4].copy_from_slice(&address.to_le_bytes());
    record[4] = value;
    record[5] = 1;
    record
}

fn start(page: u8, edge: u64) -> Record {
    let mut record = write(REGISTER, page);
    record[8..].copy_from_slice(&edge.to_le_bytes());
    record
}

fn fall(mode: u8, flags: u8) -> Record {
    let mut record = plain(kind::FALL);
    record[4] = mode;
    record[5] = flags;
    record
}

fn switch(phase: u8, flags: u8) -> Record {
    let mut record = plain(kind::SPEED_SWITCH);
    record[4] = phase;
    record[5] = flags;
    record
}

fn blackout(elapsed: u32) -> Record {
    let mut record = plain(kind::BLACKOUT_DRAIN);
    record[8..12].copy_from_slice(&elapsed.to_le_bytes());
    record
}

struct Script {
    records: Vec<Record>,
    random: Random,
}

impl Script {
    fn new() -> Self {
        Self { records: Vec::new(), random: Random::new(6) }
    }

    fn put(&mut self, records: &[Record]) {
        self.records.extend(records);
    }

    fn put_junked(&mut self, records: &[Record]) {
        for record in records {
            let mask = ignored(record);
            let junk: Record = std::array::from_fn(|k| record[k] | self.random.next() as u8 & mask[k]);
            self.records.push(junk);
        }
    }

    /// "write FF55 = 00 with LCD on, fall mode 3, three next pairs, kind 9"
    fn paper(&mut self) {
        let pair = plain(kind::NEXT_PAIR);
        self.put(&[write(0xFF55, 0x00), fall(3, 0), pair, pair, pair, plain(9)]);
    }

    /// Every first byte; the write leaves 2,048.
    fn kinds(&mut self) {
        for kind in 0..=255 {
            let record = match kind {
                kind::WRITE => write(0xFF55, 0x7F),
                kind::FALL => fall(3, 0),
                kind::SPEED_SWITCH => switch(5, 0),
                kind::BLACKOUT_DRAIN => blackout(7),
                _ => plain(kind),
            };
            self.put_junked(&[record]);
        }
    }

    /// A General transfer of 2,048 bytes to its end: left in four digits, then three, two and one.
    fn longest(&mut self) {
        self.put(&[write(0xFF55, 0x7F)]);
        for _ in 0..1_025 {
            self.put(&[fall(3, 0), plain(kind::NEXT_PAIR), plain(kind::NEXT_PAIR)]);
        }
    }

    /// K9: the fifth fall of round 256 gets 14.
    fn granted_full(&mut self) {
        self.put(&[write(0xFF55, 0xFF)]);
        for _ in 0..256 {
            self.put(&[fall(3, 0), fall(3, 1), fall(3, 1), fall(0, 1), fall(0, 0), fall(0, 0)]);
        }
    }

    /// Each bit of a fall, in each mode and in two that are none.
    fn flags(&mut self) {
        self.put_junked(&[write(0xFF55, 0x83)]);
        for flags in 0..16 {
            for mode in [3, 0, 1, 2, 4, 255] {
                self.put_junked(&[fall(mode, flags), plain(kind::NEXT_PAIR)]);
            }
        }
    }

    /// A block in HBlank, two bytes of it moved.
    fn half_a_block(&mut self, length: u8) {
        let pair = plain(kind::NEXT_PAIR);
        self.put_junked(&[write(0xFF55, length), fall(3, 0)]);
        self.put_junked(&[fall(0, 0); 4]);
        self.put_junked(&[pair, pair]);
    }

    /// Every refusal of a switch, a cut with its free byte and a cut that is drained; LCD off.
    fn switches(&mut self) {
        let (pair, armed) = (plain(kind::NEXT_PAIR), write(0xFF4D, 0x01));
        self.half_a_block(0x81);
        self.put_junked(&[switch(0, 0), armed, switch(0, 1), switch(5, 0), switch(255, 3), switch(4, 0), switch(0, 0)]);
        self.put_junked(&[fall(3, 0), pair, pair, blackout(131_076), armed, switch(0, 2), blackout(1)]);
        self.half_a_block(0x82);
        self.put_junked(&[switch(0, 2), plain(kind::LCD_OFF), switch(0, 2), blackout(u32::MAX)]);
        self.half_a_block(0x83);
        self.put_junked(&[armed, switch(2, 2), fall(3, 0), plain(kind::ESCAPE_DRAIN), plain(kind::ESCAPE_DRAIN)]);
        self.put_junked(&[blackout(4), armed, switch(1, 0), blackout(1), switch(1, 0), blackout(0x0100_0000)]);
    }

    /// Blackouts of these lengths, as K7's: one edge short the next switch gets 11, then none is left.
    fn lengths(&mut self, lengths: &[u32]) {
        for edges in lengths {
            self.put_junked(&[write(0xFF4D, 0x01), switch(3, 0), write(0xFF4D, 0x01), switch(3, 0)]);
            self.put_junked(&[blackout(edges - 1), switch(3, 0), blackout(1)]);
        }
    }

    /// Object DMA is started, or a page above DFh refused: beside no transfer, within a block, a General transfer and a blackout.
    /// Left and FF55 stay.
    fn starts(&mut self) {
        let pair = plain(kind::NEXT_PAIR);
        for page in [0x00, 0x7F, 0x80, 0xBF, 0xC0, 0xDE, 0xDF, 0xE0, 0xE1, 0xFE, 0xFF] {
            let edge = self.random.next();
            self.put_junked(&[start(page, edge)]);
        }
        self.put_junked(&[write(0xFF45, 0xC0), write(0xFF47, 0xC0)]);
        // Past the blind that a switch leaves.
        self.put_junked(&[fall(3, 0); 8]);
        self.half_a_block(0x82);
        self.put_junked(&[start(0xC0, 100), pair, start(0xE0, 101), fall(0, 8), pair, start(0x8F, u64::MAX), pair]);
        self.put_junked(&[
            write(0xFF55, 0x00),
            write(0xFF55, 0x01),
            start(0xDF, 0),
            fall(3, 8),
            pair,
            start(0xFF, 1),
            pair,
        ]);
        self.put_junked(&[write(0xFF4D, 0x01), switch(4, 0), start(0x12, 2), start(0xF0, 3), blackout(u32::MAX)]);
    }

    /// A General transfer, whatever went before: where HBlank is armed the first write only disarms. A fall's quota is taken
    /// whole, at either speed.
    fn general(&mut self, length: u8, rounds: usize) {
        self.put_junked(&[write(0xFF55, length); 2]);
        for _ in 0..rounds {
            self.put_junked(&[fall(3, 0), plain(kind::NEXT_PAIR), plain(kind::NEXT_PAIR)]);
        }
    }

    /// Past the blinds and the tenure of 36 that a halt or a switch leaves: the next entry pends.
    fn settle(&mut self) {
        self.put_junked(&[fall(3, 0); 40]);
    }

    /// From double speed down; then every refusal of a switch and both ways to a free pair: a cut whose byte a next pair takes, and one
    /// whose byte is drained. Between them the way down, which a ready block bars (13) until its last pair.
    fn cuts(&mut self) {
        let (pair, drain, armed) = (plain(kind::NEXT_PAIR), plain(kind::ESCAPE_DRAIN), write(0xFF4D, 0x01));
        let over = blackout(u32::MAX);
        self.put_junked(&[armed, switch(4, 0), over]);
        self.settle();
        self.half_a_block(0x81);
        self.put_junked(&[switch(0, 0), armed, switch(0, 1), switch(5, 0), switch(255, 3), switch(0, 0), switch(0, 0)]);
        self.put_junked(&[fall(3, 0), pair, pair, over]);
        self.settle();
        self.half_a_block(0x82);
        self.put_junked(&[armed, switch(0, 0)]);
        for _ in 0..16 {
            self.put_junked(&[fall(3, 0), pair]);
        }
        self.put_junked(&[switch(0, 0), over]);
        self.settle();
        self.half_a_block(0x83);
        self.put_junked(&[armed, switch(2, 2), fall(3, 0), drain, drain, over]);
    }

    /// Some pairs at each page of VRAM, from as many pages of the source and with as many lengths; the destination's upper bits vary.
    fn pages(&mut self) {
        for k in 0..32u8 {
            self.put_junked(&[write(0xFF51, k * 8 + 3), write(0xFF52, k * 7)]);
            self.put_junked(&[write(0xFF53, k.wrapping_mul(37)), write(0xFF54, k.wrapping_mul(29))]);
            self.general(k * 4, 3);
        }
    }

    /// Addresses that wrap: a source that leaves FFFFh beside K5's destination, which leaves 9FFFh, and beside K4's, which leaves
    /// FFFFh and cuts its transfer off.
    fn wraps(&mut self) {
        for (destination_high, rounds) in [(0x9F, 32), (0xFF, 17)] {
            self.put_junked(&[write(0xFF51, 0xFF), write(0xFF52, 0xF0)]);
            self.put_junked(&[write(0xFF53, destination_high), write(0xFF54, 0xF0)]);
            self.general(0x01, rounds);
        }
    }

    fn destination(&mut self, high: u8, low: u8) {
        self.put_junked(&[write(0xFF53, high), write(0xFF54, low)]);
    }

    /// A block in HBlank up to its last byte, then a switch that cuts it, with an interrupt ready.
    fn cut_at_last(&mut self, length: u8) {
        let pair = plain(kind::NEXT_PAIR);
        self.half_a_block(length);
        for _ in 0..6 {
            self.put_junked(&[fall(0, 0), pair, pair]);
        }
        self.put_junked(&[fall(0, 0), pair, write(0xFF4D, 0x01), switch(2, 2), fall(3, 0)]);
    }

    /// The ends that the rest leaves out, for a pair's cause, at single speed: a General transfer that carries where it would be
    /// counted out; free bytes that carry, one drained and one by a next pair; one that goes on with 1 left. A cut leaves double speed.
    fn ends(&mut self) {
        let (pair, drain, armed) = (plain(kind::NEXT_PAIR), plain(kind::ESCAPE_DRAIN), write(0xFF4D, 0x01));
        let over = blackout(u32::MAX);
        self.put_junked(&[over]);
        self.destination(0xFF, 0xF0);
        self.general(0x00, 9);
        self.settle();
        for (high, low, length, call) in [(0xFF, 0xF0, 0x81, drain), (0xFF, 0xF0, 0x80, pair), (0x80, 0x00, 0x80, pair)]
        {
            self.destination(high, low);
            self.cut_at_last(length);
            self.put_junked(&[call, call, over, armed, switch(4, 0), over]);
            self.put_junked(&[fall(3, 0); 8]);
        }
    }

    /// Calls as the other runs make them, until there are so many records.
    fn random_until(&mut self, count: usize) {
        let kinds: Vec<u8> = (kind::WRITE..=kind::BLACKOUT_DRAIN).collect();
        let mut drive = vectors::Drive::new();
        while self.records.len() < count {
            let step = self.records.len() as u64;
            let record = drive.next(&mut self.random, &kinds, step).record;
            self.put(&[record]);
        }
    }
}

/// Whole records; behind them the replay's script has a short one.
fn replayed() -> Vec<Record> {
    let mut script = Script::new();
    script.paper();
    script.kinds();
    script.longest();
    script.granted_full();
    script.flags();
    script.switches();
    script.lengths(&[131_077, 262_144, 131_079, 262_144, 131_079]);
    script.starts();
    script.random_until(RECORDS);
    script.ends();
    script.records
}

/// The last record is 15 bytes of a write that would leave 16.
pub fn write_replayed(output: &mut impl Write) -> std::io::Result<()> {
    output.write_all(&replayed().concat())?;
    output.write_all(&write(0xFF55, 0x00)[..15])
}

/// The replay's script shows each cause that each kind of record can have, with 1 left in front of the pair and with more; with 1 left
/// only a free pair goes on.
pub fn check_causes() {
    let mut replay = Replay::power_on();
    let mut shown = HashSet::new();
    let mut left = 0;
    for record in replayed() {
        let outcome = replay.step(record);
        shown.extend(outcome.pair.map(|pair| (record[0], pair.cause as u8, left == 1)));
        left = outcome.left;
    }
    for (kind, cause, one_left) in [
        (kind::NEXT_PAIR, Cause::GoingOn, false),
        (kind::NEXT_PAIR, Cause::GoingOn, true),
        (kind::NEXT_PAIR, Cause::CountedOut, true),
        (kind::NEXT_PAIR, Cause::Carried, false),
        (kind::NEXT_PAIR, Cause::Carried, true),
        (kind::ESCAPE_DRAIN, Cause::GoingOn, false),
        (kind::ESCAPE_DRAIN, Cause::Carried, false),
    ] {
        assert!(shown.contains(&(kind, cause as u8, one_left)), "kind {kind}, {cause:?}, 1 left {one_left}");
    }
}

/// Whole records alone. Without the longest transfer, but with pairs all over the map; a transfer runs across a buffer's end.
pub fn write_judged(output: &mut impl Write) -> std::io::Result<()> {
    let mut script = Script::new();
    script.paper();
    script.kinds();
    script.granted_full();
    script.flags();
    script.lengths(&[131_077, 262_144, 131_079]);
    script.cuts();
    script.starts();
    script.pages();
    script.wraps();
    script.random_until(BUFFER_RECORDS - 30);
    script.general(0x7F, 20);
    script.random_until(JUDGED_RECORDS);
    output.write_all(&script.records.concat())
}
