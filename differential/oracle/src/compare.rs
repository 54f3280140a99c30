//! The run beside the original: each call is given to the original and to the port, which is linked as its exported
//! entry, and answer, whole state and all of memory are compared after it. Half of the lists start at power-on, half of
//! the calls at arbitrary states. A refusal is checked for its number, for an answer of that number and zeros, and for
//! state and memory as before. What the original has no call for, a record of another kind and bytes that no state has,
//! is given to the port alone, now and then. Object DMA, which it does not have, is held beside the second reading, and so are the
//! causes of pairs in answers that are otherwise the original's; the report keeps the two apart.
use cgb_vram_dma::Memory;
use cgb_vram_dma::entry;

use crate::answer::{self, Answer};
use crate::calls::{Call, Oracle, Outcome, Side};
use crate::cause_counts::CauseCounts;
use crate::finer;
use crate::kind;
use crate::layout::SIZE;
use crate::memory;
use crate::random::Random;
use crate::vectors;

// The oracle's own layouts are held to the port's.
const _: () = assert!(SIZE == entry::STATE_BYTES && answer::SIZE == entry::ANSWER_BYTES);

/// Kind 0 is none: a write to FF46, which is no call of the original's, stands there.
const NAMES: [&str; kind::LAST as usize + 1] = [
    "write to FF46",
    "write",
    "fall",
    "next pair",
    "switch",
    "LCD off",
    "escape drain",
    "blackout",
    "read",
    "bus",
    "arbitration",
    "write conflict",
    "wake intake",
    "instruction retired",
    "tally",
    "status",
    "claim",
    "park",
    "request standing",
    "holds CPU",
    "seizes bus",
    "switch in progress",
    "divider active",
    "double speed",
    "steps per dot",
    "WRAM bank",
    "SVBK",
    "object DMA M-cycle",
    "arbitration inside",
    "bus inside",
    "object DMA",
];

/// The sides that a call is held beside, as the report names them.
const SIDES: [(Side, &str); 3] = [
    (Side::Original, "the original, but for the causes of pairs"),
    (Side::Joined, "the original, with an input from the second reading, but for the causes of pairs"),
    (Side::SecondReading, "the second reading"),
];

/// A call's place in the report.
fn row(call: &Call) -> usize {
    if call.writes_ff46() { 0 } else { call.record[0] as usize }
}

fn side(row: usize) -> Side {
    if row == 0 { Side::SecondReading } else { Call::new(row as u8).side() }
}

/// The port's memory, each slice with a byte to spare for a length that is one long.
struct Port {
    memory: [Vec<u8>; 4],
}

/// Offsets of docs/STATE-LAYOUT.md at which no state has 3 or more: the mode, flags, the latency's tag, spare bytes.
const STRICT: [usize; 11] = [4, 8, 18, 24, 40, 42, 49, 90, 91, 102, SIZE - 1];

/// The port's result, the state after and the answer's record.
struct Gave {
    result: u8,
    state: [u8; SIZE],
    answer: Answer,
}

const LENGTHS: [usize; 4] = [entry::CARTRIDGE_BYTES, entry::WRAM_BYTES, entry::VRAM_BYTES, entry::OAM_BYTES];

impl Port {
    fn new(r: &mut Random) -> Self {
        Self { memory: LENGTHS.map(|n| (0..=n).map(|_| r.next() as u8).collect()) }
    }
    fn right(&self, which: usize) -> &[u8] {
        &self.memory[which][..LENGTHS[which]]
    }
    fn power_on(&self, compat: bool) -> [u8; SIZE] {
        entry::power_on(compat)
    }
    fn perform(&mut self, call: &Call, before: &[u8; SIZE]) -> Gave {
        let mut state = *before;
        // Whatever stood in the answer must not show in it.
        let mut answer = Answer([0xA5; answer::SIZE]);
        let n = call.lengths.map(|n| n as usize);
        let [cartridge, wram, vram, oam] = &mut self.memory;
        let memory = Memory {
            cartridge: &cartridge[..n[0]],
            wram: &mut wram[..n[1]],
            vram: &mut vram[..n[2]],
            oam: &mut oam[..n[3]],
        };
        let result = entry::perform(&mut state, &call.record, &mut answer.0, memory);
        Gave { result, state, answer }
    }
}

const KINDS: usize = NAMES.len();

struct Report {
    calls: [u64; KINDS],
    refusals: [[u64; 256]; KINDS],
    answers: [[u64; 3]; KINDS],
    deposits: u64,
    /// M-cycles that counted object DMA's last byte, and deposits that came when none was left.
    last_bytes: u64,
    deposits_behind: u64,
    /// Given to the port alone: records of no call, and bytes that no state has.
    no_call: u64,
    no_state: u64,
    causes: CauseCounts,
    differ: u64,
    /// Of those, in the cause of a pair alone.
    differ_in_cause: u64,
}

impl Report {
    fn new() -> Self {
        Self {
            calls: [0; KINDS],
            refusals: [[0; 256]; KINDS],
            answers: [[0; 3]; KINDS],
            deposits: 0,
            last_bytes: 0,
            deposits_behind: 0,
            no_call: 0,
            no_state: 0,
            causes: CauseCounts::default(),
            differ: 0,
            differ_in_cause: 0,
        }
    }

    fn print(&self, seed: u64) {
        let all: u64 = self.calls.iter().sum();
        println!("seed {seed}: {all} calls, {} differ", self.differ);
        println!("{:<20} {:>12}  first value 0, 1, 2 or more; refusals", "kind", "calls");
        for (beside, name) in SIDES {
            let rows: Vec<usize> = (0..KINDS).filter(|&k| side(k) == beside).collect();
            println!("beside {name}: {}", rows.iter().map(|&k| self.calls[k]).sum::<u64>());
            rows.into_iter().for_each(|k| self.print_row(k));
        }
        println!("beside the second reading, the causes of pairs: {}", self.causes.pairs());
        println!("{}", self.causes);
        println!("calls that differ in the cause alone {}", self.differ_in_cause);
        println!("deposits in OAM {}", self.deposits);
        println!("object DMA's last byte counted {}, deposits behind it {}", self.last_bytes, self.deposits_behind);
        println!("records of no call, 6: {}; bytes that no state has, 7: {}", self.no_call, self.no_state);
    }

    fn print_row(&self, k: usize) {
        let answers: Vec<String> = self.answers[k].iter().map(u64::to_string).collect();
        let refused: Vec<String> =
            (1..256).filter(|&n| self.refusals[k][n] > 0).map(|n| format!("{n}: {}", self.refusals[k][n])).collect();
        println!("{:<20} {:>12}  {}; {}", NAMES[k], self.calls[k], answers.join(", "), refused.join(", "));
    }

    /// A call with the answer that it must have.
    fn count(&mut self, call: &Call, before: &[u8; SIZE], answer: &Answer) {
        let row = row(call);
        self.calls[row] += 1;
        self.causes.count(call, before, answer);
        self.refusals[row][answer.refusal() as usize] += 1;
        if answer.refusal() != 0 {
            return;
        }
        self.answers[row][answer.0[2].min(2) as usize] += 1;
        let bus = matches!(call.record[0], kind::BUS_CALL | kind::BUS_CALL_FROM_INSIDE);
        if bus && answer.nth(0) > 0 && before[40] == 1 {
            self.deposits += 1;
            self.deposits_behind += (before[91] == 0 && before[93] == 160) as u64;
        }
        let counts = call.record[0] == kind::OBJECT_DMA_M_CYCLE && answer.nth(0) > 0;
        self.last_bytes += (counts && before[93] == 159) as u64;
    }
}

struct Run {
    oracle: Oracle,
    port: Port,
    report: Report,
    /// Edges never fall (document 02, A9): the last one that was given.
    rising: Option<u64>,
}

impl Run {
    fn synchronise(&mut self) {
        self.oracle.refills = false;
        self.oracle.set_memory(self.port.right(0), self.port.right(1), self.port.right(2), self.port.right(3));
    }

    fn same_memory(&self) -> bool {
        let (low, high) = self.port.right(2).split_at(memory::VRAM / 2);
        self.oracle.memory() == [self.port.right(0), self.port.right(1), low, high, self.port.right(3)]
    }

    fn raise(&mut self, call: &mut Call) {
        if let Some(last) = self.rising
            && matches!(call.record[0], kind::FALL | kind::SPEED_SWITCH)
        {
            let edge = last.saturating_add(call.edge() % 8);
            call.record[8..16].copy_from_slice(&edge.to_le_bytes());
            self.rising = Some(edge);
        }
    }

    /// The bytes behind the slices.
    fn spare(&self) -> [u8; 4] {
        std::array::from_fn(|k| self.port.memory[k][LENGTHS[k]])
    }

    fn differs(&mut self, what: String) {
        if self.report.differ < 20 {
            println!("differs: {what}");
        }
        self.report.differ += 1;
        self.synchronise();
    }

    /// A call that is none, or at bytes that are no state's, or both: 7, then 6.
    fn decline(&mut self, r: &mut Random, kinds: &[u8], before: &[u8; SIZE]) {
        let mut call = vectors::call(r, kinds);
        let mut state = *before;
        let no_state = r.flag();
        if no_state {
            state[r.pick(&STRICT)] = 3 + r.below(253) as u8;
        }
        if !no_state || r.flag() {
            call.record[0] = r.pick(&[0, kind::LAST + 1, 99, 255, kind::OBJECT_DMA_M_CYCLE]);
            call.record[4] = 3 + r.below(253) as u8;
        }
        let spare = self.spare();
        let Gave { result, state: after, answer } = self.port.perform(&call, &state);
        let number = if no_state { 7 } else { 6 };
        let mut same = result == number && answer == Answer::refused(number);
        same &= after == state;
        same &= self.spare() == spare;
        same &= self.same_memory();
        if !same {
            self.differs(format!("{call:?}\n  before {state:?}\n  wanted {number}\n  port {answer:?}"));
        }
        if no_state {
            self.report.no_state += 1;
        } else {
            self.report.no_call += 1;
        }
    }

    /// One call on both sides; what the oracle answered and left.
    fn step(&mut self, call: &Call, before: &[u8; SIZE]) -> Outcome {
        let spare = self.spare();
        let outcome = self.oracle.perform(call, before);
        if outcome.answer.refusal() == 14 {
            // An overflow is a panic of the original, after which it starts anew.
            self.synchronise();
        }
        let Gave { result, state, answer } = self.port.perform(call, before);
        let but_for_causes = |answer: Answer| answer.without_causes(call.record[0]);
        let mut same = result == outcome.answer.refusal() && but_for_causes(answer) == but_for_causes(outcome.answer);
        same &= state == outcome.state;
        same &= self.spare() == spare;
        same &= self.same_memory();
        if !same || answer != outcome.answer {
            self.report.differ_in_cause += same as u64;
            let (side, wanted) = (call.side(), outcome.answer);
            self.differs(format!("{call:?}\n  before {before:?}\n  {side:?} {wanted:?}\n  port {answer:?}"));
        }
        self.report.count(call, before, &outcome.answer);
        outcome
    }
}

pub fn run(given: &[String], usage: &str) {
    let number = |k: usize| given.get(k).and_then(|w| w.parse::<u64>().ok());
    let rising = given.get(2).map(String::as_str) == Some("rising");
    let (Some(seed), Some(count)) = (number(0), number(1)) else {
        eprintln!("{usage}");
        std::process::exit(2);
    };
    let kinds: Vec<u8> = (1..=kind::LAST).collect();
    let mut r = Random::new(seed);
    // A second stream, so that a seed gives the same calls to both sides as ever.
    let mut declining = Random::new(!seed);
    let port = Port::new(&mut r);
    let mut run = Run { oracle: Oracle::new(), port, report: Report::new(), rising: None };
    run.synchronise();
    let mut given = 0;
    while given < count {
        let compat = r.one_in(16);
        let listed = r.flag();
        let mut now = run.oracle.power_on(compat);
        assert_eq!(now, run.port.power_on(compat));
        run.rising = rising.then_some(0);
        let mut drive = vectors::Drive::to_ends();
        for step in 0..if listed { 64 + r.below(960) } else { 128 } {
            let mut call = if listed { drive.next(&mut r, &kinds, step) } else { vectors::call(&mut r, &kinds) };
            let mut before = if listed { now } else { vectors::state(&mut r, &kinds) };
            if !listed {
                vectors::near_end(&r, &call, &mut before);
            }
            finer::aim(&mut r, &mut call, &before);
            run.raise(&mut call);
            let outcome = run.step(&call, &before);
            drive.heard(&call, &outcome.answer);
            now = outcome.state;
            given += 1;
            if declining.one_in(64) {
                run.decline(&mut declining, &kinds, &now);
            }
            if given % 10_000_000 == 0 {
                eprintln!("{given} of {count}, {} differ", run.report.differ);
            }
            if given == count {
                break;
            }
        }
    }
    run.report.print(seed);
    #[cfg(branches)]
    crate::reached::print();
    if run.report.differ > 0 {
        std::process::exit(1);
    }
}
