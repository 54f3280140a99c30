//! Every reading of FF55: each mode, left and granted that passes refusal 7, with compat and without, all else as at power-on, read by the
//! original and by the port. Calls at random do not meet them all.
use cgb_vram_dma::{Memory, entry};

use crate::answer::{self, Answer};
use crate::calls::{Call, Oracle, unreached};
use crate::kind;
use crate::layout::SIZE;

struct Readers {
    oracle: Oracle,
    wram: Vec<u8>,
    call: Call,
}

impl Readers {
    fn new() -> Self {
        let mut oracle = Oracle::new();
        oracle.refills = false;
        let mut call = Call::new(kind::READ);
        call.record[2..4].copy_from_slice(&0xFF55u16.to_le_bytes());
        Self { oracle, wram: vec![0; entry::WRAM_BYTES], call }
    }

    /// Answer and state after it are the same on both sides.
    fn agree(&mut self, before: &[u8; SIZE]) -> bool {
        let outcome = self.oracle.perform(&self.call, before);
        let mut state = *before;
        let mut answer = Answer([0xA5; answer::SIZE]);
        let memory = Memory { cartridge: &[], wram: &mut self.wram, vram: &mut [], oam: &mut [] };
        let refusal = entry::perform(&mut state, &self.call.record, &mut answer.0, memory);
        let same = refusal == 0 && answer == outcome.answer && state == outcome.state;
        if !same {
            println!("differs: before {before:?}\n  original {:?}\n  port {answer:?}", outcome.answer);
        }
        same
    }
}

/// The states to read, by the offsets of docs/STATE-LAYOUT.md.
fn states(power_on: [u8; SIZE]) -> impl Iterator<Item = [u8; SIZE]> {
    let with = move |mode: u8, left: u16, granted: u8| {
        let mut state = power_on;
        state[4] = mode;
        state[5..7].copy_from_slice(&left.to_le_bytes());
        state[38] = granted;
        state
    };
    let lefts = (0..=2).flat_map(|mode| (0..=2048).map(move |left| (mode, left)));
    lefts
        .flat_map(move |(mode, left)| (0..=255).map(move |granted| with(mode, left, granted)))
        .filter(|state| !unreached(state))
}

pub fn run() {
    let mut readers = Readers::new();
    let (mut readings, mut differ) = (0, 0);
    let starts = [false, true].map(|compat| readers.oracle.power_on(compat));
    for state in starts.into_iter().flat_map(states) {
        readings += 1;
        differ += !readers.agree(&state) as u64;
        if differ == 20 {
            println!("FF55: ended at the twentieth that differs, of {readings} readings");
            std::process::exit(1);
        }
    }
    println!(
        "FF55 in every mode, with every left and granted, with and without compat: {readings} readings, {differ} differ"
    );
    if differ > 0 {
        std::process::exit(1);
    }
}
