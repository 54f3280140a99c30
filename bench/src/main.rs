//! The port against the original Rust, in one run and on the same input. Each side is timed in turns, `ROUNDS` times; a row
//! gives the medians of both, in nanoseconds a call, and the median of the turns' ratios, port to original. The end states,
//! the memory and the replays' lines must be equal, and the judges must say yes, or the run fails.
//!
//!     bench [REPLAY JUDGE]     the port's programs, target/bin/replay and target/bin/judge
mod input;
mod port;
mod programs;

use std::process::exit;
use std::time::{Duration, Instant};

use cgb_vram_dma::entry::STATE_BYTES;
use oracle::entry::Entry;
use oracle::loops::Original;
use port::Memory;

const ROUNDS: usize = 25;

fn timed(mut side: impl FnMut()) -> f64 {
    let began = Instant::now();
    side();
    began.elapsed().as_secs_f64()
}

fn median(mut values: Vec<f64>) -> f64 {
    values.sort_by(f64::total_cmp);
    values[values.len() / 2]
}

/// Times both sides in turns and prints the row. A goal is the ratio that was asked for, if one was.
fn row(name: &str, calls: usize, goal: impl Into<Option<f64>>, mut port: impl FnMut(), mut original: impl FnMut()) {
    let (mut ours, mut theirs, mut ratios) = (Vec::new(), Vec::new(), Vec::new());
    for _ in 0..ROUNDS {
        let (p, o) = (timed(&mut port), timed(&mut original));
        ours.push(p);
        theirs.push(o);
        ratios.push(p / o);
    }
    let ns = |seconds: Vec<f64>| median(seconds) * 1e9 / calls as f64;
    let goal = goal.into().map_or("none".to_string(), |ratio| format!("{ratio:.1}"));
    println!("| {name} | {:.1} | {:.1} | {:.2} | {goal} |", ns(ours), ns(theirs), median(ratios));
}

/// Runs of steps, each from the start state.
fn falls(name: &str, goal: f64, start: [u8; STATE_BYTES], steps: &[u8], each: usize, times: usize) {
    let mut original = Original::new();
    let mut memory = Memory::new();
    original.set_memory(&memory.cartridge, &memory.wram, &memory.vram, &memory.oam);
    let (mut ours, mut theirs) = (start, start);
    row(
        name,
        steps.len() * times,
        goal,
        || {
            for part in (0..times).flat_map(|_| steps.chunks(each)) {
                ours = start;
                port::falls(&mut ours, part, &mut memory);
            }
        },
        || {
            for part in (0..times).flat_map(|_| steps.chunks(each)) {
                theirs = start;
                original.falls(&mut theirs, part);
            }
        },
    );
    let (low, high) = memory.vram.split_at(8192);
    assert_eq!(ours, theirs, "{name}: the states differ");
    assert!([low, high, &memory.oam] == original.memory(), "{name}: memory differs");
}

/// The exported entry: the state, the call and the answer as bytes, read and written at every call, on both sides.
fn entry(name: &str, goal: f64, start: [u8; STATE_BYTES], steps: &[u8], times: usize) {
    let records: Vec<[u8; 16]> = steps
        .iter()
        .enumerate()
        .flat_map(|(edge, step)| {
            let bus = (step & input::BUS != 0).then(input::bus_record);
            std::iter::once(input::fall_record(*step, edge as u64)).chain(bus)
        })
        .collect();
    let mut memory = Memory::new();
    let mut original = Entry::new(&memory.cartridge, &memory.wram, &memory.vram, &memory.oam);
    let (mut ours, mut theirs) = (start, start);
    row(
        name,
        records.len() * times,
        goal,
        || {
            for _ in 0..times {
                ours = start;
                for call in &records {
                    assert_eq!(port::perform(&mut ours, call, &mut memory), 0);
                }
            }
        },
        || {
            for _ in 0..times {
                theirs = start;
                for call in &records {
                    assert_eq!(original.perform(&mut theirs, call), 0);
                }
            }
        },
    );
    assert_eq!(ours, theirs, "{name}: the states differ");
}

/// A warm processor: the first row is not to pay for it.
fn warm() {
    let began = Instant::now();
    while began.elapsed() < Duration::from_millis(300) {
        std::hint::black_box(input::frame());
    }
}

fn main() {
    let words: Vec<String> = std::env::args().skip(1).collect();
    if programs::original(&words) {
        return;
    }
    if !matches!(words.len(), 0 | 2) {
        eprintln!("usage: bench [REPLAY JUDGE]");
        exit(2);
    }
    warm();
    let mut original = Original::new();
    let (idle, armed, general) = (original.power_on(), original.armed(), original.general());
    let frame = input::frame();
    let upload = original.with_bus_calls(&armed, &frame);
    let random = input::random(65_536);
    println!("| what | port, ns | original, ns | ratio | goal |");
    println!("|---|---|---|---|---|");
    falls("falls of a frame, nothing armed", 0.8, idle, &frame, frame.len(), 10);
    falls("falls of a frame under an HBlank transfer", 0.6, armed, &upload, upload.len(), 10);
    falls("random falls", 1.0, armed, &random, 8192, 10);
    falls("bus calls of a General transfer, a fall before each", 1.0, general, &input::general(1024), 1024, 500);
    entry("the exported entry, calls of a frame under an HBlank transfer", 1.0, armed, &upload, 5);
    match &words[..] {
        [replay, judge] => programs::rows(replay, judge, &upload),
        _ => eprintln!("bench: no programs were named: replay and judge were not measured"),
    }
}
