//! How often each condition of the original came out false and true, and how often each marked place was reached.
use std::sync::atomic::{AtomicBool, AtomicU64, Ordering};

include!(concat!(env!("OUT_DIR"), "/probes.rs"));

static COUNTS: [[AtomicU64; 2]; PROBES.len()] = [const { [const { AtomicU64::new(0) }; 2] }; PROBES.len()];

/// The outcomes since `begin`.
static PATH: [[AtomicBool; 2]; PROBES.len()] = [const { [const { AtomicBool::new(false) }; 2] }; PROBES.len()];

pub fn probe(id: usize, value: bool) -> bool {
    COUNTS[id][value as usize].fetch_add(1, Ordering::Relaxed);
    PATH[id][value as usize].store(true, Ordering::Relaxed);
    value
}

pub fn begin() {
    PATH.iter().flatten().for_each(|reached| reached.store(false, Ordering::Relaxed));
}

pub fn path() -> Vec<u16> {
    let reached = |k: &usize| PATH[k / 2][k % 2].load(Ordering::Relaxed);
    (0..2 * PROBES.len()).filter(reached).map(|k| k as u16).collect()
}

/// Every outcome that was not reached, with its place.
pub fn print() {
    let (mut missed, mut outcomes) = (0, 0);
    for (id, (file, line, text, mark)) in PROBES.iter().enumerate() {
        let names: &[(usize, &str)] = if *mark { &[(1, "reached")] } else { &[(0, "false"), (1, "true")] };
        for (value, name) in names {
            outcomes += 1;
            if COUNTS[id][*value].load(Ordering::Relaxed) == 0 {
                println!("never {name}: {file}:{line} {text}");
                missed += 1;
            }
        }
    }
    println!("{} places of the original, {missed} of {outcomes} outcomes not reached", PROBES.len());
}
