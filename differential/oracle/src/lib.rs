//! The original VRAM DMA and speed switch as an oracle: its own files, unchanged, over document 01's
//! stand-ins (the crate missingno_gb beside this one). It writes vectors: a call, the state before, the
//! original's answer, the state and the changed bytes of memory after. Object DMA, which the original does not have, is a
//! second reading of document 02 (object_dma.rs), kept beside it; so are the causes of pairs (cause.rs). The replay of document 01 and the log and judge of document 02
//! perform a script's records over it.
//!
//!     MISSINGNO_SRC=.. cargo run --release -- vectors SEED COUNT [KINDS] > FILE
//!     MISSINGNO_SRC=.. cargo run --release -- select SEED COUNT [KINDS] > FILE
//!     MISSINGNO_SRC=.. cargo run --release -- object_dma SEED COUNT [KINDS] > FILE
//!     MISSINGNO_SRC=.. cargo run --release -- cases > FILE
//!     MISSINGNO_SRC=.. cargo run --release -- aimed > FILE
//!     MISSINGNO_SRC=.. BRANCHES=1 cargo run --release -- finer SEED COUNT [KINDS] > FILE
//!     MISSINGNO_SRC=.. cargo run --release -- stored < FILE
//!     MISSINGNO_SRC=.. cargo run --release -- script SEED COUNT [whole] > SCRIPT
//!     MISSINGNO_SRC=.. cargo run --release -- sample [judge] > SCRIPT
//!     MISSINGNO_SRC=.. cargo run --release -- replay < SCRIPT
//!     MISSINGNO_SRC=.. cargo run --release -- log < SCRIPT > LOG
//!     MISSINGNO_SRC=.. cargo run --release -- judge SCRIPT LOG
//!     MISSINGNO_SRC=.. cargo run --release -- frame
//!     MISSINGNO_SRC=.. cargo run --release --features port -- compare SEED COUNT [rising]
//!     MISSINGNO_SRC=.. cargo run --release --features port -- ff55
//!     MISSINGNO_SRC=.. cargo run --release --features port -- estimate
//!
//! KINDS are as 1-26,30. Built with BRANCHES=1 the run tells at its end which conditions of the original never came out one way.
//!
//! The originals name `crate::Cgb`, `crate::vram_dma` and so on, so they stand at this crate's root.

mod aimed;
mod answer;
pub mod board_log;
mod calls;
mod cases;
mod cause;
mod cause_counts;
#[cfg(feature = "port")]
mod compare;
pub mod entry;
#[cfg(feature = "port")]
mod estimate;
#[cfg(feature = "port")]
mod ff55;
mod fill;
mod finer;
mod frame;
pub mod judge;
#[path = "../../../rust/src/kind.rs"]
mod kind;
mod layout;
pub mod loops;
mod memory;
mod object_dma;
mod random;
pub mod replay;
mod replay_step;
mod sample;
pub mod script;
mod six_records;
mod vector;
mod vectors;

include!(concat!(env!("OUT_DIR"), "/originals.rs"));

#[cfg(branches)]
mod reached;
#[cfg(branches)]
pub use reached::probe;

use std::ffi::OsString;

use console_state::CgbConsoleState;
use vram::CgbVram;
use vram_dma::{VramDma, VramDmaStatus};

include!(concat!(env!("OUT_DIR"), "/cgb.rs"));

/// FF68 to FF6B stay outside the comparison (document 01, refusal 4).
#[derive(Default)]
pub struct CgbPpu;

#[allow(dead_code)]
pub enum ColorRegister {
    BackgroundIndex,
    BackgroundData,
    ObjectIndex,
    ObjectData,
}

impl CgbPpu {
    fn read_color_register(&self, _register: ColorRegister) -> u8 {
        0
    }
    fn write_color_register(&mut self, _register: ColorRegister, _value: u8) {}
}

impl missingno_gb::Model for Cgb {
    type Vram = CgbVram;
    type Ppu = CgbPpu;
    type ConsoleState = CgbConsoleState;

    fn console_state(&self) -> &CgbConsoleState {
        &self.console_state
    }
    fn console_state_mut(&mut self) -> &mut CgbConsoleState {
        &mut self.console_state
    }
    fn has_serial_fast_clock(&self) -> bool {
        !self.dmg_compat
    }
}

fn wrong_words(usage: &str) -> ! {
    eprintln!("{usage}");
    std::process::exit(2);
}

fn seed_and_count(words: &[String], usage: &str) -> (u64, u64) {
    let number = |k: usize| words.get(k).and_then(|w| w.parse::<u64>().ok());
    let (Some(seed), Some(count)) = (number(1), number(2)) else { wrong_words(usage) };
    (seed, count)
}

/// The log of standard input's script to standard output.
fn write_log() {
    let rest = board_log::write(&mut std::io::stdin().lock(), &mut std::io::stdout().lock())
        .expect("the script could not be read or the log written");
    if rest > 0 {
        eprintln!("oracle log: the script ends in a short record of {rest} bytes, which has no record in the log");
    }
}

fn write_script(words: &[String], usage: &str) {
    let (seed, count) = seed_and_count(words, usage);
    let end = match words.get(3).map(String::as_str) {
        None => script::End::Short,
        Some("whole") => script::End::Whole,
        Some(_) => wrong_words(usage),
    };
    script::write(seed, count, end, std::io::stdout().lock()).expect("the script could not be written");
}

fn write_sample(words: &[String], usage: &str) {
    let mut output = std::io::stdout().lock();
    match words.get(1).map(String::as_str) {
        None => sample::write_replayed(&mut output),
        Some("judge") => sample::write_judged(&mut output),
        Some(_) => wrong_words(usage),
    }
    .expect("the script could not be written");
}

/// The commands.
pub fn command() {
    // A file's name may be no text.
    let names: Vec<OsString> = std::env::args_os().skip(1).collect();
    let words: Vec<String> = names.iter().map(|name| name.to_string_lossy().into_owned()).collect();
    let usage = "usage: oracle vectors|select|object_dma SEED COUNT [KINDS] | cases | aimed | finer SEED COUNT [KINDS] | stored \
                 | script SEED COUNT [whole] | sample [judge] | replay | log | judge SCRIPT LOG | frame \
                 | compare SEED COUNT [rising] | ff55 | estimate";
    match words.first().map(String::as_str) {
        Some("vectors") => vectors::write(&words[1..], usage),
        Some("select") => vectors::select(&words[1..], usage, false),
        Some("object_dma") => vectors::select(&words[1..], usage, true),
        Some("cases") => cases::write(&mut std::io::stdout().lock()),
        Some("aimed") => aimed::write_all(&mut std::io::BufWriter::new(std::io::stdout().lock())),
        Some("finer") => {
            let (seed, count) = seed_and_count(&words, usage);
            let Some(kinds) = vectors::kinds(words.get(3)) else { wrong_words(usage) };
            finer::select(seed, count, &kinds);
        }
        Some("stored") => vectors::stored(&mut std::io::stdin().lock()),
        Some("replay") => {
            let (mut input, mut output) = (std::io::stdin().lock(), std::io::stdout().lock());
            replay::run(&mut input, &mut output).expect("the replay could not be read or written");
        }
        Some("log") => write_log(),
        Some("judge") => println!("{}", judge::of_files(&names[1..])),
        Some("script") => write_script(&words, usage),
        Some("sample") => write_sample(&words, usage),
        Some("frame") => frame::run(),
        #[cfg(feature = "port")]
        Some("compare") => compare::run(&words[1..], usage),
        #[cfg(feature = "port")]
        Some("ff55") => ff55::run(),
        #[cfg(feature = "port")]
        Some("estimate") => estimate::run(),
        #[cfg(not(feature = "port"))]
        Some(command @ ("compare" | "ff55" | "estimate")) => {
            eprintln!("{command}: built without the port: sh tools/library, and build again with --features port");
            std::process::exit(2);
        }
        _ => wrong_words(usage),
    }
}
