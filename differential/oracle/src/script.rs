//! Scripts for the replay and the judge, at random.
use std::io::{BufWriter, Result, Write};

use crate::kind;
use crate::random::Random;
use crate::vectors::Drive;

/// How a script ends.
#[derive(Clone, Copy, PartialEq)]
pub enum End {
    /// In a record of 7 bytes.
    Short,
    Whole,
}

/// A script of COUNT records, most of them as a program would give them; one in 64 is of no kind.
pub fn write(seed: u64, count: u64, end: End, output: impl Write) -> Result<()> {
    let kinds: Vec<u8> = (kind::WRITE..=kind::BLACKOUT_DRAIN).collect();
    let mut r = Random::new(seed);
    let mut out = BufWriter::new(output);
    let mut drive = Drive::new();
    for step in 0..count {
        let mut call = drive.next(&mut r, &kinds, step);
        if r.one_in(64) {
            call.record[0] = r.pick(&[0, 8, 9, 255]);
        }
        let short = end == End::Short && step + 1 == count;
        out.write_all(if short { &call.record[..7] } else { &call.record })?;
    }
    out.flush()
}
