//! The log of document 02, A2, over the original: a record of 16 bytes for each record of a script, as a board would write it.
use std::io::{Read, Result, Write};

use crate::fill::{BUFFER, fill};
use crate::replay_step::{Outcome, RECORD, Replay};

pub type LogRecord = [u8; RECORD];

/// "refusal, pairs, left (two bytes), FF55, source and destination of the pair (two bytes each, zero if none), then zeros, all
/// little-endian": a pair's cause is not in it.
#[inline]
pub fn record(outcome: &Outcome) -> LogRecord {
    let (source, destination) = outcome.pair.map_or((0, 0), |pair| (pair.source, pair.destination));
    let mut bytes = [0; RECORD];
    bytes[0] = outcome.refusal;
    bytes[1] = outcome.pair.is_some() as u8;
    bytes[2..4].copy_from_slice(&outcome.left.to_le_bytes());
    bytes[4] = outcome.ff55;
    bytes[5..7].copy_from_slice(&source.to_le_bytes());
    bytes[7..9].copy_from_slice(&destination.to_le_bytes());
    bytes
}

/// Writes the log of a script. "one record .. for each replay record": bytes at the script's end that are no whole record get
/// none; their number is given back.
pub fn write(script: &mut impl Read, log: &mut impl Write) -> Result<usize> {
    let mut replay = Replay::power_on();
    let mut given = vec![0u8; BUFFER];
    let mut out = Vec::with_capacity(BUFFER);
    loop {
        let n = fill(script, &mut given)?;
        let (records, rest) = given[..n].as_chunks();
        out.clear();
        for bytes in records {
            out.extend_from_slice(&record(&replay.step(*bytes)));
        }
        log.write_all(&out)?;
        if n < BUFFER {
            return Ok(rest.len());
        }
    }
}
