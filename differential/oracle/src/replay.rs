//! The replay of document 01, section 6, over the original: records of 16 bytes from standard input, a line for each to
//! standard output.
use std::io::{Read, Result, Write};

use crate::fill::{BUFFER, fill};
use crate::replay_step::{Outcome, Replay};

fn put_number(out: &mut Vec<u8>, mut n: u64) {
    let mut digits = [0u8; 20];
    let mut at = 20;
    loop {
        at -= 1;
        digits[at] = b'0' + (n % 10) as u8;
        n /= 10;
        if n == 0 {
            break;
        }
    }
    out.extend_from_slice(&digits[at..]);
    out.push(b' ');
}

/// "Each line: record from 0, refusal or 0, pairs, left, FF55 in two capitals." Document 02, A3: "the replay line shows it as a sixth
/// field, 0, 1 or 2, zero without a pair".
#[inline(always)]
fn put_line(out: &mut Vec<u8>, number: u64, outcome: &Outcome) {
    const HEX: &[u8; 16] = b"0123456789ABCDEF";
    put_number(out, number);
    put_number(out, outcome.refusal as u64);
    put_number(out, outcome.pair.is_some() as u64);
    put_number(out, outcome.left as u64);
    let (high, low) = (HEX[outcome.ff55 as usize / 16], HEX[outcome.ff55 as usize % 16]);
    let cause = outcome.pair.map_or(0, |pair| pair.cause as u8);
    out.extend_from_slice(&[high, low, b' ', b'0' + cause, b'\n']);
}

pub fn run(input: &mut impl Read, output: &mut impl Write) -> Result<()> {
    let mut replay = Replay::power_on();
    let mut buffer = vec![0u8; BUFFER];
    let mut out = Vec::with_capacity(BUFFER);
    let mut number = 0u64;
    loop {
        let n = fill(input, &mut buffer)?;
        let (records, rest) = buffer[..n].as_chunks();
        for record in records {
            put_line(&mut out, number, &replay.step(*record));
            number += 1;
            if out.len() > 65000 {
                output.write_all(&out)?;
                out.clear();
            }
        }
        if !rest.is_empty() {
            put_line(&mut out, number, &replay.short());
        }
        if n < BUFFER {
            return output.write_all(&out);
        }
    }
}
