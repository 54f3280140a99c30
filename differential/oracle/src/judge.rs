//! The judge of document 02, A2, over the original: whether a log is the engine's log of a script.
use std::ffi::OsString;
use std::fmt;
use std::fs::File;
use std::io::{Read, Result};

use crate::board_log;
use crate::fill::{BUFFER, fill};
use crate::replay_step::{RECORD, Replay};

#[derive(Debug, PartialEq)]
pub enum Verdict {
    Yes,
    /// "the number, from 0, of the first record that is not"
    Wrong(u64),
    /// 22
    Refused,
}

impl fmt::Display for Verdict {
    fn fmt(&self, f: &mut fmt::Formatter) -> fmt::Result {
        match self {
            Self::Yes => f.write_str("yes"),
            Self::Wrong(number) => write!(f, "{number}"),
            Self::Refused => f.write_str("refused 22"),
        }
    }
}

/// "A program reads script and log, files named by its two arguments"; 22 is "other than two arguments, a file that will not open
/// or be read".
pub fn of_files(names: &[OsString]) -> Verdict {
    let [script, log] = names else { return Verdict::Refused };
    let judged = || of_log(&mut File::open(script)?, &mut File::open(log)?);
    judged().unwrap_or(Verdict::Refused)
}

/// "a length not a multiple of 16 or unequal record counts, tested before any record": both are read in step, and what the
/// records gave is held back until both ends are seen.
pub fn of_log(script: &mut impl Read, log: &mut impl Read) -> Result<Verdict> {
    let mut judge = Judge { replay: Replay::power_on(), number: 0, wrong: None };
    let (mut given, mut logged) = (vec![0u8; BUFFER], vec![0u8; BUFFER]);
    loop {
        let n = fill(script, &mut given)?;
        if fill(log, &mut logged)? != n || n % RECORD != 0 {
            return Ok(Verdict::Refused);
        }
        judge.take(&given[..n], &logged[..n]);
        if n < BUFFER {
            return Ok(judge.wrong.map_or(Verdict::Yes, Verdict::Wrong));
        }
    }
}

struct Judge {
    replay: Replay,
    /// That of the next record.
    number: u64,
    wrong: Option<u64>,
}

impl Judge {
    /// Behind the first wrong record nothing is performed.
    fn take(&mut self, given: &[u8], logged: &[u8]) {
        if self.wrong.is_some() {
            return;
        }
        let (given, logged) = (given.as_chunks().0, logged.as_chunks().0);
        for (bytes, record) in given.iter().zip(logged) {
            if board_log::record(&self.replay.step(*bytes)) != *record {
                self.wrong = Some(self.number);
                return;
            }
            self.number += 1;
        }
    }
}
