//! Document 01's six records of section 6 through the replay, the log and the judge over the original. Nothing expected here
//! came from a run: the lines are the paper's, with the sixth field that document 02's A3 gives them, the log's records are worked out
//! from them and from A2.
use std::ffi::OsString;

use crate::judge::{self, Verdict};
use crate::replay_step::RECORD;
use crate::{board_log, replay};

/// "write FF55 = 00 with LCD on, fall mode 3, three next pairs, kind 9"
const SCRIPT: [[u8; RECORD]; 6] = [
    [1, 0, 0x55, 0xFF, 0, 1, 0, 0, 0, 0, 0, 0, 0, 0, 0, 0],
    [2, 0, 0, 0, 3, 0, 0, 0, 0, 0, 0, 0, 0, 0, 0, 0],
    [3, 0, 0, 0, 0, 0, 0, 0, 0, 0, 0, 0, 0, 0, 0, 0],
    [3, 0, 0, 0, 0, 0, 0, 0, 0, 0, 0, 0, 0, 0, 0, 0],
    [3, 0, 0, 0, 0, 0, 0, 0, 0, 0, 0, 0, 0, 0, 0, 0],
    [9, 0, 0, 0, 0, 0, 0, 0, 0, 0, 0, 0, 0, 0, 0, 0],
];

/// "the six lines in document 01 gain it": both pairs go on, and the other four lines have none.
const LINES: &str = "0 0 0 16 80 0\n1 0 0 16 80 0\n2 0 1 15 FF 0\n3 0 1 14 FF 0\n4 0 0 14 FF 0\n5 6 0 14 FF 0\n";

/// Both pointers are 0 at power-on: the pairs are 0000h to 8000h and 0001h to 8001h.
const LOG: [[u8; RECORD]; 6] = [
    [0, 0, 16, 0, 0x80, 0, 0, 0, 0, 0, 0, 0, 0, 0, 0, 0],
    [0, 0, 16, 0, 0x80, 0, 0, 0, 0, 0, 0, 0, 0, 0, 0, 0],
    [0, 1, 15, 0, 0xFF, 0x00, 0x00, 0x00, 0x80, 0, 0, 0, 0, 0, 0, 0],
    [0, 1, 14, 0, 0xFF, 0x01, 0x00, 0x01, 0x80, 0, 0, 0, 0, 0, 0, 0],
    [0, 0, 14, 0, 0xFF, 0, 0, 0, 0, 0, 0, 0, 0, 0, 0, 0],
    [6, 0, 14, 0, 0xFF, 0, 0, 0, 0, 0, 0, 0, 0, 0, 0, 0],
];

fn lines_are_the_papers() {
    let mut lines = Vec::new();
    replay::run(&mut SCRIPT.as_flattened(), &mut lines).unwrap();
    assert_eq!(String::from_utf8(lines).unwrap(), LINES);
}

/// With a tail of each length behind the six, which has no record.
fn log_is_as_worked_out() {
    for rest in 0..RECORD {
        let script = [SCRIPT.as_flattened(), &SCRIPT[0][..rest]].concat();
        let mut log = Vec::new();
        assert_eq!(board_log::write(&mut &script[..], &mut log).unwrap(), rest);
        assert_eq!(log, LOG.as_flattened());
    }
}

fn judged(script: &[u8], log: &[u8]) -> Verdict {
    judge::of_log(&mut &script[..], &mut &log[..]).unwrap()
}

/// Each byte in turn is changed from the end on, and those behind it stay so: it is the first that counts.
fn first_wrong_record_is_told() {
    let mut log = LOG.as_flattened().to_vec();
    assert_eq!(judged(SCRIPT.as_flattened(), &log), Verdict::Yes);
    for at in (0..log.len()).rev() {
        log[at] ^= 1 << (at % 8);
        assert_eq!(judged(SCRIPT.as_flattened(), &log), Verdict::Wrong((at / RECORD) as u64));
    }
}

/// "a length not a multiple of 16 or unequal record counts, tested before any record": each also with record 0 wrong.
fn lengths_are_refused_first() {
    assert_eq!(judged(&[], &[]), Verdict::Yes);
    let script = SCRIPT.as_flattened();
    for first in [0, 1] {
        let mut log = LOG.as_flattened().to_vec();
        log[0] ^= first;
        for (script_bytes, log_bytes) in [(96, 95), (95, 96), (95, 95), (96, 80), (80, 96), (0, 96), (96, 0), (1, 1)] {
            assert_eq!(judged(&script[..script_bytes], &log[..log_bytes]), Verdict::Refused);
        }
    }
}

/// "other than two arguments, a file that will not open or be read": the folder opens, and is not read.
fn files_are_refused() {
    let names = |words: &[&str]| words.iter().map(OsString::from).collect::<Vec<_>>();
    let (empty, missing, folder) = ("/dev/null", "/dev/null/none", "/");
    for words in
        [&[][..], &[empty], &[empty; 3], &[missing, empty], &[empty, missing], &[folder, empty], &[empty, folder]]
    {
        assert_eq!(judge::of_files(&names(words)), Verdict::Refused, "{words:?}");
    }
    assert_eq!(judge::of_files(&names(&[empty; 2])), Verdict::Yes);
}

pub fn check() {
    lines_are_the_papers();
    log_is_as_worked_out();
    first_wrong_record_is_told();
    lengths_are_refused_first();
    files_are_refused();
    assert_eq!([Verdict::Yes, Verdict::Wrong(0), Verdict::Refused].map(|v| v.to_string()), ["yes", "0", "refused 22"]);
}
