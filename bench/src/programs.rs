//! The port's programs against the same programs over the original, each as a process of its own, on files.
use std::fs::{self, File};
use std::path::PathBuf;
use std::process::{Command, Stdio};

use crate::input;
use crate::row;

/// The words by which this program is the original's side.
const ORIGINAL_REPLAY: &str = "original-replay";
const ORIGINAL_JUDGE: &str = "original-judge";

/// Runs as the original's side where the words ask for it: `original-replay`, or `original-judge SCRIPT LOG`.
pub fn original(words: &[String]) -> bool {
    match words.split_first() {
        Some((first, [])) if first == ORIGINAL_REPLAY => {
            let (mut input, mut output) = (std::io::stdin().lock(), std::io::stdout().lock());
            oracle::replay::run(&mut input, &mut output).expect("the replay could not be read or written");
        }
        Some((first, names)) if first == ORIGINAL_JUDGE => {
            let names: Vec<_> = names.iter().map(Into::into).collect();
            println!("{}", oracle::judge::of_files(&names));
        }
        _ => return false,
    }
    true
}

/// A folder for the files, which goes with it.
struct Folder(PathBuf);

impl Folder {
    fn new() -> Self {
        let path = std::env::temp_dir().join(format!("bench-{}", std::process::id()));
        fs::create_dir_all(&path).expect("a folder for the files");
        Self(path)
    }

    fn place(&self, name: &str) -> String {
        self.0.join(name).to_str().expect("a plain path").to_string()
    }

    /// The file's path.
    fn put(&self, name: &str, bytes: &[u8]) -> String {
        let path = self.place(name);
        fs::write(&path, bytes).expect("the file can be written");
        path
    }
}

impl Drop for Folder {
    fn drop(&mut self) {
        fs::remove_dir_all(&self.0).ok();
    }
}

/// From a script to a file of lines.
fn replayed(program: &str, words: &[&str], script: &str, lines: &str) {
    let input = Stdio::from(File::open(script).expect("the script can be read"));
    let output = Stdio::from(File::create(lines).expect("the lines can be written"));
    let status = Command::new(program).args(words).stdin(input).stdout(output).status();
    assert!(status.is_ok_and(|s| s.success()), "{program} did not run");
}

/// The judge reads script and log to their ends, and must pass the log.
fn judged(program: &str, words: &[&str]) {
    let output = Command::new(program).args(words).output().expect("the judge can be run");
    assert!(output.status.success() && output.stdout == b"yes\n", "{program} {words:?} does not say yes");
}

/// The programs of both sides, and where their files are.
struct Programs<'a> {
    folder: Folder,
    own: String,
    replay: &'a str,
    judge: &'a str,
}

impl Programs<'_> {
    fn replay(&self, name: &str, script: &[u8]) {
        let path = self.folder.put("script", script);
        let (ours, theirs) = (self.folder.place("port"), self.folder.place("original"));
        row(
            name,
            script.len() / 16,
            1.0,
            || replayed(self.replay, &[], &path, &ours),
            || replayed(&self.own, &[ORIGINAL_REPLAY], &path, &theirs),
        );
        assert!(fs::read(&ours).unwrap() == fs::read(&theirs).unwrap(), "{name}: the replays' lines differ");
    }

    /// The script with the original's log of it; and the port's judge against the port's own replay.
    fn judge(&self, script: &[u8]) {
        let mut log = Vec::new();
        oracle::board_log::write(&mut &script[..], &mut log).expect("a log in memory");
        let (path, log, lines) =
            (self.folder.put("script", script), self.folder.put("log", &log), self.folder.place("port"));
        let (records, ours) = (script.len() / 16, || judged(self.judge, &[&path, &log]));
        row("judge, a record", records, None, ours, || judged(&self.own, &[ORIGINAL_JUDGE, &path, &log]));
        println!("\n| the port alone | judge, ns | replay, ns | ratio | goal |");
        println!("|---|---|---|---|---|");
        row("judge against replay of the same script, port", records, 1.0, ours, || {
            replayed(self.replay, &[], &path, &lines)
        });
    }
}

pub fn rows(replay: &str, judge: &str, steps: &[u8]) {
    let own = std::env::current_exe().expect("this program").to_str().expect("a plain path").to_string();
    let programs = Programs { folder: Folder::new(), own, replay, judge };
    let script = input::script(steps, 10);
    programs.replay("replay, a record", &script);
    programs.replay("replay, a record of a random script", &input::random_script(700_000));
    programs.judge(&script);
}
