//! Running a program on an input.

use std::ffi::OsStr;
use std::io::Write;
use std::path::{Path, PathBuf};
use std::process::{Command, Stdio};
use std::thread;

/// What a run printed, and its status; none where a signal ended it.
pub struct Printed {
    pub out: Vec<u8>,
    pub said: String,
    pub status: Option<i32>,
}

impl Printed {
    pub fn text(&self) -> &str {
        std::str::from_utf8(&self.out).expect("printable bytes")
    }

    /// The text of a run that had nothing to say and ended well.
    #[track_caller]
    pub fn good(&self) -> &str {
        assert_eq!((self.said.as_str(), self.status), ("", Some(0)));
        self.text()
    }
}

pub fn explain(arguments: &[&str], input: &[u8]) -> Printed {
    run(Path::new(env!("CARGO_BIN_EXE_explain")), arguments, input)
}

pub fn run<A: AsRef<OsStr>>(program: &Path, arguments: &[A], input: &[u8]) -> Printed {
    let mut child = Command::new(program)
        .args(arguments)
        .stdin(Stdio::piped())
        .stdout(Stdio::piped())
        .stderr(Stdio::piped())
        .spawn()
        .expect("the program starts");
    let mut stdin = child.stdin.take().expect("a pipe");
    let output = thread::scope(|scope| {
        // A run that has ended before its input reads no further: what it printed says whether it should have.
        scope.spawn(move || stdin.write_all(input).unwrap_or_default());
        child.wait_with_output().expect("the program ends")
    });
    let said = String::from_utf8(output.stderr).expect("letters");
    Printed { out: output.stdout, said, status: output.status.code() }
}

/// A file of the repository.
pub fn tree(path: &str) -> PathBuf {
    Path::new(env!("CARGO_MANIFEST_DIR")).join("..").join(path)
}

/// A folder for the files of a test, which is made anew.
pub fn folder(test: &str) -> PathBuf {
    let folder = Path::new(env!("CARGO_TARGET_TMPDIR")).join(test);
    if folder.exists() {
        std::fs::remove_dir_all(&folder).expect("an old folder goes");
    }
    std::fs::create_dir_all(&folder).expect("a folder is made");
    folder
}

/// A path as an argument.
pub fn word(path: &Path) -> &str {
    path.to_str().expect("a path in letters")
}

/// A generated trace of 500 lines.
pub fn generated(seed: u64) -> Vec<u8> {
    let mut trace = Vec::new();
    twin::traces::write(&mut trace, seed, 500).expect("memory is written");
    trace
}

/// The same with some bytes changed.
pub fn changed(seed: u64) -> Vec<u8> {
    let mut trace = generated(seed);
    let mut draws = twin::traces::Draws::new(seed);
    for _ in 0..1 + draws.below(60) {
        let at = draws.below(trace.len() as u64) as usize;
        trace[at] = draws.below(256) as u8;
    }
    trace
}

/// The lines of an input, without their ends; behind the last end an empty rest is no line.
pub fn lines(input: &[u8]) -> Vec<&[u8]> {
    let mut lines: Vec<&[u8]> = input.split(|&byte| byte == b'\n').collect();
    if lines.last().is_some_and(|last| last.is_empty()) {
        lines.pop();
    }
    lines
}
