//! What the programs have in common: inputs by name, standard output, sentences on standard error and exit statuses.

use std::ffi::OsStr;
use std::fs::File;
use std::io::{self, BufRead, BufReader, Read, Write};
use std::process::ExitCode;
use std::sync::atomic::{AtomicBool, Ordering};

use twin::block;

use crate::replay::Replay;
use crate::text::shown;

/// Bytes read at a time.
const PIECE: usize = 1 << 16;
/// The exit status of a program that could not do what it was asked for.
const FAILED: u8 = 2;

/// Why a program could not go on.
#[derive(Debug)]
pub enum Failure {
    /// It was called in a wrong way: the sentence is followed by how it is used.
    Usage(String),
    /// The sentence for standard error, without the program's name.
    Failed(String),
    /// Nobody reads the output any more.
    ClosedPipe,
}

impl Failure {
    /// Of an input, after so many of its lines.
    pub fn reading(name: &str, lines: u64, error: &io::Error) -> Failure {
        Failure::Failed(format!("cannot read {name} after {lines} lines: {error}"))
    }

    /// Of an output, after so many lines of the input.
    pub fn writing(name: &str, lines: u64, error: &io::Error) -> Failure {
        match error.kind() {
            io::ErrorKind::BrokenPipe => Failure::ClosedPipe,
            _ => Failure::Failed(format!("cannot write {name} after {lines} lines: {error}")),
        }
    }
}

/// Ends a program: says on standard error what there is to say, and gives the status.
pub fn exit(program: &str, usage: &str, ended: Result<ExitCode, Failure>) -> ExitCode {
    match ended {
        Ok(code) => code,
        Err(Failure::ClosedPipe) => ExitCode::SUCCESS,
        Err(Failure::Failed(sentence)) => {
            say(program, &sentence);
            ExitCode::from(FAILED)
        }
        Err(Failure::Usage(sentence)) => {
            say(program, &sentence);
            // Nobody can be told that standard error cannot be written.
            let _ = io::stderr().write_all(usage.as_bytes());
            ExitCode::from(FAILED)
        }
    }
}

/// Puts a sentence on standard error.
pub fn say(program: &str, sentence: &str) {
    // Nobody can be told that standard error cannot be written.
    let _ = writeln!(io::stderr(), "{program}: {sentence}");
}

/// A file, or standard input.
pub struct Input {
    /// As sentences name it.
    pub name: String,
    pub reader: Box<dyn BufRead>,
}

impl Input {
    /// Standard input where no file is named, or `-`.
    pub fn open(file: Option<&OsStr>) -> Result<Input, Failure> {
        match file {
            Some(file) if file != "-" => {
                let name = name_of(file);
                let opened = File::open(file).map_err(|error| Failure::reading(&name, 0, &error))?;
                Ok(Input { name, reader: Box::new(BufReader::with_capacity(PIECE, opened)) })
            }
            _ => {
                let reader = Box::new(BufReader::with_capacity(PIECE, io::stdin()));
                Ok(Input { name: "standard input".to_string(), reader })
            }
        }
    }
}

/// The name of a file, without control characters.
pub fn name_of(file: &OsStr) -> String {
    shown(file.as_encoded_bytes())
}

/// A replay of a log on the store of a saved block.
pub fn replay_from_block(file: &OsStr) -> Result<Replay, Failure> {
    let name = name_of(file);
    let mut bytes = Vec::new();
    let read = File::open(file).and_then(|file| file.take(block::LENGTH as u64 + 1).read_to_end(&mut bytes));
    read.map_err(|error| Failure::reading(&name, 0, &error))?;
    let other = || Failure::Failed(format!("{name} is no saved block, which has {} bytes", block::LENGTH));
    Replay::from_block(&bytes).ok_or_else(other)
}

/// Standard output, if it is open.
pub fn output() -> Result<io::Stdout, Failure> {
    if OUTPUT_CLOSED.load(Ordering::Relaxed) {
        return Err(Failure::Failed("cannot write standard output after 0 lines: it is closed".to_string()));
    }
    Ok(io::stdout())
}

/// Was standard output closed when the program started? Before `main` the standard library opens the null device in
/// place of a closed one, so that no write fails. On Linux the loader calls what stands in `.init_array` before
/// that.
static OUTPUT_CLOSED: AtomicBool = AtomicBool::new(false);

#[cfg(target_os = "linux")]
mod before_main {
    use std::os::fd::AsFd;
    use std::sync::atomic::Ordering;

    #[used]
    #[link_section = ".init_array"]
    static CHECK: extern "C" fn() = check;

    extern "C" fn check() {
        let closed = std::io::stdout().as_fd().try_clone_to_owned().is_err();
        super::OUTPUT_CLOSED.store(closed, Ordering::Relaxed);
    }
}
