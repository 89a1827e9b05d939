//! Lines a second of the program `trace`, of the twin's and of the program `replay`, each a process of its own, on one generated trace.

use crate::report::progress;
use std::fs::File;
use std::io::{BufWriter, Result};
use std::path::Path;
use std::process::{Command, Stdio};
use std::time::Instant;

const TRACE: &str = "target/bench.trace";
const PROVED: [&str; 1] = ["target/bin/trace"];
const TWIN: [&str; 2] = ["twin/target/release/twin", "--trace"];
const REPLAY: [&str; 1] = ["target/bin/replay"];
const SEED: u64 = 1;

/// Lines a second.
pub struct Rates {
    pub proved: f64,
    pub twin: f64,
    /// Where the program is there.
    pub replay: Option<f64>,
}

fn program(words: &[&str]) -> Result<Command> {
    let mut command = Command::new(words[0]);
    command.args(&words[1..]).stdin(File::open(TRACE)?);
    Ok(command)
}

/// What a program remarks on standard error was shown before.
fn seconds(words: &[&str]) -> Result<f64> {
    let mut command = program(words)?;
    let start = Instant::now();
    let status = command.stdout(Stdio::null()).stderr(Stdio::null()).status()?;
    assert!(status.success(), "{} ended with {status}", words[0]);
    Ok(start.elapsed().as_secs_f64())
}

/// Trace and twin must print the same. All run in turn, and the least time of each counts.
pub fn measure(lines: u64, sweeps: usize) -> Result<Rates> {
    twin::traces::write(&mut BufWriter::new(File::create(TRACE)?), SEED, lines)?;
    let printed = |words: &[&str]| program(words)?.stderr(Stdio::inherit()).output().map(|output| output.stdout);
    assert!(printed(&PROVED)? == printed(&TWIN)?, "the traces differ");
    let mut programs: Vec<&[&str]> = vec![&PROVED, &TWIN];
    if Path::new(REPLAY[0]).exists() {
        programs.push(&REPLAY);
    }
    let mut least = vec![f64::MAX; programs.len()];
    for sweep in 0..sweeps {
        for (words, least) in programs.iter().zip(&mut least) {
            *least = least.min(seconds(words)?);
        }
        progress("traces, sweeps", sweep + 1, sweeps);
    }
    let rates: Vec<f64> = least.into_iter().map(|spent| lines as f64 / spent).collect();
    Ok(Rates { proved: rates[0], twin: rates[1], replay: rates.get(2).copied() })
}
