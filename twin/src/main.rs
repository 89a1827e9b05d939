//! Runs the generator's calls on store and plain machine side by side.
//!
//! `twin N` makes N calls (300,000 if left out) and prints a line after every thousand. `twin --stats N` prints how often
//! each outcome was met instead. A disagreement ends the program with a panic that names the call. `twin --vectors FILE..`
//! makes the calls of lists instead (see vectors.rs), and says of each file whether all replies agree. `twin --trace` makes
//! the calls of a trace that it reads from standard input (see trace.rs); `twin --make-trace SEED N` prints one of N lines.
//! `twin --replay [BLOCK]` replays a call log from standard input (see replay.rs) on a fresh store, or on that of a saved block;
//! `twin --make-log SEED N` prints one of N calls, `twin --make-lines SEED N` prints N lines that are nearly right.

use std::io::{self, BufRead, Write};
use std::process::ExitCode;

use twin::block;
use twin::digest::{self, Digest};
use twin::generator::Generator;
use twin::logs;
use twin::pair::Pair;
use twin::replay;
use twin::tally::Tally;
use twin::trace;
use twin::traces;
use twin::vectors;

const CALLS: u64 = 300_000;
const LINE_EVERY: u64 = 1000;
const SIGHTINGS_EVERY: u64 = 100;

const USAGE: &str = "usage: twin [--stats] [N] | twin --vectors FILE.. | twin --trace | twin --make-trace SEED N
       twin --replay [BLOCK] | twin --make-log SEED N | twin --make-lines SEED N";

/// What the program is asked for.
enum Task {
    Stream {
        stats: bool,
        calls: u64,
    },
    Vectors(Vec<String>),
    Trace,
    MakeTrace {
        seed: u64,
        lines: u64,
    },
    /// The replay of a call log, from a saved block where a file is named.
    Replay(Option<String>),
    MakeLog {
        seed: u64,
        calls: u64,
    },
    MakeLines {
        seed: u64,
        lines: u64,
    },
}

/// Says at which call it was that the program panicked.
struct CallNumber(u64);

impl Drop for CallNumber {
    fn drop(&mut self) {
        if std::thread::panicking() {
            eprintln!("twin: this was call {}", self.0);
        }
    }
}

fn main() -> ExitCode {
    let arguments: Vec<String> = std::env::args().skip(1).collect();
    let Some(task) = task(&arguments) else {
        eprintln!("{USAGE}");
        return ExitCode::from(2);
    };
    match perform(task) {
        Ok(true) => ExitCode::SUCCESS,
        Ok(false) => ExitCode::FAILURE,
        Err(error) => {
            eprintln!("twin: {error}");
            ExitCode::FAILURE
        }
    }
}

fn task(arguments: &[String]) -> Option<Task> {
    let words: Vec<&str> = arguments.iter().map(String::as_str).collect();
    Some(match words[..] {
        [] => Task::Stream { stats: false, calls: CALLS },
        ["--stats"] => Task::Stream { stats: true, calls: CALLS },
        ["--stats", calls] => Task::Stream { stats: true, calls: calls.parse().ok()? },
        ["--vectors", _, ..] => Task::Vectors(arguments[1..].to_vec()),
        ["--trace"] => Task::Trace,
        ["--make-trace", seed, lines] => Task::MakeTrace { seed: seed.parse().ok()?, lines: lines.parse().ok()? },
        ["--replay"] => Task::Replay(None),
        ["--replay", block] => Task::Replay(Some(block.to_string())),
        ["--make-log", seed, calls] => Task::MakeLog { seed: seed.parse().ok()?, calls: calls.parse().ok()? },
        ["--make-lines", seed, lines] => Task::MakeLines { seed: seed.parse().ok()?, lines: lines.parse().ok()? },
        [calls] => Task::Stream { stats: false, calls: calls.parse().ok()? },
        _ => return None,
    })
}

/// Is all well?
fn perform(task: Task) -> io::Result<bool> {
    // Some tens of kilobytes are read and written at a time.
    let mut input = io::BufReader::with_capacity(1 << 16, io::stdin().lock());
    let mut out = io::BufWriter::with_capacity(1 << 16, io::stdout().lock());
    match task {
        Task::Stream { stats, calls } => run(&mut out, stats, calls),
        Task::Vectors(files) => return run_vectors(&mut out, &files),
        Task::Trace => trace::run(&mut input, &mut out),
        Task::MakeTrace { seed, lines } => traces::write(&mut out, seed, lines),
        Task::Replay(block) => return run_replay(&mut input, &mut out, block),
        Task::MakeLog { seed, calls } => logs::write(&mut out, seed, calls).map(|_| ()),
        Task::MakeLines { seed, lines } => logs::write_lines(&mut out, seed, lines),
    }?;
    Ok(true)
}

/// Says of each file how many lists it has and where they disagree. Do all agree?
fn run_vectors(out: &mut impl Write, files: &[String]) -> io::Result<bool> {
    let mut agree = true;
    for file in files {
        let report = vectors::run(&std::fs::read_to_string(file)?);
        let good = report.lists - report.disagreements.len();
        writeln!(out, "{file}: {} calls, {good} of {} lists agree", report.calls, report.lists)?;
        for disagreement in &report.disagreements {
            writeln!(out, "  {disagreement}")?;
        }
        agree = agree && report.disagreements.is_empty();
    }
    out.flush()?;
    Ok(agree)
}

/// Does every answer in the log agree, and is its version known?
fn run_replay(input: &mut impl BufRead, out: &mut impl Write, block: Option<String>) -> io::Result<bool> {
    let state = match block {
        None => replay::fresh(),
        Some(file) => {
            let block = std::fs::read(&file)?;
            let other = || io::Error::other(format!("{file} has another length than a block, {} bytes", block::LENGTH));
            block::decode(&block).ok_or_else(other)?
        }
    };
    let report = replay::run(state, input, out)?.report;
    report.write("twin", &mut io::stderr().lock())?;
    Ok(report.differences.count == 0 && report.unknown_version.is_none())
}

/// Makes calls on both sides, and prints a line after every thousand, or in the end how often each outcome was met.
fn run(out: &mut impl Write, stats: bool, calls: u64) -> io::Result<()> {
    let mut generator = Generator::new();
    let mut pair = Pair::new();
    let mut answers = Digest::default();
    for made in 1..=calls {
        let _number = CallNumber(made);
        let request = generator.next_call();
        let reply = pair.call(&request.call(), Some(&request.damage));
        answers.take_reply(reply.outcome, &reply.buffer);
        if made % SIGHTINGS_EVERY == 0 {
            pair.check_sightings();
            pair.check_beyond_lengths();
        }
        if made % LINE_EVERY == 0 {
            pair.check_serial_order();
            if !stats {
                write_line(out, made, &pair, answers)?;
                out.flush()?;
            }
        }
    }
    pair.check_at_rest();
    if stats {
        writeln!(out, "calls {calls}")?;
        pair.tally.write(out)?;
        writeln!(out, "writes in two parts {}", pair.split.writes)?;
        writeln!(out, "two parts without room {}", pair.split.renewed)?;
    }
    out.flush()
}

/// Calls so far; done, offset, given, granted, pairs, ran, best; refusals 1 to 27; the digest of the state, the digest of all answers.
fn write_line(out: &mut impl Write, made: u64, pair: &Pair, answers: Digest) -> io::Result<()> {
    let Tally { done, offset, given, granted, pairs, ran, best, refused, .. } = &pair.tally;
    write!(out, "{made} {done} {offset} {given} {granted} {pairs} {ran} {best}")?;
    for count in &refused[1..] {
        write!(out, " {count}")?;
    }
    let digest = digest::of_state(&pair.state.store, &pair.state.buffers);
    writeln!(out, " {digest} {}", answers.value())
}
