//! Call logs, as tests: generated lists of calls, traces, and lines that are nearly right.

use std::io::{self, Write};
use std::path::PathBuf;

use crate::calllog::{self, Line};
use crate::logs;
use crate::replay::{self, Replay};
use crate::trace;
use crate::traces;

const LISTS: u64 = 10_000;
const LINES: u64 = 100_000;

fn replayed(log: &[u8]) -> (Replay, Vec<u8>) {
    let mut out = Vec::new();
    let replay = replay::run(replay::fresh(), &mut &*log, &mut out).expect("memory is read and written");
    (replay, out)
}

fn lines(text: &[u8]) -> impl Iterator<Item = &[u8]> {
    text.split(|&byte| byte == b'\n')
}

/// Every answer of the replay is the one that was recorded, and it leaves the same record and buffers.
#[test]
fn recorded_lists_replay() {
    for seed in 0..LISTS {
        let mut log = Vec::new();
        let left = logs::write(&mut log, seed, 20 + seed % 100).expect("memory is written");
        let (replay, out) = replayed(&log);
        assert!(replay.report.is_silent(), "seed {seed}: {:?}", replay.report);
        assert!(replay.state == left, "seed {seed}: another store is left");
        let recorded = lines(&log).filter_map(|line| line.strip_prefix(b"= "));
        assert!(lines(&out).filter(|line| !line.is_empty()).eq(recorded), "seed {seed}: other answers");
    }
}

/// The log of a replay is the log, but for its comments.
#[test]
fn a_replay_is_recorded_alike() {
    for seed in 0..LISTS / 10 {
        let mut log = Vec::new();
        logs::write(&mut log, seed, 100).expect("memory is written");
        let (_, out) = replayed(&log);
        let mut again = b"V1\n".to_vec();
        let mut answers = lines(&out);
        for line in lines(&log) {
            if let Line::Asks(asked) = calllog::parse(line) {
                let answer = answers.next().expect("an answer to each call");
                again.extend([&asked.line(), b"\n= ".as_slice(), answer, b"\n"].concat());
            }
        }
        let spoken = lines(&log).filter(|line| calllog::parse(line) != Line::Comment);
        assert!(lines(&again).filter(|line| !line.is_empty()).eq(spoken), "seed {seed}");
    }
}

#[test]
fn the_sample_agrees() {
    let report = replayed(include_bytes!("../../samples/evening.log")).0.report;
    assert!(report.is_silent(), "{report:?}");
}

/// The log that docs/CALLLOG.md begins with: the first indented lines, up to the column of the explanations.
#[test]
fn the_example_of_the_page() {
    let page = include_str!("../../docs/CALLLOG.md");
    let block = page.lines().skip_while(|line| !line.starts_with("    ")).take_while(|line| line.starts_with("    "));
    let log: String = block.map(|line| format!("{}\n", line[4..line.len().min(31)].trim_end())).collect();
    let (replay, out) = replayed(log.as_bytes());
    assert!(replay.report.is_silent(), "{:?}", replay.report);
    assert_eq!(String::from_utf8_lossy(&out), "ok\nok 0\nok\nok\nok 2\n13\n");
}

#[test]
fn a_changed_answer_is_seen() {
    let mut log = Vec::new();
    logs::write(&mut log, 7, 300).expect("memory is written");
    let log = String::from_utf8(log).expect("letters and digits");
    let answers: Vec<usize> = log.match_indices("\n= ok\n").map(|(at, _)| at).collect();
    for at in answers.into_iter().take(50) {
        let changed = format!("{}\n= 9\n{}", &log[..at], &log[at + 6..]);
        let line = changed[..at].matches('\n').count() as u64 + 2;
        let report = replayed(changed.as_bytes()).0.report;
        assert_eq!((report.differences.count, report.differences.first), (1, line));
    }
}

/// What F-5 accepts is answered alike by the reader of traces and by that of logs.
#[track_caller]
fn check_trace(trace: &[u8]) -> Vec<u8> {
    let accepted: Vec<u8> =
        lines(trace).filter(|line| trace::accepts(line)).flat_map(|line| [line, b"\n"].concat()).collect();
    let mut traced = Vec::new();
    trace::run(&mut &accepted[..], &mut traced).expect("memory is read and written");
    let (replay, out) = replayed(&accepted);
    assert!(replay.report.is_silent() && out == traced && !out.is_empty());
    out
}

#[test]
fn traces_are_logs() {
    check_trace(include_bytes!("../../samples/afternoon.trace"));
    check_trace(include_bytes!("../../crates/trace/stdin"));
    for seed in 0..50 {
        let mut trace = Vec::new();
        traces::write(&mut trace, seed, 2000).expect("memory is written");
        check_trace(&trace);
    }
}

/// The traces in the folder that LUZHANEM_VECTORS names, with what they print.
#[test]
fn traces_of_the_vectors() {
    let Some(folder) = std::env::var_os("LUZHANEM_VECTORS").map(|folder| PathBuf::from(folder).join("traces")) else {
        let said = writeln!(io::stderr(), "skipped: LUZHANEM_VECTORS names no folder of vectors");
        return said.expect("standard error is written");
    };
    let mut met = 0;
    for entry in folder.read_dir().expect("a folder of traces") {
        let path = entry.expect("its entries").path();
        if path.extension().is_some_and(|extension| extension == "stdin") {
            check_vector(path).expect("a trace and what it prints");
            met += 1;
        }
    }
    assert!(met > 0, "no trace in {}", folder.display());
}

/// Lines that F-5 does not accept print 17 there.
fn check_vector(path: PathBuf) -> io::Result<()> {
    let trace = std::fs::read(&path)?;
    let shown = std::fs::read(path.with_extension("stdout8"))?;
    let mut printed = Vec::new();
    trace::run(&mut &trace[..], &mut printed)?;
    assert!(printed == shown, "{}", path.display());
    let accepted: Vec<u8> = lines(&shown)
        .filter(|answer| !answer.is_empty() && *answer != b"17")
        .flat_map(|answer| [answer, b"\n"].concat())
        .collect();
    assert!(check_trace(&trace) == accepted, "{}", path.display());
    Ok(())
}

/// A line that is nearly right is read without a panic, as the reader of traces reads it where that accepts it, and what it
/// asks is read again from the line that is recorded for it.
#[test]
fn nearly_right_lines() {
    let mut log = Vec::new();
    logs::write_lines(&mut log, 1, LINES).expect("memory is written");
    let mut asked = 0;
    for line in lines(&log) {
        if let Line::Asks(call) = calllog::parse(line) {
            assert_eq!(calllog::parse(&call.line()), Line::Asks(call.clone()));
            asked += 1;
        } else {
            assert!(!trace::accepts(line));
        }
    }
    assert!(asked > LINES / 4 && asked < LINES * 3 / 4);
    let (replay, out) = replayed(&log);
    assert_eq!(lines(&out).filter(|answer| *answer == b"17").count() as u64, replay.report.others.count);
    check_trace(&log);
}
