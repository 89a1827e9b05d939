//! The answers: the second column is what `twin --trace` prints, and the proved `trace`.

use std::io::{self, Write};
use std::path::PathBuf;

use tools::refusals::name_of_number;

use crate::run::{changed, explain, generated, lines, run, tree};

const TRACES: u64 = 200;

/// How a line is shown, said once more.
pub fn shown(line: &[u8]) -> String {
    let form = |(k, &byte): (usize, &u8)| match byte {
        b'\\' => "\\\\".to_string(),
        b' ' if k + 1 == line.len() => "\\x20".to_string(),
        32..=126 => (byte as char).to_string(),
        _ => format!("\\x{byte:02x}"),
    };
    line.iter().enumerate().map(form).collect()
}

/// The rows that should be printed, without notes.
fn rows(trace: &[u8], answers: &[u8]) -> Vec<String> {
    let named = |answer: &str| match answer.parse::<usize>() {
        Ok(number) => format!("{number} {}", name_of_number(number)),
        Err(_) => answer.to_string(),
    };
    let row = |(k, (line, answer)): (usize, (&[u8], &[u8]))| {
        let line = if line.len() > 128 { format!("{}...", shown(&line[..128])) } else { shown(line) };
        format!("{:6}  {line:24} {}", k + 1, named(std::str::from_utf8(answer).expect("letters")))
    };
    let (trace, answers) = (lines(trace), lines(answers));
    assert_eq!(trace.len(), answers.len());
    trace.into_iter().zip(answers).enumerate().map(row).collect()
}

fn printed_rows(trace: &[u8]) -> Vec<String> {
    let printed = explain(&[], trace);
    assert_eq!(printed.status, Some(0));
    printed.text().lines().filter(|line| !line.starts_with("        ")).map(str::to_string).collect()
}

fn twins(trace: &[u8]) -> Vec<u8> {
    let mut answers = Vec::new();
    twin::trace::run(&mut &*trace, &mut answers).expect("memory is read and written");
    answers
}

#[track_caller]
fn check(trace: &[u8], what: &str) {
    let answers = twins(trace);
    assert!(printed_rows(trace) == rows(trace, &answers), "{what}");
    if let Some(program) = proved() {
        assert!(run::<&str>(&program, &[], trace).out == answers, "{what}: the proved trace answers otherwise");
    }
}

/// The program of the tree, or the one that TRACE names.
fn proved() -> Option<PathBuf> {
    let program = std::env::var_os("TRACE").map_or(tree("target/bin/trace"), PathBuf::from);
    program.exists().then_some(program)
}

#[test]
fn generated_traces() {
    if proved().is_none() {
        let said = writeln!(io::stderr(), "skipped: there is no target/bin/trace; `tools/proved trace` builds it");
        said.expect("standard error is written");
    }
    (0..TRACES).for_each(|seed| check(&generated(seed), &format!("seed {seed}")));
}

#[test]
fn traces_with_changed_bytes() {
    (0..TRACES).for_each(|seed| check(&changed(seed), &format!("seed {seed}, changed")));
}
