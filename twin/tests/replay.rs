//! The proved program `replay` beside the twin: the same logs, lines and blocks give the same answers and the same sentences.
//!
//! The program is target/bin/replay of the tree, or the one that REPLAY names; where there is none, the tests say so and pass.
//! LUZHANEM_LINES sets how many nearly right lines are made (100,000 if it is not set).

use std::ffi::OsString;
use std::fs;
use std::io::{self, Write};
use std::path::{Path, PathBuf};
use std::process::{Command, Stdio};
use std::sync::Once;
use std::thread;

use twin::block;
use twin::logs;
use twin::replay;
use twin::state::State;
use twin::trace;
use twin::traces;

const LISTS: u64 = 10_000;
/// Logs that the lists are put into, one after another.
const LOGS: u64 = 10;
const LINES: u64 = 100_000;
/// Lines of one run of the program.
const RUN: u64 = 100_000;
const FRESH: &[u8] = b"F0 1 2 3 4 5 6 7 0 1 2 3 4 5 6 7\n= ok\n";

static SKIPPED: Once = Once::new();

/// What a run printed, and its sentences without the program's name.
#[derive(PartialEq, Eq)]
struct Printed {
    answers: Vec<u8>,
    sentences: String,
}

fn program() -> Option<PathBuf> {
    let built = Path::new(env!("CARGO_MANIFEST_DIR")).join("../target/bin/replay");
    let program = std::env::var_os("REPLAY").map_or(built, PathBuf::from);
    if !program.exists() {
        SKIPPED.call_once(|| {
            let said =
                writeln!(io::stderr(), "skipped: there is no {}; `tools/proved replay` builds it", program.display());
            said.expect("standard error is written");
        });
        return None;
    }
    Some(program)
}

fn proved(program: &Path, block: Option<&Path>, log: &[u8]) -> Printed {
    let arguments: Vec<OsString> = block.into_iter().map(OsString::from).collect();
    let mut child = Command::new(program)
        .args(arguments)
        .stdin(Stdio::piped())
        .stdout(Stdio::piped())
        .stderr(Stdio::piped())
        .spawn()
        .expect("the program starts");
    let mut input = child.stdin.take().expect("a pipe");
    let output = thread::scope(|scope| {
        // A run that has ended before the log has reads no further: what it printed says whether it should have.
        scope.spawn(move || input.write_all(log).unwrap_or_default());
        child.wait_with_output().expect("the program ends")
    });
    let sentences = String::from_utf8(output.stderr).expect("letters");
    Printed { answers: output.stdout, sentences: sentences.replace("replay: ", "") }
}

fn twins(state: State, log: &[u8]) -> Printed {
    let mut answers = Vec::new();
    let mut sentences = Vec::new();
    let report = replay::run(state, &mut &*log, &mut answers).expect("memory is read and written").report;
    report.write("twin", &mut sentences).expect("memory is written");
    let sentences = String::from_utf8(sentences).expect("letters");
    Printed { answers, sentences: sentences.replace("twin: ", "") }
}

/// Says where the two differ first.
#[track_caller]
fn check(what: &str, proved: &Printed, twins: &Printed) {
    let lines = |printed: &Printed| -> Vec<Vec<u8>> {
        printed.answers.split(|&byte| byte == b'\n').map(<[u8]>::to_vec).collect()
    };
    if proved.answers != twins.answers {
        let (proved, twins) = (lines(proved), lines(twins));
        let first = proved.iter().zip(&twins).take_while(|(one, other)| one == other).count();
        let said = |answers: &[Vec<u8>]| answers.get(first).map(|line| String::from_utf8_lossy(line).into_owned());
        panic!("{what}: answer {}: {:?}, the twin's {:?}", first + 1, said(&proved), said(&twins));
    }
    assert_eq!(proved.sentences, twins.sentences, "{what}");
}

#[test]
fn lists_of_all_calls() {
    let Some(program) = program() else { return };
    for which in 0..LOGS {
        let mut log = Vec::new();
        for seed in (which..LISTS).step_by(LOGS as usize) {
            log.extend_from_slice(FRESH);
            logs::write(&mut log, seed, 20 + seed % 100).expect("memory is written");
        }
        let proved = proved(&program, None, &log);
        assert_eq!(proved.sentences, "");
        check(&format!("log {which}"), &proved, &twins(replay::fresh(), &log));
    }
}

#[test]
fn one_long_list() {
    let Some(program) = program() else { return };
    let mut log = Vec::new();
    logs::write(&mut log, LISTS, 100_000).expect("memory is written");
    let proved = proved(&program, None, &log);
    assert_eq!(proved.sentences, "");
    check("a long list", &proved, &twins(replay::fresh(), &log));
}

#[test]
fn nearly_right_lines() {
    let Some(program) = program() else { return };
    let lines = std::env::var("LUZHANEM_LINES").map_or(LINES, |lines| lines.parse().expect("a number of lines"));
    for seed in 0..lines.div_ceil(RUN) {
        let mut log = Vec::new();
        logs::write_lines(&mut log, seed, RUN.min(lines - RUN * seed)).expect("memory is written");
        check(&format!("lines of seed {seed}"), &proved(&program, None, &log), &twins(replay::fresh(), &log));
    }
}

/// What F-5 accepts of a trace is answered as a trace.
#[test]
fn traces_are_logs() {
    let Some(program) = program() else { return };
    for seed in 0..20 {
        let mut made = Vec::new();
        traces::write(&mut made, seed, 20_000).expect("memory is written");
        let accepted = made.split(|&byte| byte == b'\n').filter(|line| trace::accepts(line));
        let log: Vec<u8> = accepted.flat_map(|line| [line, b"\n"].concat()).collect();
        let mut answers = Vec::new();
        trace::run(&mut &log[..], &mut answers).expect("memory is read and written");
        let traced = Printed { answers, sentences: String::new() };
        check(&format!("the trace of seed {seed}"), &proved(&program, None, &log), &traced);
    }
}

/// What is stored of the program is the twin's, and every answer in its input agrees but the one that is wrong on purpose.
#[test]
fn the_stored_output() {
    let folder = Path::new(env!("CARGO_MANIFEST_DIR")).join("../crates/replay");
    let (Ok(log), Ok(answers)) = (fs::read(folder.join("stdin")), fs::read(folder.join("stdout"))) else {
        let said = writeln!(io::stderr(), "skipped: there is no input and output in {}", folder.display());
        return said.expect("standard error is written");
    };
    let twins = twins(replay::fresh(), &log);
    check("the stored output", &Printed { answers, sentences: twins.sentences.clone() }, &twins);
    assert!(twins.sentences.contains("\n1 answers differ"), "{}", twins.sentences);
}

#[test]
fn small_logs() {
    let Some(program) = program() else { return };
    let logs: [&[u8]; 10] = [
        b"",
        b"\n",
        b"B0",
        b"= ok",
        b"V1\nB0\n= ok\n= 5\n",
        b"B0\n?\nV2\nB1\n",
        b"V18446744073709551615\nB0\n",
        b"B0\r\nW0 0 hi\r\nS0 0 0\nR0 0 9\n",
        b"#\n\n=\n=ok\n= \n",
        b"F\nF1\nF256\nF0 0 0 0 0 0 0 0 0 0 0 0 0 0 0 0 0\nO0 1 256\nO0 1\n",
    ];
    for log in logs {
        let what = String::from_utf8_lossy(log).into_owned();
        check(&what, &proved(&program, None, log), &twins(replay::fresh(), log));
    }
}

/// A store that is saved with transactions open goes on from its block.
#[test]
fn blocks() {
    let Some(program) = program() else { return };
    let file = Path::new(env!("CARGO_TARGET_TMPDIR")).join("block");
    for seed in 0..100 {
        let state = logs::write(&mut io::sink(), seed, 300).expect("nothing is written");
        let mut log = Vec::new();
        logs::write_from(state.clone(), &mut log, seed + 1, 300).expect("memory is written");
        fs::write(&file, block::encode(&state)).expect("a block is written");
        let proved = proved(&program, Some(&file), &log);
        assert_eq!(proved.sentences, "", "seed {seed}");
        check(&format!("the block of seed {seed}"), &proved, &twins(state, &log));
    }
}

/// Any bytes of the length of a block are one. Here a few bytes of a good one are changed.
#[test]
fn changed_blocks() {
    let Some(program) = program() else { return };
    let file = Path::new(env!("CARGO_TARGET_TMPDIR")).join("changed-block");
    let state = logs::write(&mut io::sink(), 5, 300).expect("nothing is written");
    let good = block::encode(&state);
    let mut log = Vec::new();
    logs::write_from(state, &mut log, 6, 50).expect("memory is written");
    for seed in 1..400usize {
        let mut changed = good.clone();
        for k in 0..1 + seed % 3 {
            let at = seed * 7919 + k * 104_729;
            changed[at % (2 * block::NUMBERS)] = (seed * (k + 31) % 256) as u8;
        }
        fs::write(&file, &changed).expect("a block is written");
        let state = block::decode(&changed).expect("it has the length of a block");
        check(&format!("changed block {seed}"), &proved(&program, Some(&file), &log), &twins(state, &log));
    }
}

/// Both numbers of some standings and some flags of a good block are changed, to the ends of their ranges and beyond: the pair
/// 0 and 1, which no call puts, and flags above 1 are among them.
#[test]
fn forged_numbers() {
    const FIRSTS: [u16; 8] = [0, 1, 2, 4096, 4097, 0, 1, 4098];
    const SECONDS: [u16; 8] = [0, 1, 2, 3, 4098, 1, 2, 4099];
    const FLAGS: [u16; 5] = [0, 1, 1, 2, 65535];
    let Some(program) = program() else { return };
    let file = Path::new(env!("CARGO_TARGET_TMPDIR")).join("forged-block");
    let mut met = [0; 2];
    for seed in 1..=400 {
        let state = logs::write(&mut io::sink(), seed, 300).expect("nothing is written");
        let mut forged = block::encode(&state);
        let mut draws = traces::Draws::new(seed);
        let mut log = Vec::new();
        let mut put = |at: usize, number: u16| forged[2 * at..][..2].copy_from_slice(&number.to_le_bytes());
        for _ in 0..1 + draws.below(4) {
            let [t, d] = [8, 16].map(|below| draws.below(below) as usize);
            put(block::BEGUN + t, FLAGS[draws.below(5) as usize]);
            put(block::STALE + t, FLAGS[draws.below(5) as usize]);
            put(block::HELD, FLAGS[draws.below(5) as usize]);
            put(block::FIRSTS + 8 * d + t, FIRSTS[draws.below(8) as usize]);
            put(block::SECONDS + 8 * d + t, SECONDS[draws.below(8) as usize]);
            writeln!(log, "W{t} {d} ab\nP{t} {d}\nR{t} {d} 3\nC{t} 0").expect("memory is written");
        }
        logs::write_from(block::decode(&forged).expect("it has the length of a block"), &mut log, seed, 30)
            .expect("memory is written");
        fs::write(&file, &forged).expect("a block is written");
        let twins = twins(block::decode(&forged).expect("it has the length of a block"), &log);
        met[usize::from(twins.answers.starts_with(b"2\n"))] += 1;
        check(&format!("forged block {seed}"), &proved(&program, Some(&file), &log), &twins);
    }
    assert!(met.iter().all(|&blocks| blocks > 50), "in range and out of it: {met:?}");
}

#[test]
fn files_that_are_no_block() {
    let Some(program) = program() else { return };
    let file = Path::new(env!("CARGO_TARGET_TMPDIR")).join("no-block");
    // The last is the length of a block of the layout with 2,323 numbers.
    for length in [0, block::LENGTH - 1, block::LENGTH + 1, 107_046] {
        fs::write(&file, vec![0; length]).expect("a file is written");
        let proved = proved(&program, Some(&file), b"B0\n");
        assert!(proved.answers.is_empty() && !proved.sentences.is_empty(), "{length} bytes");
    }
}
