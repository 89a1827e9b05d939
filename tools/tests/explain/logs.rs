//! Logs of calls.

use std::fs;
use std::path::PathBuf;

use twin::block;
use twin::replay;

use crate::answers::shown;
use crate::run::{explain, folder, lines, tree, word, Printed};

const LOGS: u64 = 60;

/// The answers of all rows that have one, as `replay` prints them.
fn answers(log: &[u8], printed: &Printed) -> Vec<String> {
    let rows = printed.text().lines().filter(|row| !row.starts_with("        "));
    let answer = |(line, row): (&&[u8], &str)| {
        let line = if line.len() > 8237 { format!("{}...", shown(&line[..8237])) } else { shown(line) };
        let behind = row[8.min(row.len())..].strip_prefix(line.as_str()).expect("the line").trim_start();
        match behind.split_once(' ') {
            Some((number, _)) if number.bytes().all(|byte| byte.is_ascii_digit()) => number.to_string(),
            _ => behind.to_string(),
        }
    };
    let lines = lines(log);
    lines.iter().zip(rows).map(answer).filter(|answer| !answer.is_empty()).collect()
}

/// What the twin prints for a log, and the store that it leaves.
fn twins(log: &[u8]) -> (Vec<String>, twin::state::State) {
    let mut out = Vec::new();
    let run = replay::run(replay::fresh(), &mut &*log, &mut out).expect("memory is read and written");
    let answers = lines(&out).into_iter().map(|line| String::from_utf8(line.to_vec()).expect("letters")).collect();
    (answers, run.state)
}

/// A saved block of what a log leaves.
fn block_file(name: &str, log: &[u8]) -> PathBuf {
    let file = folder(name).join("saved.block");
    fs::write(&file, block::encode(&twins(log).1)).expect("a file is written");
    file
}

#[test]
fn the_sample_agrees() {
    let log = fs::read(tree("samples/evening.log")).expect("the sample");
    let printed = explain(&[], &log);
    assert!(printed.good().contains(
        "    27  C3 1180                  21 FileClosed
        file 1 is closed at minute 1180: its window is 0 to 1170, set by 7 (H1 0 1170); the write is at 25 (W3 1 show)
    28  = 21
"
    ));
    assert!(printed
        .text()
        .contains("    81  U                        ok\n        takes back the grant of 79 (C4 1211)\n"));
    assert_eq!(answers(&log, &printed), twins(&log).0);
}

#[test]
fn generated_logs_agree() {
    for seed in 0..LOGS {
        let mut log = Vec::new();
        twin::logs::write(&mut log, seed, 200).expect("memory is written");
        let printed = explain(&[], &log);
        assert_eq!((printed.said.as_str(), printed.status), ("", Some(0)), "seed {seed}");
        assert!(answers(&log, &printed) == twins(&log).0, "seed {seed}");
    }
}

#[test]
fn lines_that_are_nearly_right() {
    for seed in 0..10 {
        let mut log = Vec::new();
        twin::logs::write_lines(&mut log, seed, 2000).expect("memory is written");
        let printed = explain(&["--log"], &log);
        assert_eq!(printed.status, Some(0));
        assert!(answers(&log, &printed) == twins(&log).0, "seed {seed}");
    }
}

#[test]
fn an_answer_that_differs_is_named() {
    let log = b"V1\nB0\n= ok\n= 5\nB0\n= ok\n= 5\n";
    let printed = explain(&[], log);
    let shown = "     1  V1
     2  B0                       ok
     3  = ok
     4  = 5
        the replay answers 'ok'
     5  B0                       5 AlreadyOpen
        open since 2
     6  = ok
        the replay answers '5'
     7  = 5
";
    assert_eq!(printed.text(), shown);
    let said = "explain: line 4 differs: the log has '5', the replay answers 'ok'; 1 later answer too\n";
    assert_eq!((printed.said.as_str(), printed.status), (said, Some(0)));
    let printed = explain(&["--quiet"], b"V1\n= ok\n");
    assert_eq!(printed.said, "explain: line 2 differs: the log has 'ok', nothing was answered yet\n");
}

#[test]
fn another_version_ends_the_run() {
    let printed = explain(&["--summary"], b"V1\nB0\nV2\nA0\n");
    let shown = "     1  V1
     2  B0                       ok
     3  V2
        version 2 is not known: the run ends here
3 lines, 0 refused
1 transaction: 0 granted, 0 stale, 0 aborted, 1 open
";
    assert_eq!(printed.text(), shown);
    assert_eq!(printed.said, "explain: line 3: version 2 is not known: the run ends here\n");
}

#[test]
fn a_log_is_told_from_a_trace() {
    let seventeen =
        |arguments: &[&str], input: &str| explain(arguments, input.as_bytes()).text().contains("17 BadLine");
    assert!(seventeen(&[], "# comment\n\nB0\n") && !seventeen(&["--log"], "# comment\n\nB0\n"));
    assert!(!seventeen(&[], "V1\n# comment\n") && seventeen(&["--trace"], "V1\n# comment\n"));
}

/// What a transaction has seen and written before line 1 is known by the block alone.
#[test]
fn a_saved_block() {
    let before =
        b"B0\nS0 1 0\nW0 1 Hello\nC0\nH2 0 9\nB0\nS0 1 0\nR0 1 9\nP0 3\nB1\nS1 1 2\nW1 1 LLLL\nS1 3 1\nW1 2 x\n";
    let block = block_file("a_saved_block", before);
    let printed = explain(&["--from-block", word(&block)], b"B0\nC1 9\nC1 8\nP0 3\nC0\nP7 0\nU\n");
    let shown = "     1  B0                       5 AlreadyOpen
        open before line 1
     2  C1 9                     21 FileClosed
        file 2 is closed at minute 9: its window is 0 to 9, set before line 1; the write is before line 1
     3  C1 8                     ok 1
        makes 0 stale: offset of descriptor 3, seen before line 1, set before line 1
        makes 0 stale: bytes 2 to 4 of file 1, seen before line 1, set before line 1
        makes 0 stale: length of file 1, seen before line 1, set before line 1
     4  P0 3                     18 StaleReader
        since 3 (C1 8): offset of descriptor 3, seen before line 1, set before line 1
        since 3 (C1 8): bytes 2 to 4 of file 1, seen before line 1, set before line 1
        since 3 (C1 8): length of file 1, seen before line 1, set before line 1
     5  C0                       13 Stale
        since 3 (C1 8): offset of descriptor 3, seen before line 1, set before line 1
        since 3 (C1 8): bytes 2 to 4 of file 1, seen before line 1, set before line 1
        since 3 (C1 8): length of file 1, seen before line 1, set before line 1
     6  P7 0                     4 NotOpen
        7 was not open before line 1, and never begun since
     7  U                        ok
        takes back the grant of 3 (C1 8)
";
    assert_eq!(printed.good(), shown);
    let line = "     3  C1 8                     ok 1\n     5  C0                       13 Stale\n";
    let printed = explain(&["--line", "5", "--from-block", word(&block)], b"B0\nC1 9\nC1 8\nP0 3\nC0\n");
    assert!(printed.good().starts_with(line), "{}", printed.text());
}

#[test]
fn a_saved_block_with_a_stale_transaction() {
    let before = b"B0\nP0 0\nB1\nS1 0 1\nC1\n";
    let block = block_file("a_saved_block_with_a_stale_transaction", before);
    let printed = explain(&["--from-block", word(&block)], b"P0 0\nU\nO0 1 0\nA0\nU\nU\n");
    let shown = "     1  P0 0                     18 StaleReader
        stale before line 1
     2  U                        23 StillOpen
        0 is open before line 1
     3  O0 1 0                   25 NotReady
        0 is stale before line 1
     4  A0                       ok
     5  U                        ok
        takes back the grant before line 1
     6  U                        24 NoGrant
        no grant since 5 (U)
";
    assert_eq!(printed.good(), shown);
}

/// Bytes at the end of one file and at the start of the next are no stretch, also where all of it was before line 1.
#[test]
fn stretches_end_with_their_file() {
    let before = b"B0\nS0 0 4095\nW0 0 a\nS0 1 0\nW0 1 b\nC0\nB0\nS0 0 4095\nR0 0 1\nS0 1 0\nR0 1 1\nB1\nS1 8 4095\nW1 8 x\nS1 9 0\nW1 9 y\n";
    let block = block_file("stretches_end_with_their_file", before);
    let printed = explain(&["--from-block", word(&block)], b"C1\n");
    let shown = "     1  C1                       ok 1
        makes 0 stale: byte 4095 of file 0, seen before line 1, set before line 1
        makes 0 stale: byte 0 of file 1, seen before line 1, set before line 1
";
    assert_eq!(printed.good(), shown);
    let moment = explain(&["--from-block", word(&block), "--at", "0"], b"");
    let saw = "transaction 0: open before line 1
        saw byte 4095 of file 0 before line 1
        saw byte 0 of file 1 before line 1
transaction 1: open before line 1
        wrote byte 4095 of file 0 before line 1
        wrote byte 0 of file 1 before line 1
";
    assert!(moment.good().ends_with(saw), "{}", moment.text());
}

#[test]
fn blocks_that_are_none() {
    let folder = folder("blocks_that_are_none");
    let file = folder.join("short.block");
    let whole = block::encode(&replay::fresh());
    fs::write(&file, &whole[..whole.len() - 1]).expect("a file is written");
    let printed = explain(&["--from-block", word(&file)], b"B0\n");
    let said = format!("explain: {} is no saved block, which has {} bytes\n", word(&file), block::LENGTH);
    assert_eq!((printed.said, printed.status), (said, Some(2)));
    let mut broken = whole;
    broken[2 * block::OFFSETS..][..2].copy_from_slice(&5000u16.to_le_bytes());
    fs::write(&file, &broken).expect("a file is written");
    let printed = explain(&["--from-block", word(&file)], b"B0\n");
    let shown = "     1  B0                       2 RecordRange
        in the saved block the offset of descriptor 0 is 5000, above 4096
";
    assert_eq!(printed.good(), shown);
}

/// A block with numbers out of range ends no run.
#[test]
fn forged_blocks() {
    let log = b"B0\nS0 1 0\nW0 1 Hello\nR0 1 3\nP0 2\nC0\nB0\nR0 1 3\nW0 0 x\nB1\nS1 1 0\nW1 1 y\n";
    let whole = block::encode(&twins(log).1);
    let file = folder("forged_blocks").join("forged.block");
    let mut draws = twin::traces::Draws::new(7);
    for _ in 0..40 {
        let mut forged = whole.clone();
        for _ in 0..1 + draws.below(400) {
            forged[draws.below(2 * block::NUMBERS as u64) as usize] = draws.below(256) as u8;
        }
        fs::write(&file, &forged).expect("a file is written");
        let moment = explain(&["--from-block", word(&file), "--at", "0"], b"");
        assert!(moment.good().starts_with("after line 0\n"));
        let calls = b"B0\nC1\nR0 1 9\nC0\nU\nL0 1 9\nO0 1 0 1\nF0 0 0 0 0 0 0 0 0 0 0 0 0 0 0 0\nB0\nC0\n";
        let printed = explain(&["--from-block", word(&file), "--summary"], calls);
        assert!(printed.good().contains("    10  C0                       ok 0\n"), "{}", printed.text());
    }
}
