//! No byte of the input reaches the output as a control character.

use std::fs;

use crate::run::{explain, folder, word};

const HOSTILE: [&[u8]; 8] = [
    b"</script><script>alert(1)</script>",
    b"<img src=x onerror=alert(1)>",
    b"\"'`&lt;",
    b"<a href=\"javascript:alert(1)\">x</a>",
    b"\x00",
    b"\x1b[2J\x1b]0;title\x07",
    b"\xe2\x80\xae\xe2\x81\xa6right to left",
    b"\x9b31m\x7f\x80\xff\r\t\x0b\x08 ",
];

/// As Writes, as what Reads give, as lines of another form, and as answers of a log.
fn hostile_input(log: bool) -> Vec<u8> {
    let mut input = if log { b"V1\n".to_vec() } else { Vec::new() };
    for (k, &bytes) in HOSTILE.iter().enumerate() {
        let lines: [&[u8]; 7] =
            [b"B0\nS0 1 0\nW0 1 ", bytes, b"\nS0 1 0\nR0 1 100\nC0\n", bytes, b"\n= ", bytes, b"\n"];
        input.extend(lines.concat());
        input.extend(format!("B1\nS1 1 0\nR1 1 9\nB2\nS2 1 {k}\nW2 1 ").into_bytes());
        input.extend([bytes, b"\nC2\nR1 1 1\nC1\nL0 1 9\nP0 "].concat());
        input.extend([bytes, b"\n"].concat());
    }
    input
}

#[track_caller]
fn check(arguments: &[&str], input: &[u8]) {
    let printed = explain(arguments, input);
    let plain = |byte: &u8| *byte == 10 || (32..127).contains(byte);
    assert!(printed.out.iter().all(plain), "{arguments:?}");
    assert!(printed.said.as_bytes().iter().all(plain), "{arguments:?}: {:?}", printed.said);
    let printed_something = !printed.out.is_empty() || !printed.said.is_empty();
    assert!(printed_something, "{arguments:?}");
}

#[test]
fn hostile_bytes_are_shown() {
    let folder = folder("hostile");
    let answers = folder.join("answers");
    fs::write(&answers, HOSTILE.concat()).expect("a file is written");
    for log in [false, true] {
        let input = hostile_input(log);
        check(&[], &input);
        check(&["--sightings", "--text", "--summary"], &input);
        check(&["--refusals", "--crlf"], &input);
        check(&["--at", "40"], &input);
        check(&["--line", "9", "--text"], &input);
        check(&["--quiet", "--answers", word(&answers)], &input);
    }
}

#[test]
fn binary_junk_is_shown() {
    let mut draws = twin::traces::Draws::new(41);
    let junk: Vec<u8> = (0..300_000).map(|_| draws.below(256) as u8).collect();
    check(&["--sightings", "--text", "--summary"], &junk);
    check(&["--log"], &junk);
}

#[test]
fn hostile_names_are_shown() {
    check(&["\x1b[2J\u{202e}file"], b"");
    check(&["--answers", "\x1b[2J", "-"], b"B0\n");
    check(&["--from-block", "\x1b[2J", "-"], b"B0\n");
    check(&["--\x1b[2J"], b"");
    check(&["--line", "\x1b[2J"], b"");
}
