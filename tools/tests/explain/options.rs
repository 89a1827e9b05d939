//! The options.

use std::fs;

use crate::run::{explain, folder, tree, word, Printed};

fn sample() -> Vec<u8> {
    fs::read(tree("samples/afternoon.trace")).expect("the sample")
}

fn on_sample(arguments: &[&str]) -> Printed {
    explain(arguments, &sample())
}

#[test]
fn refusals() {
    let shown = "    13  C3                       ok 1
        makes 0 stale: length of file 1, seen at 9 (R0 1 5), set by 12 (W3 1 Hello)
    14  C0                       13 Stale
        since 13 (C3): length of file 1, seen at 9 (R0 1 5), set by 12 (W3 1 Hello)
    30  C5                       ok 16
        makes 4 stale: bytes 6 to 9 of file 2, seen at 26 (R4 2 4), set by 29 (W5 2 show)
    31  R4 2 1                   18 StaleReader
        since 30 (C5): bytes 6 to 9 of file 2, seen at 26 (R4 2 4), set by 29 (W5 2 show)
    32  C4                       13 Stale
        since 30 (C5): bytes 6 to 9 of file 2, seen at 26 (R4 2 4), set by 29 (W5 2 show)
    38  hello                    17 BadLine
        no call begins with 'h'
    39  A0                       4 NotOpen
        0 ended at 19 (granted)
";
    assert_eq!(on_sample(&["--refusals"]).good(), shown);
}

/// From a file and from standard input, which is read once.
#[test]
fn one_line() {
    let shown = "     9  R0 1 5                   ok
    12  W3 1 Hello               ok
    13  C3                       ok 1
    14  C0                       13 Stale
        since 13 (C3): length of file 1, seen at 9 (R0 1 5), set by 12 (W3 1 Hello)
";
    assert_eq!(on_sample(&["--line", "14"]).good(), shown);
    assert_eq!(on_sample(&["--line=14", "-"]).good(), shown);
    assert_eq!(on_sample(&["--line", "14", word(&tree("samples/afternoon.trace"))]).good(), shown);
    assert_eq!(on_sample(&["--line", "17", "--text"]).good(), "    17  R0 1 5                   ok 48656c6c6f Hello\n");
    let ended = "    19  C0                       ok 0\n    39  A0                       4 NotOpen\n        0 ended at 19 (granted)\n";
    assert_eq!(on_sample(&["--line", "39"]).good(), ended);
    let printed = on_sample(&["--line", "40"]);
    assert_eq!(
        (printed.said.as_str(), printed.status),
        ("explain: standard input has no line 40, it has 39\n", Some(2))
    );
}

#[test]
fn sightings() {
    let shown = "    35  R4 2 4                   ok 73686f77
        saw bytes 6 to 9 of file 2
";
    assert_eq!(on_sample(&["--sightings", "--line", "35"]).good(), shown);
    let trace = b"B0\nW0 0 AB\nW0 8 C\nS0 8 9\nR0 0 9\nP0 3\nP0 3\nR0 0 1\n";
    let saw = [
        "     5  R0 0 9                   ok\n        saw offset of descriptor 0\n        saw offset of descriptor 8\n        saw length of file 0\n",
        "     6  P0 3                     ok 0\n        saw offset of descriptor 3\n",
        "     7  P0 3                     ok 0\n",
        "     8  R0 0 1                   ok\n",
    ];
    let printed = explain(&["--sightings"], trace);
    assert!(printed.good().ends_with(&saw.concat()), "{}", printed.text());
}

/// Own writes shield, byte by byte.
#[test]
fn sightings_between_own_writes() {
    let trace = b"B0\nS0 1 0\nW0 1 abcdef\nC0\nB0\nS0 1 2\nW0 1 X\nS0 1 0\nR0 1 6\nS0 1 0\nR0 1 6\n";
    let shown = "     9  R0 1 6                   ok 616258646566
        saw bytes 0 to 1 of file 1
        saw bytes 3 to 5 of file 1
    10  S0 1 0                   ok
    11  R0 1 6                   ok 616258646566
";
    assert!(explain(&["--sightings"], trace).good().ends_with(shown));
}

#[test]
fn a_moment() {
    let trace = b"B0\nS0 1 0\nW0 1 a\\b \nC0\nB1\nS1 1 1\nR1 1 9\nB2\nW2 0 abc\nW2 0 \nW2 0 d\nS2 9 3\nW2 9 xy\nW2 9 \nB3\nS3 1 2\nW3 1 zz\nC3\nC1\n";
    let shown = "after line 18
descriptor 0 of file 0: offset 0
descriptor 1 of file 1: offset 4, set by 17 (W3 1 zz)
";
    let printed = explain(&["--at", "18"], trace);
    let text = printed.good();
    assert!(text.starts_with(shown), "{text}");
    let files = "descriptor 15 of file 7: offset 0
file 0: length 0
file 1: length 4
           0  a\\\\zz
file 2: length 0
";
    assert!(text.contains(files), "{text}");
    let open = "file 7: length 0
transaction 1: open since 5 (B1), stale since 18 (C3)
        stale: bytes 2 to 3 of file 1, seen at 7 (R1 1 9), set by 17 (W3 1 zz)
        saw bytes 1 to 3 of file 1 at 7 (R1 1 9)
        saw length of file 1 at 7 (R1 1 9)
transaction 2: open since 8 (B2)
        wrote 3 bytes to file 0, an append 0 behind the offset of descriptor 0 at 9 (W2 0 abc)
        wrote 0 bytes to file 0, an append 3 behind the offset of descriptor 0 at 10 (W2 0\\x20)
        wrote 1 byte to file 0, an append 3 behind the offset of descriptor 0 at 11 (W2 0 d)
        wrote bytes 3 to 4 of file 1 at 13 (W2 9 xy)
        wrote nothing at 5 of file 1 at 14 (W2 9\\x20)
";
    assert!(text.ends_with(open), "{text}");
}

#[test]
fn a_moment_at_the_start_and_at_the_end() {
    let start = on_sample(&["--at", "0"]);
    assert!(start.good().starts_with("after line 0\ndescriptor 0 of file 0: offset 0\n"));
    let end = on_sample(&["--at", "39"]);
    assert!(end.good().contains("file 2: length 24\n           0  14:30 show! 16:00 sport.\n"), "{}", end.text());
    let behind = on_sample(&["--at", "40"]);
    assert_eq!((behind.said.as_str(), behind.status), ("explain: standard input has no line 40, it has 39\n", Some(2)));
}

#[test]
fn a_files_bytes_in_rows() {
    let trace = format!("B0\nS0 0 0\nW0 0 {}\nW0 0 {} z\nC0\n", "a".repeat(63), "b".repeat(64));
    let printed = explain(&["--at", "5"], trace.as_bytes());
    let rows = format!("           0  {}b\n          64  {}\\x20\n         128  z\n", "a".repeat(63), "b".repeat(63));
    assert!(printed.good().contains(&rows), "{}", printed.text());
}

#[test]
fn summary() {
    let shown = "39 lines, 5 refused
9 transactions: 7 granted, 2 stale, 0 aborted, 0 open
     4  NotOpen                  1
    13  Stale                    2
    17  BadLine                  1
    18  StaleReader              1
who made whom stale:
  whom   0   1   2   3   4   5   6   7
     3   1   -   -   -   -   -   -   -
     5   -   -   -   -   1   -   -   -
";
    assert_eq!(on_sample(&["--summary", "--quiet"]).good(), shown);
    let all = on_sample(&["--summary"]);
    assert_eq!(all.good(), [on_sample(&[]).good(), shown].concat());
    assert_eq!(on_sample(&["--quiet"]).good(), "");
    let small = explain(&["--summary", "--quiet"], b"B0\nB1\nA1\n");
    assert_eq!(small.good(), "3 lines, 0 refused\n2 transactions: 0 granted, 0 stale, 1 aborted, 1 open\n");
}

#[test]
fn answers_that_agree_and_differ() {
    let folder = folder("answers");
    let answers = fs::read_to_string(tree("samples/afternoon.txt")).expect("the answers");
    let held = |text: &str| {
        let file = folder.join("answers.txt");
        fs::write(&file, text).expect("a file is written");
        let printed = on_sample(&["--quiet", "--answers", word(&file)]);
        assert_eq!(printed.text(), "");
        (printed.said.replace(word(&file), "FILE"), printed.status)
    };
    assert_eq!(held(&answers), (String::new(), Some(0)));
    assert_eq!(held(answers.trim_end()), (String::new(), Some(0)));
    let differs = "explain: line 14 differs: FILE has 'ok 0', the replay answers '13'\n";
    assert_eq!(held(&answers.replacen("13\n", "ok 0\n", 1)), (differs.to_string(), Some(1)));
    let short: String = answers.lines().take(13).map(|line| format!("{line}\n")).collect();
    let too_short = "explain: FILE is too short: it ends after 13 answers, and line 14 answers '13'\n";
    assert_eq!(held(&short), (too_short.to_string(), Some(1)));
    let too_long = "explain: FILE is too long: it has 'ok' behind the last of 39 lines\n";
    assert_eq!(held(&(answers.clone() + "ok\nok\n")), (too_long.to_string(), Some(1)));
    let control = "explain: line 1 differs: FILE has '\\x1b[2J', the replay answers 'ok'\n";
    assert_eq!(held("\x1b[2J\n"), (control.to_string(), Some(1)));
}

#[test]
fn ends_of_lines() {
    let crlf = String::from_utf8(sample()).expect("letters").replace('\n', "\r\n");
    let explained = on_sample(&[]);
    assert_eq!(explain(&["--crlf"], crlf.as_bytes()).good(), explained.good());
    let printed = explain(&["--summary", "--quiet"], b"B0\r\nC0\r\n\r\nB1\nx\r\n");
    let hint = "explain: 2 lines would be good without byte 13 at the end, first line 1: --crlf takes it for a part of the line's end\n";
    assert_eq!((printed.said.as_str(), printed.status), (hint, Some(0)));
    assert!(printed.text().starts_with("5 lines, 4 refused\n"));
    // A Write's last byte may be 13.
    assert_eq!(explain(&[], b"B0\nW0 0 x\r\n").good().lines().nth(1), Some("     2  W0 0 x\\x0d               ok"));
}

#[test]
fn text() {
    let trace = b"B0\nS0 0 0\nW0 0 a\\b\x1b \nS0 0 0\nR0 0 9\nR0 0 9\n";
    let printed = explain(&["--text"], trace);
    let rows: Vec<&str> = printed.good().lines().skip(4).collect();
    assert_eq!(
        rows,
        ["     5  R0 0 9                   ok 615c621b20 a\\\\b\\x1b\\x20", "     6  R0 0 9                   ok"]
    );
}

#[test]
fn help_and_version() {
    let help = explain(&["--help"], b"");
    assert!(help.good().starts_with("usage: explain [OPTIONS] [FILE]\n"));
    assert_eq!(explain(&["--version"], b"").good(), format!("explain {}\n", env!("CARGO_PKG_VERSION")));
    let page = fs::read_to_string(tree("tools/README.md")).expect("the page");
    let options = help.text().lines().filter_map(|line| line.strip_prefix("  --")).count();
    assert_eq!(options, 13);
    for option in help.text().split_whitespace().filter(|word| word.starts_with("--")) {
        assert!(page.contains(&format!("`{}", option.trim_end_matches([',', '.']))), "{option}");
    }
}
