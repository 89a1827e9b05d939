//! An example for every refusal that a line of a trace can meet, with its note written out; and for those of a log.

use crate::run::explain;

/// The notes under the last line, and its answer.
#[track_caller]
pub fn last(arguments: &[&str], input: &str) -> (String, Vec<String>) {
    let printed = explain(arguments, input.as_bytes());
    assert_eq!(printed.status, Some(0));
    let rows: Vec<&str> = printed.text().lines().collect();
    let at = rows.iter().rposition(|row| !row.starts_with("        ")).expect("a row");
    let line = input.lines().last().expect("a line").replace('\\', "\\\\");
    let answer = rows[at][8..].strip_prefix(line.as_str()).unwrap_or(&rows[at][8..]).trim_start().to_string();
    (answer, rows[at + 1..].iter().map(|note| note[8..].to_string()).collect())
}

#[track_caller]
fn check(input: &str, answer: &str, notes: &[&str]) {
    let (answered, noted) = last(&["--trace"], input);
    assert_eq!((answered.as_str(), noted), (answer, notes.iter().map(|note| note.to_string()).collect()), "{input}");
}

#[track_caller]
fn check_log(input: &str, answer: &str, notes: &[&str]) {
    let (answered, noted) = last(&["--log"], input);
    assert_eq!((answered.as_str(), noted), (answer, notes.iter().map(|note| note.to_string()).collect()), "{input}");
}

#[test]
fn numbers_out_of_range() {
    check("B8", "3 NoSuchTransaction", &["no transaction 8: there are 0 to 7"]);
    check("R9 0 1", "3 NoSuchTransaction", &["no transaction 9: there are 0 to 7"]);
    check("B0\nP0 16", "6 NoSuchTarget", &["no descriptor 16: there are 0 to 15"]);
    check("B0\nW0 99999 x", "6 NoSuchTarget", &["no descriptor 99999: there are 0 to 15"]);
    check("B0\nR0 0 4097", "7 ReaderTooShort", &["4097 is above 4096, the length of the buffer"]);
    check("B0\nS0 0 4097", "8 SeekPastEnd", &["4097 is above 4096"]);
}

#[test]
fn open_or_not() {
    check("A0", "4 NotOpen", &["0 was never begun"]);
    check("B0\nC0\nP0 1", "4 NotOpen", &["0 ended at 2 (granted)"]);
    check("B3\nA3\nC3", "4 NotOpen", &["3 ended at 2 (aborted)"]);
    check("B0\nP0 0\nB1\nW1 0 x\nC1\nC0\nC0", "4 NotOpen", &["0 ended at 6 (stale)"]);
    check("B0\nA0\nB0\nA0\nA0", "4 NotOpen", &["0 ended at 4 (aborted)"]);
    check("B1\nB0\nB0", "5 AlreadyOpen", &["open since 2"]);
}

#[test]
fn writes_that_do_not_fit() {
    let write = |length: usize| format!("W0 0 {}\n", "x".repeat(length));
    check(&format!("B0\nS0 0 4090\n{}", write(10)), "9 WritePastEnd", &["4090 + 10 is above 4096"]);
    // Appends count from the committed offset on.
    let appended = "B0\n".to_string() + &write(100).repeat(40) + &write(97);
    check(&appended, "9 WritePastEnd", &["4000 + 97 is above 4096"]);
    let records = "B0\n".to_string() + &"W0 0 \n".repeat(64) + "W0 0 x";
    check(&records, "10 RecordsFull", &["the log holds 64 writes, and 64 are the most"]);
    let bytes = "B0\n".to_string() + &write(100).repeat(40) + "S0 0 0\n" + &write(97);
    check(&bytes, "11 LogFull", &["the log holds 4000 bytes, and 4000 + 97 is above 4096"]);
}

#[test]
fn appends_that_do_not_fit() {
    let start = "B0\nS0 7 4090\nC0\nB1\nW1 7 seven77\nW1 15 x\n";
    let note = "offset of descriptor 7 is 4090, set by 2 (S0 7 4090), and 7 bytes wait: 4090 + 7 is above 4096";
    check(&format!("{start}P1 7"), "12 AppendPastEnd", &[note]);
    check(&format!("{start}C1"), "12 AppendPastEnd", &[note]);
    // A Read settles every descriptor of its file that waits.
    check(&format!("{start}R1 15 1"), "12 AppendPastEnd", &[note]);
    check(&format!("{start}P1 15"), "ok 1", &[]);
    // What was set before counts no more.
    let note = "offset of descriptor 7 is 4096, set by 9 (R2 7 5), and 1 byte waits: 4096 + 1 is above 4096";
    let filled = "B2\nS2 7 4091\nW2 7 fives\nC2\nB1\nW1 7 1\nB2\nS2 7 4091\nR2 7 5\nC2\nC1";
    check(filled, "12 AppendPastEnd", &[note]);
}

#[test]
fn stale_transactions() {
    let seen = "B0\nS0 1 0\nR0 1 5\nP0 3\n";
    let set = "B3\nS3 1 0\nW3 1 Hello\nS3 3 9\nC3\n";
    let offset = "offset of descriptor 3, seen at 4 (P0 3), set by 8 (S3 3 9)";
    let length = "length of file 1, seen at 3 (R0 1 5), set by 7 (W3 1 Hello)";
    let made = [format!("makes 0 stale: {offset}"), format!("makes 0 stale: {length}")];
    check(&format!("{seen}{set}"), "ok 1", &[&made[0], &made[1]]);
    let since = [format!("since 9 (C3): {offset}"), format!("since 9 (C3): {length}")];
    check(&format!("{seen}{set}C0"), "13 Stale", &[&since[0], &since[1]]);
    check(&format!("{seen}{set}R0 1 5"), "18 StaleReader", &[&since[0], &since[1]]);
    check(&format!("{seen}{set}R0 1 5\nP0 3"), "18 StaleReader", &[&since[0], &since[1]]);
    // A later Commit that sets it again does not count.
    check(&format!("{seen}{set}B4\nS4 3 1\nC4\nC0"), "13 Stale", &[&since[0], &since[1]]);
}

#[test]
fn stretches_of_bytes() {
    let file = "B0\nS0 2 0\nW0 2 14:30 film. 16:00 sport.\nC0\n";
    let seen = "B1\nS1 2 6\nR1 2 4\nR1 2 2\nB2\nS2 2 0\nR2 2 7\n";
    let set = "B3\nS3 2 6\nW3 2 show...\nS3 2 8\nW3 2 X\nC3\n";
    check(
        &format!("{file}{seen}{set}"),
        "ok 6",
        &[
            "makes 1 stale: bytes 6 to 7 of file 2, seen at 7 (R1 2 4), set by 14 (W3 2 show...)",
            "makes 1 stale: byte 8 of file 2, seen at 7 (R1 2 4), set by 16 (W3 2 X)",
            "makes 1 stale: byte 9 of file 2, seen at 7 (R1 2 4), set by 14 (W3 2 show...)",
            "makes 1 stale: bytes 10 to 11 of file 2, seen at 8 (R1 2 2), set by 14 (W3 2 show...)",
            "makes 2 stale: byte 6 of file 2, seen at 11 (R2 2 7), set by 14 (W3 2 show...)",
        ],
    );
}

#[test]
fn lines_of_another_form() {
    let long = "x".repeat(200);
    for (line, note) in [
        ("hello", "no call begins with 'h'"),
        ("b0", "no call begins with 'b'"),
        ("\x1b[2J", "no call begins with '\\x1b'"),
        ("U", "no call begins with 'U'"),
        ("", "an empty line"),
        ("# no comment", "no call begins with '#'"),
        ("B", "no transaction"),
        ("B 0", "a space too many before the transaction"),
        ("Bx", "the transaction begins with 'x'"),
        ("B00", "the transaction has 2 digits, more than 1"),
        ("B0 ", "a space too many at the end"),
        ("B0\r", "ends in byte 13"),
        ("b0\r", "no call begins with 'b'"),
        ("C0 600", "' 600' too much behind the transaction"),
        ("P0", "no descriptor"),
        ("P0 ", "no descriptor"),
        ("P03", "the transaction has 2 digits, more than 1"),
        ("P0x", "no space between the transaction and the descriptor"),
        ("P0  3", "a space too many before the descriptor"),
        ("P0 -3", "the descriptor begins with '-'"),
        ("P0 000003", "the descriptor has 6 digits, more than 5"),
        ("P0 3  ", "a space too many at the end"),
        ("S0 3", "no offset"),
        ("S0 3 1x", "'x' too much behind the offset"),
        ("R0 3 5 64", "' 64' too much behind the count"),
        ("W0 3", "no space between the descriptor and the bytes"),
        ("W0 3x", "no space between the descriptor and the bytes"),
        (&format!("W0 3 {long}"), "205 bytes, more than 128"),
    ] {
        check_seventeen(line, note);
    }
}

/// In the middle of a trace, so that an empty line is one.
#[track_caller]
fn check_seventeen(line: &str, note: &str) {
    let printed = explain(&["--trace", "--line", "2"], format!("B1\n{line}\nA1\n").as_bytes());
    let rows: Vec<&str> = printed.text().lines().collect();
    assert!(rows[0].ends_with(" 17 BadLine"), "{line}: {rows:?}");
    assert_eq!(rows[1..], [format!("        {note}")], "{line}");
}

#[test]
fn the_calls_of_a_log() {
    check_log("F0 1 2", "1 BufferLength", &["the list has 3 numbers, and Fresh takes 16"]);
    check_log("F0 1 2 3 4 5 6 7 0 1 2 3 4 5 6 8", "14 NoSuchFile", &["descriptor 15 in file 8: there are 0 to 7"]);
    check_log("B1\nB2\nF0 0 0 0 0 0 0 0 0 0 0 0 0 0 0 0", "ok", &["ends 1, 2"]);
    check_log("B1\nF0 0 0 0 0 0 0 0 0 0 0 0 0 0 0 0\nA1", "4 NotOpen", &["1 ended at 2 (Fresh)"]);
    check_log(
        "B18446744073709551615",
        "3 NoSuchTransaction",
        &["no transaction 18446744073709551615: there are 0 to 7"],
    );
    check_log("B0\nR0 0 5 4", "7 ReaderTooShort", &["5 is above 4, the length of the buffer"]);
    check_log("B0\nL0 8 64", "6 NoSuchTarget", &["no file 8: there are 0 to 7"]);
    check_log("B0\nW0 9 x\nL0 1 64", "15 NoPlaceYet", &["no place yet for the write at 2 (W0 9 x)"]);
    let two = "B0\nS0 0 5\nW0 0 hi\nS0 0 9\nW0 0 x\n";
    check_log(&format!("{two}L0 0 8"), "ok 5 2 9 1", &["writes cover bytes 5 to 6, byte 9 of file 0"]);
    check_log(&format!("{two}L0 0 7"), "16 ListTooLong", &["the list has 2 pairs, 8 bytes, and the buffer 7"]);
    check_log(&format!("{two}L0 1 7"), "ok", &["writes cover nothing of file 1"]);
}

#[test]
fn windows_and_minutes() {
    check_log("H1 0 1170", "ok", &["file 1 may change from minute 0 up to 1170"]);
    check_log("H1 1320 60", "ok", &["file 1 may change from minute 1320 up to 60, over midnight"]);
    check_log("H1 5 5", "ok", &["file 1 may change at every minute"]);
    check_log("H8 5 5", "6 NoSuchTarget", &["no file 8: there are 0 to 7"]);
    check_log("H1 1440 5", "22 NoSuchMinute", &["start 1440 is above 1439"]);
    check_log("H1 5 99999", "22 NoSuchMinute", &["end 99999 is above 1439"]);
    check_log("B0\nC0 1440", "22 NoSuchMinute", &["minute 1440 is above 1439"]);
    let note =
        "file 1 is closed at minute 1180: its window is 0 to 1170, set by 1 (H1 0 1170); the write is at 4 (W3 9 show)";
    check_log("H1 0 1170\nB3\nW3 1 \nW3 9 show\nC3 1180", "21 FileClosed", &[note]);
}

#[test]
fn undo_and_orders() {
    check_log("U", "24 NoGrant", &["no grant yet"]);
    check_log("B0\nC0\nU", "ok", &["takes back the grant of 2 (C0)"]);
    check_log("B0\nC0\nU\nU", "24 NoGrant", &["no grant since 3 (U)"]);
    check_log("B0\nB1\nC0\nB2\nU", "23 StillOpen", &["1 is open since 2, 2 is open since 4"]);
    check_log("O0 1", "26 BadList", &["the list is empty"]);
    check_log("O0 1 0 1 0", "26 BadList", &["0 stands in the list twice"]);
    check_log("O0 1 0 1 2 3 4 5 6 7 8", "26 BadList", &["the list has 9 numbers, and 8 are the most"]);
    check_log("O0 1 9", "3 NoSuchTransaction", &["no transaction 9: there are 0 to 7"]);
    check_log("B0\nO0 1 0 2", "4 NotOpen", &["2 was never begun"]);
    check_log("B0\nO1440 1 0", "22 NoSuchMinute", &["minute 1440 is above 1439"]);
    check_log("B0\nW0 0 x\nO0 1 0", "25 NotReady", &["0 has no place yet for the write at 2 (W0 0 x)"]);
    check_log("B0\nP0 0\nB1\nS1 0 1\nC1\nO0 1 0", "25 NotReady", &["0 is stale since 5 (C1)"]);
    check_log("B0\nO0 0 0", "27 BadBudget", &["budget 0 is not from 1 to 40320"]);
    let note = "2 grants in the order 5, 6; at most 0 more in another, 2 orders tried";
    check_log("B5\nP5 3\nB6\nS6 3 9\nO1215 2 6 5", "ok 2 0 2 5 6", &[note]);
    // The line that set an offset is the one before a grant that was taken back.
    let undone = "B0\nS0 0 4096\nC0\nB0\nS0 0 1\nC0\nU\nB0\nW0 0 x\nC0";
    let note = "offset of descriptor 0 is 4096, set by 2 (S0 0 4096), and 1 byte waits: 4096 + 1 is above 4096";
    check_log(undone, "12 AppendPastEnd", &[note]);
}

#[test]
fn lines_of_another_form_in_a_log() {
    for (line, note) in [
        ("h", "no call begins with 'h'"),
        ("=ok", "no space behind '='"),
        ("U0", "'0' too much behind 'U'"),
        ("X0 3 6", "1 hexadecimal digit, and a pair has two"),
        ("X0 3 6A", "'A' is no hexadecimal digit in lower case"),
        ("B0 ", "a space too many at the end"),
        ("C 0", "a space too many before the transaction"),
        ("B99999999999999999999", "the transaction is 99999999999999999999, not below 2^64"),
        ("B000000000000000000000", "the transaction has 21 digits, more than 20"),
        ("F256", "the file is 256, above 255"),
        ("O0 1 256", "the transaction is 256, above 255"),
        ("F0 0 0 0 0 0 0 0 0 0 0 0 0 0 0 0 0 0 0", "19 numbers, more than 18"),
        ("H1 2", "no end"),
        ("V", "no version"),
        (&format!("X0 3 {}", "00".repeat(4098)), "4098 pairs, more than 4097"),
        (&format!("W0 3 {}", "x".repeat(124)), "129 bytes, more than 128"),
        (&format!("#{}", "x".repeat(8237)), "8238 bytes, more than 8237"),
    ] {
        let printed = explain(&["--log", "--line", "1"], line.as_bytes());
        let rows: Vec<&str> = printed.text().lines().collect();
        assert!(rows[0].ends_with(" 17 BadLine"), "{line}: {rows:?}");
        assert_eq!(rows[1..], [format!("        {note}")], "{line}");
    }
}
