//! Bad inputs and exit statuses, by running the program.

use std::fs::{self, File};
use std::io::{self, Read, Write};
use std::path::Path;
use std::process::{Command, Stdio};

use crate::run::{explain, folder, run, tree, word};

const PROGRAM: &str = env!("CARGO_BIN_EXE_explain");

#[track_caller]
fn check_failed(arguments: &[&str], said: &str) {
    let printed = explain(arguments, b"B0\n");
    assert_eq!((printed.text(), printed.said.as_str(), printed.status), ("", said, Some(2)));
}

#[test]
fn files_that_cannot_be_read() {
    let folder = folder("files_that_cannot_be_read");
    let missing = folder.join("missing");
    let name = word(&missing);
    let absent = "No such file or directory (os error 2)";
    check_failed(&[name], &format!("explain: cannot read {name} after 0 lines: {absent}\n"));
    check_failed(&["--answers", name], &format!("explain: cannot read {name} after 0 lines: {absent}\n"));
    check_failed(&["--from-block", name], &format!("explain: cannot read {name} after 0 lines: {absent}\n"));
    let name = word(&folder);
    check_failed(&[name], &format!("explain: cannot read {name} after 0 lines: Is a directory (os error 21)\n"));
    check_failed(
        &["--from-block", name],
        &format!("explain: cannot read {name} after 0 lines: Is a directory (os error 21)\n"),
    );
}

/// As another user where this one may read everything.
#[cfg(unix)]
#[test]
fn a_file_that_may_not_be_read() {
    use std::os::unix::fs::PermissionsExt;
    use std::os::unix::process::CommandExt;
    let file = folder("a_file_that_may_not_be_read").join("trace");
    fs::write(&file, "B0\n").expect("a file is written");
    fs::set_permissions(&file, fs::Permissions::from_mode(0o000)).expect("permissions are set");
    let mut command = Command::new(PROGRAM);
    command.arg(&file);
    if File::open(&file).is_ok() {
        command.uid(65534).gid(65534);
    }
    let Ok(output) = command.output() else {
        let said = writeln!(io::stderr(), "skipped: the program cannot be run as another user");
        return said.expect("standard error is written");
    };
    let said = format!("explain: cannot read {} after 0 lines: Permission denied (os error 13)\n", word(&file));
    assert_eq!((String::from_utf8_lossy(&output.stderr).into_owned(), output.status.code()), (said, Some(2)));
}

#[test]
fn a_full_device() {
    let full = File::options().write(true).open("/dev/full").expect("a full device");
    let output =
        Command::new(PROGRAM).arg(tree("samples/afternoon.trace")).stdout(full).output().expect("the program runs");
    let said = "explain: cannot write standard output after 39 lines: No space left on device (os error 28)\n";
    assert_eq!((String::from_utf8_lossy(&output.stderr).as_ref(), output.status.code()), (said, Some(2)));
}

#[test]
fn a_closed_output() {
    let trace = tree("samples/afternoon.trace");
    let closed = "exec \"$0\" \"$@\" >&-";
    let printed = run(Path::new("/bin/sh"), &["-c", closed, PROGRAM, word(&trace)], b"");
    let said = "explain: cannot write standard output after 0 lines: it is closed\n";
    assert_eq!((printed.said.as_str(), printed.status), (said, Some(2)));
    // The null device is open, for writing or for both.
    for null in ["exec \"$0\" \"$@\" >/dev/null", "exec \"$0\" \"$@\" 1<>/dev/null"] {
        let printed = run(Path::new("/bin/sh"), &["-c", null, PROGRAM, word(&trace)], b"");
        assert_eq!((printed.said.as_str(), printed.status), ("", Some(0)));
    }
}

#[test]
fn a_closed_pipe() {
    let mut trace = Vec::new();
    twin::traces::write(&mut trace, 1, 20_000).expect("memory is written");
    let file = folder("a_closed_pipe").join("trace");
    fs::write(&file, trace).expect("a file is written");
    let mut child = Command::new(PROGRAM)
        .arg(&file)
        .stdout(Stdio::piped())
        .stderr(Stdio::piped())
        .spawn()
        .expect("the program starts");
    let mut first = [0; 8];
    child.stdout.take().expect("a pipe").read_exact(&mut first).expect("it prints");
    let output = child.wait_with_output().expect("the program ends");
    assert_eq!((&first, output.stderr.as_slice(), output.status.code()), (b"     1  ", b"".as_slice(), Some(0)));
}

#[test]
fn wrong_command_lines() {
    for (arguments, said) in [
        (&["--foo"][..], "unknown option --foo"),
        (&["-x"], "unknown option -x"),
        (&["--quiet=1"], "unknown option --quiet=1"),
        (&["--line"], "--line needs a value"),
        (&["--line", "x"], "--line needs the number of a line, not x"),
        (&["--line", "-1"], "--line needs the number of a line, not -1"),
        (&["--line="], "--line needs the number of a line, not "),
        (&["--line", "18446744073709551616"], "--line needs the number of a line, not 18446744073709551616"),
        (&["--line", "0"], "--line needs the number of a line, from 1"),
        (&["--at", "1e3"], "--at needs the number of a line, not 1e3"),
        (&["--answers"], "--answers needs a value"),
        (&["a", "b"], "more than one FILE"),
        (&["--at", "1", "--line", "1"], "--at and --line do not go together"),
        (&["--at", "1", "--summary"], "--at and --summary or --quiet do not go together"),
        (&["--at", "1", "--answers", "x"], "--at and --answers do not go together"),
        (&["--from-block", "x", "--trace"], "--from-block and --trace do not go together"),
    ] {
        let printed = explain(arguments, b"");
        let usage = "usage: explain [OPTIONS] [FILE]";
        let lines: Vec<&str> = printed.said.lines().take(2).collect();
        assert_eq!((lines, printed.status), (vec![format!("explain: {said}").as_str(), usage], Some(2)));
    }
}

#[test]
fn a_file_named_like_an_option() {
    let printed = explain(&["--", "--foo"], b"");
    assert!(printed.said.starts_with("explain: cannot read --foo after 0 lines: "), "{}", printed.said);
}

#[test]
fn no_input() {
    assert_eq!(explain(&[], b"").good(), "");
    assert_eq!(
        explain(&["--summary"], b"").good(),
        "0 lines, 0 refused\n0 transactions: 0 granted, 0 stale, 0 aborted, 0 open\n"
    );
    assert_eq!(explain(&["--quiet", "--answers", "/dev/null"], b"").good(), "");
}

/// A gigabyte without an end, in 64 MB of memory.
#[test]
fn a_line_of_a_gigabyte() {
    let file = folder("a_line_of_a_gigabyte").join("zeros");
    File::create(&file).and_then(|file| file.set_len(1 << 30)).expect("a file with a hole");
    let bounded = "ulimit -v 65536; exec \"$0\" \"$@\"";
    for (option, longest) in [("--trace", 128), ("--log", 8237)] {
        let printed = run(Path::new("/bin/sh"), &["-c", bounded, PROGRAM, option, word(&file)], b"");
        let row = format!("     1  {}... 17 BadLine\n", "\\x00".repeat(longest));
        assert_eq!(printed.good(), format!("{row}        1073741824 bytes, more than {longest}\n"));
    }
}
