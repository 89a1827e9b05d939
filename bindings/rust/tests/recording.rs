//! A store whose calls are recorded.

use luzhanem::{to_writer, Refusal, ScriptCall, Sink, Store};
use std::io;
use std::sync::{Arc, Mutex};

/// A sink that keeps the log, and the log.
fn kept() -> (Sink, Arc<Mutex<Vec<u8>>>) {
    let log = Arc::new(Mutex::new(Vec::new()));
    let lines = Arc::clone(&log);
    let sink: Sink = Box::new(move |line| {
        lines.lock().unwrap().extend_from_slice(line);
        Ok(())
    });
    (sink, log)
}

/// Every call.
fn make_calls(s: &mut Store) {
    let mut bytes = [0; 8];
    s.begin(0).unwrap();
    s.write(0, 0, b"hello").unwrap();
    s.write(0, 0, b"\n").unwrap();
    assert_eq!(s.begin(0), Err(Refusal::AlreadyOpen));
    assert_eq!(s.get_file_pointer(0, 0), Ok(6));
    s.seek(0, 0, 2).unwrap();
    assert_eq!(s.read(0, 0, &mut bytes).unwrap(), b"llo\n");
    assert_eq!(s.places(0, 0).unwrap(), [(0, 6)]);
    assert_eq!(s.best_order(&[0], 0, 1).unwrap().grants, 1);
    s.commit(0, 842).unwrap();
    s.set_window(2, 480, 1320).unwrap();
    s.undo().unwrap();
    s.begin(1).unwrap();
    s.abort(1).unwrap();
    let scripts: [&[ScriptCall]; 2] =
        [&[ScriptCall::Write { descriptor: 0, start: 0, count: 3 }], &[ScriptCall::GetFilePointer { descriptor: 0 }]];
    let d = s.dispatch(&scripts, b"abc", &mut bytes, 842).unwrap();
    assert_eq!((d.commits, d.ended), (3, vec![None, None]));
}

const EXPECTED: &str = "V1\nF0 1 2 3 4 5 6 7 0 1 2 3 4 5 6 7\n= ok\nB0\n= ok\nW0 0 hello\n= ok\nX0 0 0a\n= ok\n\
    B0\n= 5\nP0 0\n= ok 6\nS0 0 2\n= ok\nR0 0 8 8\n= ok 6c6c6f0a\nL0 0 256\n= ok 0 6\nO0 1 0\n= ok 1 0 1 0\n\
    C0 842\n= ok 0\nH2 480 1320\n= ok\nU\n= ok\nB1\n= ok\nA1\n= ok\n\
    B0\n= ok\nB1\n= ok\nW0 0 abc\n= ok\nP1 0\n= ok 0\nC0 842\n= ok 2\nC1 842\n= 13\nB1\n= ok\nP1 0\n= ok 3\nC1 842\n= ok 0\n";

#[test]
fn every_call_has_its_lines() {
    let (sink, log) = kept();
    let mut s = Store::recorded(sink);
    assert!(s.is_recording());
    make_calls(&mut s);
    let text = String::from_utf8(log.lock().unwrap().clone()).unwrap();
    assert_eq!(text, EXPECTED);
    let mut plain = Store::new();
    make_calls(&mut plain);
    assert!(plain.block() == s.block());
    let mut standby = Store::new();
    let answers: Vec<_> = text.lines().map(|line| standby.replay_line(line.as_bytes())).collect();
    assert!(answers.contains(&Err(Refusal::AlreadyOpen)) && answers.contains(&Err(Refusal::Stale)));
    assert!(standby.block() == s.block());
    assert_eq!(standby.replay_line(b"b0"), Err(Refusal::BadLine));
}

#[test]
fn recording_starts_and_stops() {
    let mut s = Store::new();
    s.begin(5).unwrap();
    let block = s.block().to_vec();
    let (sink, log) = kept();
    s.record(sink);
    s.write(5, 1, b"x").unwrap();
    s.stop_recording().unwrap();
    s.commit(5, 0).unwrap();
    assert_eq!(*log.lock().unwrap(), b"V1\nW5 1 x\n= ok\n");
    let mut again = Store::from_block(&block).unwrap();
    again.write(5, 1, b"x").unwrap();
    again.commit(5, 0).unwrap();
    assert_eq!(again.block(), s.block());
}

#[test]
fn a_sink_that_fails_is_told_once_and_the_calls_go_on() {
    let mut room = 40;
    let mut s = Store::recorded(Box::new(move |line| {
        room -= line.len() as i64;
        if room < 0 {
            Err(io::Error::other("full"))
        } else {
            Ok(())
        }
    }));
    make_calls(&mut s);
    assert!(!s.is_recording());
    assert_eq!(s.stop_recording().unwrap_err().to_string(), "full");
    assert_eq!(s.file(0).unwrap(), b"abc");
}

#[test]
fn a_file_is_a_sink() {
    let path = std::env::temp_dir().join(format!("luzhanem-{}.log", std::process::id()));
    let mut s = Store::recorded(to_writer(std::fs::File::create(&path).unwrap()));
    make_calls(&mut s);
    let text = std::fs::read_to_string(&path).unwrap();
    std::fs::remove_file(&path).unwrap();
    assert_eq!(text, EXPECTED);
}
