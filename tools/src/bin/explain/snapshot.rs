//! What stands after a line (`--at`).

use std::io::Write;

use tools::history::Course;
use tools::text::counted;
use tools::{Citation, Replay, Thing};
use twin::store::{Place, Store, WriteRecord, DESCRIPTORS, FILES, SPAN, TRANSACTIONS};

use crate::rows::{push_bytes, push_note};

pub fn push(out: &mut Vec<u8>, replay: &Replay) {
    push_line(out, &format!("after line {}", replay.lines()));
    for d in 0..DESCRIPTORS {
        push_descriptor(out, replay, d);
    }
    for file in 0..FILES {
        push_file(out, replay, file);
    }
    for t in 0..TRANSACTIONS {
        if let Some(begun) = replay.history().courses[t].begun {
            push_transaction(out, replay, t, begun);
        }
    }
}

fn push_line(out: &mut Vec<u8>, text: &str) {
    writeln!(out, "{text}").expect("memory is written");
}

/// Its file and its committed offset, with the line that set it.
fn push_descriptor(out: &mut Vec<u8>, replay: &Replay, d: usize) {
    let store = &replay.state().store;
    let set = set_by(replay.history().offsets[d]);
    push_line(out, &format!("descriptor {d} of file {}: offset {}{set}", store.files[d], store.offsets[d]));
}

fn set_by(line: Option<Citation>) -> String {
    line.map_or(String::new(), |line| format!(", set {}", line.after("by")))
}

/// Its length, its window where one was set, and its bytes up to its length.
fn push_file(out: &mut Vec<u8>, replay: &Replay, file: usize) {
    let store = &replay.state().store;
    let length = store.lengths[file];
    let window = store.windows[file];
    let set = replay.history().windows[file];
    let hours = match set {
        Some(_) => format!(", window {} to {}{}", window.start, window.end, set_by(set)),
        None => String::new(),
    };
    push_line(out, &format!("file {file}: length {length}{hours}"));
    let length = usize::from(length).min(SPAN);
    push_bytes(out, &replay.state().buffers.files[SPAN * file..][..length]);
}

fn push_transaction(out: &mut Vec<u8>, replay: &Replay, t: usize, begun: Citation) {
    let course = &replay.history().courses[t];
    let stale = match &course.stale {
        Some(stale) => format!(", stale {}", stale.since.after("since")),
        None => String::new(),
    };
    push_line(out, &format!("transaction {t}: open {}{stale}", begun.after("since")));
    for reason in course.stale.iter().flat_map(|stale| stale.reasons.iter()) {
        push_note(out, &format!("stale: {reason}"));
    }
    for (thing, line) in course.sightings.all() {
        push_note(out, &saw(thing, line));
    }
    push_writes(out, &replay.state().store, course, t);
}

fn saw(thing: Thing, line: Citation) -> String {
    format!("saw {thing} {}", line.after("at"))
}

fn push_writes(out: &mut Vec<u8>, store: &Store, course: &Course, t: usize) {
    for (record, line) in store.transactions[t].log.records.iter().zip(&course.writes) {
        push_note(out, &format!("wrote {} {}", written(store, record), line.after("at")));
    }
}

/// `bytes 0 to 4 of file 1`, or `5 bytes, appended 12 behind the offset of descriptor 0`.
fn written(store: &Store, record: &WriteRecord) -> String {
    let (d, length) = (usize::from(record.descriptor), usize::from(record.length));
    // The record of a saved block may name any descriptor.
    let Some(file) = store.files.get(d).map(|&file| usize::from(file)) else {
        return format!("through descriptor {d}, which there is not,");
    };
    match record.place {
        Place::At(place) if length == 0 => format!("nothing at {place} of file {file}"),
        Place::At(place) => {
            let first = usize::from(place);
            Thing::Bytes { file, first, last: first + length - 1 }.to_string()
        }
        Place::After(advance) => {
            let bytes = counted(length as u64, "byte");
            format!("{bytes} to file {file}, an append {advance} behind the offset of descriptor {d}")
        }
    }
}
