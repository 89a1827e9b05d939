//! The plain machine of the twin beside a replay: what each transaction has sighted, where first, and what it has called.

use std::collections::HashMap;

use tools::Asked;
use twin::call::{Action, Call, Step};
use twin::plain::{Item, Machine, Setter};
use twin::store::{DESCRIPTORS, FILES, TRANSACTIONS};

/// A thing that was sighted and set, byte by byte, with the lines of both.
#[derive(Clone, Copy, Debug, PartialEq, Eq)]
pub struct Cause {
    pub item: Item,
    pub seen: u64,
    pub set: u64,
}

/// The accepted calls of a transaction with their lines, and where each thing was sighted first.
#[derive(Clone, Default)]
struct Course {
    calls: Vec<(u64, Step)>,
    seen: HashMap<Key, u64>,
}

/// An item, to be looked up.
type Key = (u8, usize, usize);

fn key(item: Item) -> Key {
    match item {
        Item::Offset { descriptor } => (0, descriptor, 0),
        Item::Byte { file, place } => (1, file, place),
        Item::Length { file } => (2, file, 0),
    }
}

fn item((kind, number, place): Key) -> Item {
    match kind {
        0 => Item::Offset { descriptor: number },
        1 => Item::Byte { file: number, place },
        _ => Item::Length { file: number },
    }
}

/// A write as it landed: its line, file, first place and length.
struct Landed {
    line: u64,
    file: usize,
    start: usize,
    length: usize,
}

pub struct Plain {
    machine: Machine,
    courses: [Course; TRANSACTIONS],
    /// What the last grant set, found by search.
    landed: Vec<Landed>,
    committed_calls: Vec<(u64, Step)>,
}

impl Plain {
    pub fn new() -> Plain {
        let files: Vec<u8> = (0..DESCRIPTORS).map(|d| (d % FILES) as u8).collect();
        Plain {
            machine: Machine::fresh(&files).expect("a good list"),
            courses: Default::default(),
            landed: Vec::new(),
            committed_calls: Vec::new(),
        }
    }

    /// Makes the call of a line. A Fresh with a list of another length, and an order, which change nothing, are left out.
    pub fn take(&mut self, line: u64, asked: &Asked) {
        match asked.call() {
            Call::Fresh { files } if files.len() != DESCRIPTORS => {}
            Call::Best { .. } => {}
            call @ Call::Commit { transaction, .. } => self.take_commit(transaction, &call),
            call @ Call::Fresh { .. } => {
                if self.machine.take(&call).outcome.is_ok() {
                    self.courses = Default::default();
                }
            }
            call @ Call::Begin(t) => {
                if self.machine.take(&call).outcome.is_ok() {
                    self.courses[t] = Course::default();
                }
            }
            Call::Step(t, step) => self.take_step(line, t, step),
            call => drop(self.machine.take(&call)),
        }
    }

    fn take_step(&mut self, line: u64, t: usize, step: Step) {
        if self.machine.take(&Call::Step(t, step.clone())).outcome.is_err() {
            return;
        }
        let course = &mut self.courses[t];
        course.calls.push((line, step));
        let transaction = self.machine.open[t].as_ref().expect("it is open");
        for sighting in &transaction.course.sightings {
            course.seen.entry(key(sighting.item)).or_insert(line);
        }
    }

    fn take_commit(&mut self, t: usize, call: &Call) {
        let landed = self.landing(t);
        if self.machine.take(call).outcome.is_ok() {
            self.landed = landed;
            self.committed_calls = std::mem::take(&mut self.courses[t].calls);
        }
    }

    /// Where the writes of a transaction would land, in call order.
    fn landing(&self, t: usize) -> Vec<Landed> {
        let Some(transaction) = self.machine.open.get(t).and_then(Option::as_ref) else {
            return Vec::new();
        };
        let committed = &self.machine.committed;
        let is_write = |step: &Step| matches!(step.action, Action::Write { .. });
        let lines = self.courses[t].calls.iter().filter(|(_, step)| is_write(step)).map(|(line, _)| *line);
        let landed = |(write, line): (&twin::plain::Write, u64)| Landed {
            line,
            file: committed.file_of[write.descriptor],
            start: committed.landing(write),
            length: write.data.len(),
        };
        transaction.course.writes.iter().zip(lines).map(landed).collect()
    }

    /// Why the last grant made a transaction stale: the entries of its list whose setter is now that grant.
    pub fn causes(&self, t: usize) -> Vec<Cause> {
        let grant: Setter = self.machine.grants;
        let course = &self.courses[t];
        let mut keys: Vec<Key> = course.seen.keys().copied().collect();
        keys.retain(|&key| self.machine.committed.sight(item(key)).setter == grant);
        keys.sort_unstable();
        let cause = |key: Key| Cause { item: item(key), seen: course.seen[&key], set: self.set_by(item(key)) };
        keys.into_iter().map(cause).collect()
    }

    /// The line of the last grant that set a thing.
    fn set_by(&self, item: Item) -> u64 {
        match item {
            Item::Offset { descriptor } => {
                let through = |step: &Step| step.descriptor == descriptor && step.action != Action::GetFilePointer;
                let last = self.committed_calls.iter().rev().find(|(_, step)| through(step));
                last.expect("it was sought, read or written through").0
            }
            Item::Byte { file, place } => {
                let covers =
                    |write: &&Landed| write.file == file && write.start <= place && place < write.start + write.length;
                self.landed.iter().rev().find(covers).expect("it was written").line
            }
            Item::Length { file } => {
                let writes = || self.landed.iter().filter(|write| write.file == file && write.length > 0);
                let end = writes().map(|write| write.start + write.length).max().expect("it was written to");
                writes().find(|write| write.start + write.length == end).expect("one ends there").line
            }
        }
    }
}
