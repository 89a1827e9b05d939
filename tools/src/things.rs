//! What a transaction can sight and a Commit can set, and the reasons for a transaction to be stale.

use std::fmt;

use twin::store::SPAN;

use crate::citation::Citation;
use crate::settings::Settings;
use crate::sightings::Sightings;

/// A thing, or a stretch of neighbouring bytes of one file.
#[derive(Clone, Copy, Debug, PartialEq, Eq)]
pub enum Thing {
    Offset { descriptor: usize },
    Bytes { file: usize, first: usize, last: usize },
    Length { file: usize },
}

/// Why a transaction is stale: it had sighted a thing that a Commit set.
#[derive(Clone, Copy, Debug, PartialEq, Eq)]
pub struct Reason {
    pub thing: Thing,
    /// The first line of the transaction that sighted it.
    pub seen: Citation,
    /// The line of the committed transaction that set it.
    pub set: Citation,
}

impl Thing {
    /// A byte of the files buffer.
    pub fn byte(byte: usize) -> Thing {
        Thing::Bytes { file: byte / SPAN, first: byte % SPAN, last: byte % SPAN }
    }

    /// Takes a byte of the files buffer up, if it is the one of the same file directly behind the stretch. Is it?
    pub fn join(&mut self, byte: usize) -> bool {
        match self {
            Thing::Bytes { file, last, .. } if *file == byte / SPAN && *last + 1 == byte % SPAN => {
                *last += 1;
                true
            }
            _ => false,
        }
    }
}

impl fmt::Display for Thing {
    fn fmt(&self, f: &mut fmt::Formatter) -> fmt::Result {
        match *self {
            Thing::Offset { descriptor } => write!(f, "offset of descriptor {descriptor}"),
            Thing::Bytes { file, first, last } if first == last => write!(f, "byte {first} of file {file}"),
            Thing::Bytes { file, first, last } => write!(f, "bytes {first} to {last} of file {file}"),
            Thing::Length { file } => write!(f, "length of file {file}"),
        }
    }
}

impl fmt::Display for Reason {
    fn fmt(&self, f: &mut fmt::Formatter) -> fmt::Result {
        write!(f, "{}, seen {}, set {}", self.thing, self.seen.after("at"), self.set.after("by"))
    }
}

/// The things that were sighted and have been set: offsets by descriptor, bytes by file and place, lengths by file.
pub fn reasons(sightings: &Sightings, settings: &Settings) -> Vec<Reason> {
    let mut reasons = Vec::new();
    for (descriptor, set) in settings.offsets() {
        let seen = sightings.offset(descriptor);
        reasons.extend(seen.map(|seen| Reason { thing: Thing::Offset { descriptor }, seen, set }));
    }
    for (byte, set) in settings.bytes() {
        if let Some(seen) = sightings.byte(byte) {
            add_byte(&mut reasons, byte, seen, set);
        }
    }
    for (file, set) in settings.lengths() {
        let seen = sightings.length(file);
        reasons.extend(seen.map(|seen| Reason { thing: Thing::Length { file }, seen, set }));
    }
    reasons.shrink_to_fit();
    reasons
}

/// Takes up a byte of the files buffer: in the stretch before it, where that is of the same two lines.
fn add_byte(reasons: &mut Vec<Reason>, byte: usize, seen: Citation, set: Citation) {
    let joined = reasons
        .last_mut()
        .is_some_and(|before| before.seen.line == seen.line && before.set.line == set.line && before.thing.join(byte));
    if !joined {
        reasons.push(Reason { thing: Thing::byte(byte), seen, set });
    }
}
