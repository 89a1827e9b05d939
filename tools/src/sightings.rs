//! The read set of an open transaction: what it has sighted, and the first line that sighted each thing.

use std::ops::Range;

use twin::store::{Standing, Transaction, BUFFER, DESCRIPTORS, FILES, SPAN};

use crate::citation::Citation;
use crate::things::Thing;

/// Which of the lines sighted a thing, counted from 1; 0 where none did. A line is held only if it newly sighted one of
/// 32,792 things, so that 16 bits are enough.
type Place = u16;

pub struct Sightings {
    /// The lines that newly sighted something, ascending.
    lines: Vec<Citation>,
    offsets: [Place; DESCRIPTORS],
    lengths: [Place; FILES],
    /// By byte of the files buffer.
    bytes: Vec<Place>,
    /// For each file a stretch of the files buffer outside of which no byte is sighted.
    hulls: [Range<usize>; FILES],
}

/// The bytes that a Read passed over, in the files buffer.
pub type Passed = Range<usize>;

impl Default for Sightings {
    fn default() -> Self {
        Sightings::new()
    }
}

impl Sightings {
    pub fn new() -> Sightings {
        Sightings {
            lines: Vec::new(),
            offsets: [0; DESCRIPTORS],
            lengths: [0; FILES],
            bytes: vec![0; BUFFER],
            hulls: std::array::from_fn(|file| SPAN * file..SPAN * file),
        }
    }

    /// Forgets everything: the number is begun again.
    pub fn clear(&mut self) {
        self.lines.clear();
        self.offsets = [0; DESCRIPTORS];
        self.lengths = [0; FILES];
        for hull in &mut self.hulls {
            self.bytes[hull.clone()].fill(0);
            *hull = hull.start..hull.start;
        }
    }

    /// Takes up what the transaction has sighted after a GetFilePointer or a Read of this line, and answers what is
    /// new: offsets by descriptor, bytes by place, the length. `marks` are the transaction's own.
    pub fn take(&mut self, line: Citation, transaction: &Transaction, marks: &[u8], passed: Passed) -> Vec<Thing> {
        let mut new = Vec::new();
        let at = self.lines.len() as Place + 1;
        self.take_offsets(at, transaction, &mut new);
        self.take_bytes(at, marks, passed, &mut new);
        self.take_lengths(at, transaction, &mut new);
        if !new.is_empty() {
            self.lines.push(line);
        }
        new
    }

    /// A settled descriptor stands Known for as long as its transaction is open.
    fn take_offsets(&mut self, at: Place, transaction: &Transaction, new: &mut Vec<Thing>) {
        for (descriptor, standing) in transaction.standings.iter().enumerate() {
            if matches!(standing, Standing::Known(_)) && self.offsets[descriptor] == 0 {
                self.offsets[descriptor] = at;
                new.push(Thing::Offset { descriptor });
            }
        }
    }

    /// An own write shields: the bytes that it supplied have no mark, unless they were sighted before.
    fn take_bytes(&mut self, at: Place, marks: &[u8], passed: Passed, new: &mut Vec<Thing>) {
        for byte in passed.clone() {
            let marked = marks[byte / 8] >> (byte % 8) & 1 == 1;
            if marked && self.bytes[byte] == 0 {
                self.bytes[byte] = at;
                add_byte(new, byte);
            }
        }
        if !passed.is_empty() {
            let hull = &mut self.hulls[passed.start / SPAN];
            let widened = hull.start.min(passed.start)..hull.end.max(passed.end);
            *hull = if hull.start == hull.end { passed } else { widened };
        }
    }

    fn take_lengths(&mut self, at: Place, transaction: &Transaction, new: &mut Vec<Thing>) {
        for file in 0..FILES {
            if transaction.sighted_lengths >> file & 1 == 1 && self.lengths[file] == 0 {
                self.lengths[file] = at;
                new.push(Thing::Length { file });
            }
        }
    }

    pub fn offset(&self, descriptor: usize) -> Option<Citation> {
        self.line(self.offsets[descriptor])
    }

    /// Of a byte of the files buffer.
    pub fn byte(&self, byte: usize) -> Option<Citation> {
        self.line(self.bytes[byte])
    }

    pub fn length(&self, file: usize) -> Option<Citation> {
        self.line(self.lengths[file])
    }

    fn line(&self, place: Place) -> Option<Citation> {
        Some(self.lines[usize::from(place.checked_sub(1)?)])
    }

    /// All that was sighted, each with its line: offsets by descriptor, bytes by file and place, lengths by file.
    pub fn all(&self) -> Vec<(Thing, Citation)> {
        let mut all: Vec<(Thing, Citation)> = (0..DESCRIPTORS)
            .filter_map(|descriptor| Some((Thing::Offset { descriptor }, self.offset(descriptor)?)))
            .collect();
        for byte in self.hulls.iter().flat_map(Range::clone) {
            if let Some(line) = self.byte(byte) {
                add_seen_byte(&mut all, byte, line);
            }
        }
        all.extend((0..FILES).filter_map(|file| Some((Thing::Length { file }, self.length(file)?))));
        all
    }
}

fn add_byte(things: &mut Vec<Thing>, byte: usize) {
    if !things.last_mut().is_some_and(|thing| thing.join(byte)) {
        things.push(Thing::byte(byte));
    }
}

fn add_seen_byte(things: &mut Vec<(Thing, Citation)>, byte: usize, line: Citation) {
    if !things.last_mut().is_some_and(|(thing, seen)| seen.line == line.line && thing.join(byte)) {
        things.push((Thing::byte(byte), line));
    }
}
