//! Digests of states and of answers. A digest starts at 0 and takes in one number after another:
//! h' = (65521 h + n + 1) mod (2^48 - 59), for n up to 65,535. Nothing in it goes past 64 bits.

use crate::call::{Answer, Outcome};
use crate::store::{Buffers, Place, Standing, Store, Transaction, Undo, WriteRecord};

const FACTOR: u64 = 65521;
const MODULUS: u64 = 281_474_976_710_597;

#[derive(Clone, Copy, Debug, Default, PartialEq, Eq)]
pub struct Digest(u64);

impl Digest {
    pub fn value(self) -> u64 {
        self.0
    }

    fn take(&mut self, number: impl Into<u64>) {
        self.0 = (self.0 * FACTOR + number.into() + 1) % MODULUS;
    }

    fn take_all<N: Copy + Into<u64>>(&mut self, numbers: &[N]) {
        for &number in numbers {
            self.take(number);
        }
    }

    /// Takes in the outcome of a call and the buffer lent for its answer, after it: a code (0 done, 1 offset, 2 given, 3
    /// granted, 4 pairs, 5 ran, 6 best, 10 + n for refusal n), then the number answered (0 where there is none; of a
    /// dispatcher the count of Commits, then a number for each script; of a best order its grants, then the gap, how many
    /// were tried, and its numbers), then the buffer's bytes.
    pub fn take_reply(&mut self, outcome: Outcome, buffer: &[u8]) {
        let (code, number) = match outcome {
            Ok(Answer::Done) => (0, 0),
            Ok(Answer::Offset(offset)) => (1, offset),
            Ok(Answer::Given(count)) => (2, count),
            Ok(Answer::Granted(count)) => (3, u16::from(count)),
            Ok(Answer::Pairs(count)) => (4, count),
            Ok(Answer::Ran(ran)) => (5, ran.commits),
            Ok(Answer::Best(best)) => (6, best.grants),
            Err(refusal) => (10 + refusal.number() as u16, 0),
        };
        self.take(code);
        self.take(number);
        match outcome {
            Ok(Answer::Ran(ran)) => self.take_all(&ran.results()),
            Ok(Answer::Best(best)) => {
                self.take_all(&[best.gap, best.tried]);
                self.take_all(best.order());
            }
            _ => {}
        }
        self.take_all(buffer);
    }

    /// Takes in a transaction: begun and stale (0 or 1), records used, bytes used, the octet of sighted lengths, four
    /// numbers for each descriptor, then four for each of its write records.
    fn take_transaction(&mut self, transaction: &Transaction) {
        let log = &transaction.log;
        self.take(transaction.begun);
        self.take(transaction.stale);
        self.take(log.records.len() as u64);
        self.take(log.bytes);
        self.take(transaction.sighted_lengths);
        for (d, &standing) in transaction.standings.iter().enumerate() {
            self.take_all(&standing_numbers(standing));
            self.take(transaction.acted >> d & 1);
        }
        for &record in &log.records {
            self.take_all(&record_numbers(record));
        }
    }

    /// Takes in 0 where nothing is held; otherwise 1, records used, bytes used, descriptor, place and length of each record,
    /// then the offsets and the lengths found.
    fn take_undo(&mut self, undo: &Undo) {
        self.take(undo.valid);
        if !undo.valid {
            return;
        }
        self.take(undo.log.records.len() as u64);
        self.take(undo.log.bytes);
        for &record in &undo.log.records {
            let [descriptor, _, place, length] = record_numbers(record);
            self.take_all(&[descriptor, place, length]);
        }
        self.take_all(&undo.offsets);
        self.take_all(&undo.lengths);
    }
}

/// The digest of a state, by what it means: the descriptors' files; the committed offsets; the committed lengths; start and
/// end of each window; each transaction; what is held of the last grant; the bytes of files, logs, marks and undo buffer.
/// Every number is taken in whole.
pub fn of_state(store: &Store, buffers: &Buffers) -> u64 {
    let mut digest = Digest::default();
    digest.take_all(&store.files);
    digest.take_all(&store.offsets);
    digest.take_all(&store.lengths);
    for window in &store.windows {
        digest.take_all(&[window.start, window.end]);
    }
    for transaction in &store.transactions {
        digest.take_transaction(transaction);
    }
    digest.take_undo(&store.undo);
    digest.take_all(&buffers.files);
    digest.take_all(&buffers.logs);
    digest.take_all(&buffers.marks);
    digest.take_all(&buffers.undo);
    digest.value()
}

/// Which standing, its advance, its offset; 0 for what it doesn't carry.
fn standing_numbers(standing: Standing) -> [u16; 3] {
    match standing {
        Standing::Untouched => [0, 0, 0],
        Standing::Placed(offset) => [1, 0, offset],
        Standing::Deferred(advance) => [2, advance, 0],
        Standing::Moved { advance, offset } => [3, advance, offset],
        Standing::Known(offset) => [4, 0, offset],
    }
}

/// The descriptor, 1 where the record has a place and 0 where not, the place or the advance before it, the length.
fn record_numbers(record: WriteRecord) -> [u16; 4] {
    let (placed, number) = match record.place {
        Place::At(place) => (1, place),
        Place::After(advance) => (0, advance),
    };
    [u16::from(record.descriptor), placed, number, record.length]
}

#[cfg(test)]
mod tests {
    use crate::pair::Pair;

    #[test]
    fn the_digest_at_the_start() {
        let state = Pair::new().state;
        assert_eq!(super::of_state(&state.store, &state.buffers), 200157994588266);
    }
}
