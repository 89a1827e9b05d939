//! A saved block (docs/CALLLOG.md): record and buffers of the proved store as its caller holds them, and what they say of a
//! store.

use crate::state::State;
use crate::store::{
    Buffers, Log, Place, Standing, Store, Transaction, Undo, Window, WriteRecord, BUFFER, DESCRIPTORS, FILES, RECORDS,
    SPAN, TRANSACTIONS,
};

/// The numbers of the record, 16 bits each, low byte first; the buffers stand behind it.
pub const NUMBERS: usize = HELD + 3;
pub const LENGTH: usize = 2 * NUMBERS + 3 * BUFFER + SPAN;

// Where the parts of the record start. Of a transaction's numbers each kind stands for all eight in a row; the numbers of
// its standings do so descriptor by descriptor.
pub const FIRSTS: usize = 1728;
pub const SECONDS: usize = 1856;
pub const BEGUN: usize = 1984;
pub const STALE: usize = 1992;
const SIGHTED: usize = 2000;
const ACTED: usize = 2008;
const RECORDS_USED: usize = 2016;
const BYTES_USED: usize = 2024;
const FILE_NUMBERS: usize = 2032;
pub const OFFSETS: usize = 2048;
const LENGTHS: usize = 2064;
const STARTS: usize = 2072;
const ENDS: usize = 2080;
const OFFSETS_FOUND: usize = 2088;
const LENGTHS_FOUND: usize = 2104;
pub const HELD: usize = 2112;

/// The write records of the last grant, after those of the transactions.
const LAST_GRANT: usize = 8;

/// The store that a block says; none where it has another length.
pub fn decode(block: &[u8]) -> Option<State> {
    if block.len() != LENGTH {
        return None;
    }
    let (record, buffers) = block.split_at(2 * NUMBERS);
    let numbers: Vec<u16> = record.chunks(2).map(|pair| u16::from_le_bytes([pair[0], pair[1]])).collect();
    let part = |start: usize, length: usize| buffers[start..start + length].to_vec();
    let buffers = Buffers {
        files: part(0, BUFFER),
        logs: part(BUFFER, BUFFER),
        marks: part(2 * BUFFER, BUFFER),
        undo: part(3 * BUFFER, SPAN),
    };
    Some(State { store: store(&numbers), buffers })
}

/// The store that a record says.
pub fn store(numbers: &[u16]) -> Store {
    Store {
        files: std::array::from_fn(|d| octet(numbers[FILE_NUMBERS + d])),
        offsets: std::array::from_fn(|d| numbers[OFFSETS + d]),
        lengths: std::array::from_fn(|f| numbers[LENGTHS + f]),
        windows: std::array::from_fn(|f| Window { start: numbers[STARTS + f], end: numbers[ENDS + f] }),
        transactions: std::array::from_fn(|t| transaction(numbers, t)),
        undo: undo(numbers),
    }
}

/// A number that is no octet is out of every range, as 255 is.
fn octet(number: u16) -> u8 {
    number.min(255) as u8
}

/// What a transaction that is not open holds is free.
fn transaction(numbers: &[u16], t: usize) -> Transaction {
    if numbers[BEGUN + t] != 1 {
        return Transaction::ENDED;
    }
    let row = TRANSACTIONS;
    Transaction {
        begun: true,
        stale: numbers[STALE + t] == 1,
        log: log(numbers, t, numbers[RECORDS_USED + t], numbers[BYTES_USED + t]),
        standings: std::array::from_fn(|d| standing(numbers[FIRSTS + row * d + t], numbers[SECONDS + row * d + t])),
        acted: numbers[ACTED + t],
        sighted_lengths: numbers[SIGHTED + t] as u8,
    }
}

/// The first number is one more than the offset, 0 without one; the second 1 of Known, two more than the advance, or 0. The
/// pair 0 and 1, which nobody puts, is Known at 0.
fn standing(first: u16, second: u16) -> Standing {
    match (first.checked_sub(1), second) {
        (None, 0) => Standing::Untouched,
        (Some(offset), 0) => Standing::Placed(offset),
        (offset, 1) => Standing::Known(offset.unwrap_or(0)),
        (None, second) => Standing::Deferred(second - 2),
        (Some(offset), second) => Standing::Moved { advance: second - 2, offset },
    }
}

/// The used write records of a transaction or of the last grant. More than 64 are out of range: one too many says so.
fn log(numbers: &[u16], stretch: usize, records: u16, bytes: u16) -> Log {
    let used = usize::from(records).min(RECORDS + 1);
    let records = (0..used).map(|k| write_record(numbers, stretch, k.min(RECORDS - 1))).collect();
    Log { records, bytes }
}

/// Three numbers: the descriptor, 16 more while the record has no place; its place, or its advance; its length.
fn write_record(numbers: &[u16], stretch: usize, k: usize) -> WriteRecord {
    let at = 3 * (RECORDS * stretch + k);
    let [holder, number, length] = [numbers[at], numbers[at + 1], numbers[at + 2]];
    match holder.checked_sub(16) {
        None => WriteRecord { descriptor: octet(holder), place: Place::At(number), length },
        Some(descriptor) => WriteRecord { descriptor: octet(descriptor), place: Place::After(number), length },
    }
}

fn undo(numbers: &[u16]) -> Undo {
    if numbers[HELD] != 1 {
        return Undo::NONE;
    }
    Undo {
        valid: true,
        log: log(numbers, LAST_GRANT, numbers[HELD + 1], numbers[HELD + 2]),
        offsets: std::array::from_fn(|d| numbers[OFFSETS_FOUND + d]),
        lengths: std::array::from_fn(|f| numbers[LENGTHS_FOUND + f]),
    }
}

/// A block that says this store, with zeros where a block is free.
pub fn encode(state: &State) -> Vec<u8> {
    let mut numbers = [0; NUMBERS];
    put_store(&mut numbers, &state.store);
    let Buffers { files, logs, marks, undo } = &state.buffers;
    let record = numbers.iter().flat_map(|number| number.to_le_bytes()).collect::<Vec<u8>>();
    [&record, files, logs, marks, undo].map(Vec::as_slice).concat()
}

fn put_store(numbers: &mut [u16; NUMBERS], store: &Store) {
    for d in 0..DESCRIPTORS {
        numbers[FILE_NUMBERS + d] = store.files[d].into();
        numbers[OFFSETS + d] = store.offsets[d];
    }
    for f in 0..FILES {
        numbers[LENGTHS + f] = store.lengths[f];
        numbers[STARTS + f] = store.windows[f].start;
        numbers[ENDS + f] = store.windows[f].end;
    }
    for t in (0..TRANSACTIONS).filter(|&t| store.transactions[t].begun) {
        put_transaction(numbers, t, &store.transactions[t]);
    }
    if store.undo.valid {
        put_undo(numbers, &store.undo);
    }
}

fn put_transaction(numbers: &mut [u16; NUMBERS], t: usize, transaction: &Transaction) {
    put_log(numbers, t, &transaction.log);
    for (d, standing) in transaction.standings.iter().enumerate() {
        let at = TRANSACTIONS * d + t;
        (numbers[FIRSTS + at], numbers[SECONDS + at]) = standing_numbers(*standing);
    }
    numbers[BEGUN + t] = 1;
    numbers[STALE + t] = transaction.stale.into();
    numbers[SIGHTED + t] = transaction.sighted_lengths.into();
    numbers[ACTED + t] = transaction.acted;
    numbers[RECORDS_USED + t] = transaction.log.records.len() as u16;
    numbers[BYTES_USED + t] = transaction.log.bytes;
}

fn standing_numbers(standing: Standing) -> (u16, u16) {
    match standing {
        Standing::Untouched => (0, 0),
        Standing::Placed(offset) => (offset + 1, 0),
        Standing::Deferred(advance) => (0, advance + 2),
        Standing::Moved { advance, offset } => (offset + 1, advance + 2),
        Standing::Known(offset) => (offset + 1, 1),
    }
}

fn put_log(numbers: &mut [u16; NUMBERS], stretch: usize, log: &Log) {
    for (k, record) in log.records.iter().enumerate() {
        let at = 3 * (RECORDS * stretch + k);
        let (holder, number) = match record.place {
            Place::At(place) => (0, place),
            Place::After(advance) => (16, advance),
        };
        numbers[at] = holder + u16::from(record.descriptor);
        numbers[at + 1] = number;
        numbers[at + 2] = record.length;
    }
}

fn put_undo(numbers: &mut [u16; NUMBERS], undo: &Undo) {
    put_log(numbers, LAST_GRANT, &undo.log);
    numbers[HELD] = 1;
    numbers[HELD + 1] = undo.log.records.len() as u16;
    numbers[HELD + 2] = undo.log.bytes;
    numbers[OFFSETS_FOUND..][..DESCRIPTORS].copy_from_slice(&undo.offsets);
    numbers[LENGTHS_FOUND..][..FILES].copy_from_slice(&undo.lengths);
}

#[cfg(test)]
mod tests {
    use super::*;
    use crate::call::{Call, Refusal};
    use crate::logs;
    use crate::replay;

    #[test]
    fn a_block_says_the_store() {
        for seed in 0..200 {
            let state = logs::write(&mut std::io::sink(), seed, 100).expect("nothing is written");
            let mut back = decode(&encode(&state)).expect("it has the length of a block");
            assert!(back.buffers == state.buffers);
            assert_eq!(back.store, state.store);
            assert_eq!(back.apply(&Call::Begin(9)).outcome, Err(Refusal::NoSuchTransaction));
        }
    }

    #[test]
    fn another_length() {
        let mut block = encode(&replay::fresh());
        assert_eq!(block.len(), 106_630);
        block.push(0);
        assert!(decode(&block).is_none() && decode(&block[2..]).is_none());
        // A block of the layout before this one had 2,323 numbers.
        assert!(decode(&vec![0; 107_046]).is_none());
    }

    #[test]
    fn numbers_of_standings() {
        let pairs = [
            (0, 0, Standing::Untouched),
            (1, 0, Standing::Placed(0)),
            (4097, 0, Standing::Placed(4096)),
            (0, 2, Standing::Deferred(0)),
            (0, 4098, Standing::Deferred(4096)),
            (1, 2, Standing::Moved { advance: 0, offset: 0 }),
            (301, 42, Standing::Moved { advance: 40, offset: 300 }),
            (1, 1, Standing::Known(0)),
            (4097, 1, Standing::Known(4096)),
        ];
        for (first, second, said) in pairs {
            assert_eq!(standing(first, second), said);
            assert_eq!(standing_numbers(said), (first, second));
        }
        assert_eq!(standing(0, 1), Standing::Known(0));
        let far = Standing::Moved { advance: 65533, offset: 65534 };
        assert_eq!(standing(65535, 65535), far);
    }

    /// Numbers of a block out of range, one at a time, with what is open and held.
    #[test]
    fn numbers_out_of_range() {
        let mut state = replay::fresh();
        state.apply(&Call::Begin(0));
        state.store.undo.valid = true;
        let block = encode(&state);
        let with = |at: usize, number: u16| {
            let mut block = block.clone();
            block[2 * at..][..2].copy_from_slice(&number.to_le_bytes());
            decode(&block).expect("it has the length of a block").apply(&Call::Begin(1)).outcome
        };
        let refused = Err(Refusal::RecordRange);
        for (at, number) in
            [(FILE_NUMBERS, 8), (FILE_NUMBERS + 15, 65535), (OFFSETS, 4097), (LENGTHS, 4097), (STARTS, 1440)]
        {
            assert_eq!(with(at, number), refused, "{at}");
        }
        for (at, number) in [(RECORDS_USED, 65), (RECORDS_USED, 65535), (BYTES_USED, 1)] {
            assert_eq!(with(at, number), refused, "{at}");
        }
        for (at, number) in
            [(FIRSTS, 4098), (FIRSTS, 65535), (FIRSTS + 120, 4098), (SECONDS, 4099), (SECONDS + 120, 65535)]
        {
            assert_eq!(with(at, number), refused, "{at}");
        }
        for (at, number) in [(HELD + 1, 65), (HELD + 2, 1), (OFFSETS_FOUND, 4097), (LENGTHS_FOUND + 7, 4097)] {
            assert_eq!(with(at, number), refused, "{at}");
        }
        // The greatest in range; the pair 0 and 1; what is no flag; what a transaction that is not open has.
        for (at, number) in [(FIRSTS, 4097), (SECONDS, 4098), (SECONDS, 1), (BEGUN, 2), (HELD, 2), (FIRSTS + 1, 65535)]
        {
            assert!(with(at, number).is_ok(), "{at}");
        }
    }
}
