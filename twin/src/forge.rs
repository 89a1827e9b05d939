//! Forged records, which no run from Fresh reaches.

use crate::generator::Damage;
use crate::store::{Log, Place, Standing, Store, Transaction, Undo, Window, WriteRecord, DESCRIPTORS, FILES, SPAN};

const EMPTY_RECORD: WriteRecord = WriteRecord { descriptor: 0, place: Place::At(0), length: 0 };

/// Puts a field out of range; the number of the forgery, 1 to 27, says which. 3 to 15 are about transaction t, which is
/// counted as begun; from 19 on, about what is held of the last grant, and then something is.
pub fn forge(store: &mut Store, damage: &Damage) {
    let i = damage.forged_index as usize;
    let above = (4097 + damage.excess % 61439) as u16;
    let above_minutes = (1440 + damage.excess % 64096) as u16;
    let transaction = &mut store.transactions[damage.forged_transaction as usize];
    let standing = &mut transaction.standings[i];
    match damage.forgery {
        1 => store.files[i] = (8 + damage.excess % 248) as u8,
        2 => store.offsets[i] = above,
        3 => *standing = Standing::Placed(above),
        4 => *standing = Standing::Deferred(above),
        5 => *standing = Standing::Moved { advance: above, offset: 0 },
        6 => *standing = Standing::Moved { advance: 0, offset: above },
        7 => *standing = Standing::Known(above),
        16 => store.lengths[i % FILES] = above,
        17 => store.windows[i % FILES].start = above_minutes,
        18 => store.windows[i % FILES].end = above_minutes,
        19.. => forge_undo(&mut store.undo, damage, above),
        _ => forge_log(transaction, damage),
    }
    if (3..16).contains(&damage.forgery) {
        transaction.begun = true;
        // No range speaks of these.
        transaction.acted ^= damage.excess as u16;
        transaction.sighted_lengths ^= damage.excess as u8;
    }
}

/// The forgeries about a transaction's write records and their sum.
fn forge_log(transaction: &mut Transaction, damage: &Damage) {
    let Transaction { log, standings, .. } = transaction;
    let i = damage.forged_index as usize;
    match damage.forgery {
        8 => forge_records(log, LogForgery::Count, damage.excess),
        9 => forge_records(log, LogForgery::Sum, damage.excess),
        10 => forge_records(log, LogForgery::Descriptor, damage.excess),
        11 => forge_records(log, LogForgery::End, damage.excess),
        12 => forge_records(log, LogForgery::Length, damage.excess),
        // A record without a place under Placed.
        13 => {
            *first(log) = WriteRecord { descriptor: i as u8, place: Place::After(0), ..*first(log) };
            standings[i] = Standing::Placed(0);
        }
        // A record without a place that ends past the advance.
        14 => {
            *first(log) = WriteRecord { descriptor: i as u8, place: Place::After(1), ..*first(log) };
            standings[i] = Standing::Deferred(0);
        }
        _ => forge_records(log, LogForgery::Bytes, damage.excess),
    }
}

/// The forgeries about what is held of the last grant.
fn forge_undo(undo: &mut Undo, damage: &Damage, above: u16) {
    let i = damage.forged_index as usize;
    undo.valid = true;
    match damage.forgery {
        19 => undo.offsets[i] = above,
        20 => undo.lengths[i % FILES] = above,
        21 => forge_records(&mut undo.log, LogForgery::Count, damage.excess),
        22 => forge_records(&mut undo.log, LogForgery::Sum, damage.excess),
        23 => forge_records(&mut undo.log, LogForgery::Descriptor, damage.excess),
        24 => forge_records(&mut undo.log, LogForgery::End, damage.excess),
        25 => forge_records(&mut undo.log, LogForgery::Length, damage.excess),
        26 => forge_records(&mut undo.log, LogForgery::Bytes, damage.excess),
        // A record without a place.
        _ => *first(&mut undo.log) = WriteRecord { place: Place::After(0), ..*first(&mut undo.log) },
    }
}

/// What a log may break, whoever it belongs to.
enum LogForgery {
    /// More than 64 records.
    Count,
    /// One off the sum of the lengths.
    Sum,
    /// A descriptor above 15.
    Descriptor,
    /// A record that ends at 4,097.
    End,
    /// Lengths that add to one more than the data used.
    Length,
    /// Two records, each in range, whose data together is above 4,096 bytes.
    Bytes,
}

fn forge_records(log: &mut Log, forgery: LogForgery, excess: u64) {
    match forgery {
        LogForgery::Count => log.records.resize(65 + (excess % 191) as usize, EMPTY_RECORD),
        LogForgery::Sum => log.bytes += 1,
        LogForgery::Descriptor => first(log).descriptor = (16 + excess % 240) as u8,
        LogForgery::End => first(log).place = Place::At(4097 - first(log).length),
        LogForgery::Length => first(log).length += 1,
        LogForgery::Bytes => {
            let second = 1 + (excess % 4096) as u16;
            let record = |length| WriteRecord { length, ..EMPTY_RECORD };
            *log = Log { records: vec![record(4096), record(second)], bytes: 4096 + second };
        }
    }
}

/// The first record of a log, which gets one where it has none.
fn first(log: &mut Log) -> &mut WriteRecord {
    if log.records.is_empty() {
        log.records.push(EMPTY_RECORD);
    }
    &mut log.records[0]
}

/// Leaves garbage under the number of a transaction that isn't open: no range speaks of it, and Begin clears it away.
pub fn garbage_in_closed(store: &mut Store, marks: &mut [u8], t: usize) {
    let record = WriteRecord { descriptor: 99, place: Place::After(65535), length: 65535 };
    store.transactions[t] = Transaction {
        begun: false,
        stale: true,
        log: Log { records: vec![record; 255], bytes: 65535 },
        standings: [Standing::Known(5000); DESCRIPTORS],
        acted: 21845,
        sighted_lengths: 255,
    };
    marks[SPAN * t..SPAN * (t + 1)].fill(255);
}

/// Leaves garbage where nothing is held of a grant.
pub fn garbage_in_undo(store: &mut Store) {
    let record = WriteRecord { descriptor: 99, place: Place::After(65535), length: 65535 };
    let log = Log { records: vec![record; 255], bytes: 65535 };
    store.undo = Undo { valid: false, log, offsets: [5000; DESCRIPTORS], lengths: [65535; FILES] };
}

/// Puts the record out of its ranges, which Fresh doesn't mind.
pub fn garbage_in_record(store: &mut Store) {
    store.files = [255; DESCRIPTORS];
    store.offsets = [5000; DESCRIPTORS];
    store.lengths = [5000; FILES];
    store.windows = [Window { start: 1440, end: 65535 }; FILES];
    store.undo.valid = true;
    store.undo.offsets = [5000; DESCRIPTORS];
    store.transactions[7].begun = true;
    store.transactions[7].acted = u16::MAX;
    store.transactions[7].sighted_lengths = u8::MAX;
    store.transactions[7].log.records = vec![WriteRecord { descriptor: 99, ..EMPTY_RECORD }; 200];
}
