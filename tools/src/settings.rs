//! The write set of the grant just made: what it has set, and by which line of its transaction.

use std::cmp::Reverse;

use twin::store::{Place, Store, WriteRecord, DESCRIPTORS, FILES};

use crate::citation::Citation;

/// The last accepted Seek, Read or Write through each descriptor.
pub type Touched = [Option<Citation>; DESCRIPTORS];

pub struct Settings<'a> {
    touched: &'a Touched,
    /// The lines of the transaction's writes, in the order of its write records.
    writes: &'a [Citation],
    /// Bytes of the files buffer, ascending, each with the latest write over it.
    bytes: Vec<(usize, usize)>,
    /// For each file whose length was raised the first of the writes that end farthest.
    lengths: [Option<usize>; FILES],
}

impl<'a> Settings<'a> {
    /// The store holds where the writes of its last grant landed, and the lengths that it found.
    pub fn of_grant(store: &Store, touched: &'a Touched, writes: &'a [Citation]) -> Settings<'a> {
        let records = &store.undo.log.records;
        let raised = |file: usize| store.lengths[file] > store.undo.lengths[file];
        let farthest = |file: usize| farthest_write(store, records, file);
        Settings {
            touched,
            writes,
            bytes: latest_writes(store, records),
            lengths: std::array::from_fn(|file| raised(file).then(|| farthest(file)).flatten()),
        }
    }

    pub fn offsets(&self) -> impl Iterator<Item = (usize, Citation)> + '_ {
        self.touched.iter().enumerate().filter_map(|(descriptor, line)| Some((descriptor, (*line)?)))
    }

    pub fn bytes(&self) -> impl Iterator<Item = (usize, Citation)> + '_ {
        self.bytes.iter().map(|&(byte, write)| (byte, self.writes[write]))
    }

    pub fn lengths(&self) -> impl Iterator<Item = (usize, Citation)> + '_ {
        self.lengths.iter().enumerate().filter_map(|(file, write)| Some((file, self.writes[(*write)?])))
    }
}

fn latest_writes(store: &Store, records: &[WriteRecord]) -> Vec<(usize, usize)> {
    let landed = |(k, record)| store.landing(record).map(move |byte| (byte, k));
    let mut bytes: Vec<(usize, usize)> = records.iter().enumerate().flat_map(landed).collect();
    bytes.sort_unstable_by_key(|&(byte, k)| (byte, Reverse(k)));
    bytes.dedup_by_key(|&mut (byte, _)| byte);
    bytes
}

fn farthest_write(store: &Store, records: &[WriteRecord], file: usize) -> Option<usize> {
    let of_file = |record: &WriteRecord| usize::from(store.files[usize::from(record.descriptor)]) == file;
    let with_bytes = (0..records.len()).filter(|&k| of_file(&records[k]) && records[k].length > 0);
    with_bytes.min_by_key(|&k| Reverse(end(&records[k])))
}

/// Where a write ends that has a place.
fn end(record: &WriteRecord) -> u16 {
    let (Place::At(start) | Place::After(start)) = record.place;
    start + record.length
}
