//! The store: a record that the caller keeps, and four buffers that the caller lends to every call.
//!
//! There are no setters and no lists here. What a transaction has sighted is kept as one bit for each file byte (the
//! marks) and one for each file's length; for an offset, as the standing Known.

use std::cmp::Ordering;
use std::ops::Range;

use crate::call::Refusal;
use crate::marks;

pub const FILES: usize = 8;
pub const DESCRIPTORS: usize = 16;
pub const TRANSACTIONS: usize = 8;
/// Bytes of a file, and data bytes of a log.
pub const SPAN: usize = 4096;
/// Write records of a log.
pub const RECORDS: usize = 64;
/// The length of each of files, logs and marks; the undo buffer has the length of a log.
pub const BUFFER: usize = 32768;
/// Minutes of a day.
pub const MINUTES: usize = 1440;

const SPAN_16: u16 = SPAN as u16;

/// How a descriptor stands in a transaction.
#[derive(Clone, Copy, Debug, PartialEq, Eq)]
pub enum Standing {
    Untouched,
    Placed(u16),
    Deferred(u16),
    Moved { advance: u16, offset: u16 },
    Known(u16),
}

/// Where a write lies: at a place of its file or, while that is unknown, so far after the committed offset.
#[derive(Clone, Copy, Debug, PartialEq, Eq)]
pub enum Place {
    At(u16),
    After(u16),
}

/// A write of a transaction. Its bytes lie in the log buffer, after those of the writes before it.
#[derive(Clone, Copy, Debug, PartialEq, Eq)]
pub struct WriteRecord {
    pub descriptor: u8,
    pub place: Place,
    pub length: u16,
}

/// A log: the write records in call order, and how many data bytes they have used.
#[derive(Clone, Debug, PartialEq, Eq)]
pub struct Log {
    pub records: Vec<WriteRecord>,
    pub bytes: u16,
}

#[derive(Clone, Debug, PartialEq, Eq)]
pub struct Transaction {
    pub begun: bool,
    pub stale: bool,
    pub log: Log,
    /// By descriptor.
    pub standings: [Standing; DESCRIPTORS],
    /// The descriptors (a bit for each) on which it made a Seek, Read or Write. Only their offsets are set at Commit.
    pub acted: u16,
    /// The files (a bit for each) whose length it has sighted.
    pub sighted_lengths: u8,
}

/// The minutes in which a file may change: start is in, end is out; over midnight where start is above end, always where
/// the two are equal.
#[derive(Clone, Copy, Debug, PartialEq, Eq)]
pub struct Window {
    pub start: u16,
    pub end: u16,
}

/// What is held of the last grant, to take it back. Where nothing is held the rest is free.
#[derive(Clone, Debug, PartialEq, Eq)]
pub struct Undo {
    pub valid: bool,
    /// Its writes in the order in which they landed, all with a place. The bytes that each landed on lie in the undo
    /// buffer, after those of the writes before it.
    pub log: Log,
    /// The offsets and lengths that it found.
    pub offsets: [u16; DESCRIPTORS],
    pub lengths: [u16; FILES],
}

/// The record: the file and the committed offset of each descriptor, the committed length and the window of each file, the
/// transactions, and what is held of the last grant.
#[derive(Clone, Debug, PartialEq, Eq)]
pub struct Store {
    pub files: [u8; DESCRIPTORS],
    pub offsets: [u16; DESCRIPTORS],
    pub lengths: [u16; FILES],
    pub windows: [Window; FILES],
    pub transactions: [Transaction; TRANSACTIONS],
    pub undo: Undo,
}

/// Store buffers, as a caller may keep them.
#[derive(Clone, Debug, PartialEq, Eq)]
pub struct Buffers {
    pub files: Vec<u8>,
    pub logs: Vec<u8>,
    pub marks: Vec<u8>,
    pub undo: Vec<u8>,
}

/// The store buffers, as lent to a call.
pub struct Lent<'a> {
    pub files: &'a mut [u8],
    pub logs: &'a mut [u8],
    pub marks: &'a mut [u8],
    pub undo: &'a mut [u8],
}

/// A stretch of a read that one source supplies.
pub struct Run {
    /// The record that supplies it, counted from the oldest; none where the file does.
    pub record: Option<usize>,
    /// How many records were looked at.
    pub looked: usize,
    /// Where it starts, in the log or in the file.
    from: usize,
    end: usize,
}

impl Standing {
    /// The advance that still waits for a committed offset.
    fn waiting(self) -> Option<u16> {
        match self {
            Standing::Deferred(advance) | Standing::Moved { advance, .. } => Some(advance),
            Standing::Untouched | Standing::Placed(_) | Standing::Known(_) => None,
        }
    }

    fn in_range(self) -> bool {
        match self {
            Standing::Untouched => true,
            Standing::Placed(number) | Standing::Deferred(number) | Standing::Known(number) => number <= SPAN_16,
            Standing::Moved { advance, offset } => advance <= SPAN_16 && offset <= SPAN_16,
        }
    }

    fn after_seek(self, to: u16) -> Standing {
        match self {
            Standing::Untouched | Standing::Placed(_) => Standing::Placed(to),
            Standing::Deferred(advance) | Standing::Moved { advance, .. } => Standing::Moved { advance, offset: to },
            Standing::Known(_) => Standing::Known(to),
        }
    }

    /// The standing with `count` more bytes passed over by a Write or a Read.
    fn after_bytes(self, count: u16) -> Standing {
        match self {
            Standing::Untouched => Standing::Deferred(count),
            Standing::Placed(offset) => Standing::Placed(offset + count),
            Standing::Deferred(advance) => Standing::Deferred(advance + count),
            Standing::Moved { advance, offset } => Standing::Moved { advance, offset: offset + count },
            Standing::Known(offset) => Standing::Known(offset + count),
        }
    }

    /// Where a write through the descriptor lies.
    fn write_place(self) -> Place {
        match self {
            Standing::Untouched => Place::After(0),
            Standing::Deferred(advance) => Place::After(advance),
            Standing::Placed(offset) | Standing::Moved { offset, .. } | Standing::Known(offset) => Place::At(offset),
        }
    }

    fn settled(self, committed: u16) -> Standing {
        match self {
            Standing::Untouched => Standing::Known(committed),
            Standing::Deferred(advance) => Standing::Known(committed + advance),
            Standing::Placed(offset) | Standing::Moved { offset, .. } | Standing::Known(offset) => {
                Standing::Known(offset)
            }
        }
    }
}

impl WriteRecord {
    /// Where it ends: a place or an advance.
    fn end(&self) -> u32 {
        let (Place::At(start) | Place::After(start)) = self.place;
        u32::from(start) + u32::from(self.length)
    }

    /// The same write where it lands, given the committed offsets.
    fn landed(&self, offsets: &[u16; DESCRIPTORS]) -> WriteRecord {
        let place = match self.place {
            Place::At(place) => place,
            Place::After(advance) => offsets[usize::from(self.descriptor)] + advance,
        };
        WriteRecord { place: Place::At(place), ..*self }
    }

    /// Is it in range, given how its transaction's descriptors stand?
    fn in_range(&self, standings: &[Standing; DESCRIPTORS]) -> bool {
        let Some(standing) = standings.get(usize::from(self.descriptor)) else {
            return false;
        };
        let limit = match self.place {
            Place::At(_) => Some(SPAN_16),
            Place::After(_) => standing.waiting(),
        };
        limit.is_some_and(|limit| self.end() <= u32::from(limit))
    }
}

impl Log {
    const EMPTY: Log = Log { records: Vec::new(), bytes: 0 };

    /// Takes up a record and says where its data starts; refuses where the log is full.
    fn append(&mut self, record: WriteRecord) -> Result<usize, Refusal> {
        if self.records.len() >= RECORDS {
            return Err(Refusal::RecordsFull);
        }
        if record.length > SPAN_16 - self.bytes {
            return Err(Refusal::LogFull);
        }
        let start = usize::from(self.bytes);
        self.records.push(record);
        self.bytes += record.length;
        Ok(start)
    }

    fn in_range(&self, standings: &[Standing; DESCRIPTORS]) -> bool {
        if self.records.len() > RECORDS || self.bytes > SPAN_16 {
            return false;
        }
        let mut bytes = 0;
        for record in &self.records {
            if !record.in_range(standings) {
                return false;
            }
            bytes += u32::from(record.length);
        }
        bytes == u32::from(self.bytes)
    }
}

impl Transaction {
    /// One that has ended, or never began.
    pub const ENDED: Transaction = Transaction {
        begun: false,
        stale: false,
        log: Log::EMPTY,
        standings: [Standing::Untouched; DESCRIPTORS],
        acted: 0,
        sighted_lengths: 0,
    };

    /// Leaves an empty log, sixteen Untouched descriptors that nothing was made on, no length sighted, and not stale.
    fn reset(&mut self, begun: bool) {
        self.begun = begun;
        self.stale = false;
        self.log.records.clear();
        self.log.bytes = 0;
        self.standings = [Standing::Untouched; DESCRIPTORS];
        self.acted = 0;
        self.sighted_lengths = 0;
    }

    fn in_range(&self) -> bool {
        self.standings.iter().all(|standing| standing.in_range()) && self.log.in_range(&self.standings)
    }

    /// Has it sighted one of these offsets (a bit for each descriptor)?
    fn knows_any(&self, offsets: u16) -> bool {
        let known = |d: usize| matches!(self.standings[d], Standing::Known(_));
        (0..DESCRIPTORS).any(|d| offsets >> d & 1 == 1 && known(d))
    }
}

impl Undo {
    pub const NONE: Undo = Undo { valid: false, log: Log::EMPTY, offsets: [0; DESCRIPTORS], lengths: [0; FILES] };

    /// What is held is in the ranges of placed records, of offsets and of lengths.
    fn in_range(&self) -> bool {
        !self.valid
            || self.log.in_range(&[Standing::Untouched; DESCRIPTORS])
                && self.offsets.iter().chain(&self.lengths).all(|&number| number <= SPAN_16)
    }
}

impl Window {
    const ALWAYS: Window = Window { start: 0, end: 0 };

    pub fn is_open(self, minute: u16) -> bool {
        match self.start.cmp(&self.end) {
            Ordering::Less => self.start <= minute && minute < self.end,
            Ordering::Equal => true,
            Ordering::Greater => self.start <= minute || minute < self.end,
        }
    }

    fn in_range(self) -> bool {
        usize::from(self.start) < MINUTES && usize::from(self.end) < MINUTES
    }
}

impl Buffers {
    pub fn zeros() -> Buffers {
        Buffers { files: vec![0; BUFFER], logs: vec![0; BUFFER], marks: vec![0; BUFFER], undo: vec![0; SPAN] }
    }

    pub fn lend(&mut self) -> Lent<'_> {
        Lent { files: &mut self.files, logs: &mut self.logs, marks: &mut self.marks, undo: &mut self.undo }
    }
}

impl Lent<'_> {
    fn check(&self) -> Result<(), Refusal> {
        let fits = |buffer: &[u8]| buffer.len() == BUFFER;
        if fits(self.files) && fits(self.logs) && fits(self.marks) && self.undo.len() == SPAN {
            Ok(())
        } else {
            Err(Refusal::BufferLength)
        }
    }
}

impl Store {
    /// The record that Fresh makes.
    pub fn new(files: [u8; DESCRIPTORS]) -> Store {
        Store {
            files,
            offsets: [0; DESCRIPTORS],
            lengths: [0; FILES],
            windows: [Window::ALWAYS; FILES],
            transactions: [Transaction::ENDED; TRANSACTIONS],
            undo: Undo::NONE,
        }
    }

    pub fn fresh(&mut self, lent: &mut Lent, files: &[u8]) -> Result<(), Refusal> {
        lent.check()?;
        let files: [u8; DESCRIPTORS] = files.try_into().map_err(|_| Refusal::BufferLength)?;
        if files.iter().any(|&file| usize::from(file) >= FILES) {
            return Err(Refusal::NoSuchFile);
        }
        *self = Store::new(files);
        lent.files.fill(0);
        lent.marks.fill(0);
        Ok(())
    }

    pub fn begin(&mut self, lent: &mut Lent, t: usize) -> Result<(), Refusal> {
        self.check_number(lent, t)?;
        if self.transactions[t].begun {
            return Err(Refusal::AlreadyOpen);
        }
        self.transactions[t].reset(true);
        marks::clear(lent.marks, t);
        Ok(())
    }

    pub fn seek(&mut self, lent: &mut Lent, t: usize, d: usize, to: usize) -> Result<(), Refusal> {
        self.check_descriptor(lent, t, d)?;
        if to > SPAN {
            return Err(Refusal::SeekPastEnd);
        }
        let transaction = &mut self.transactions[t];
        transaction.standings[d] = transaction.standings[d].after_seek(to as u16);
        transaction.acted |= 1 << d;
        Ok(())
    }

    pub fn write(&mut self, lent: &mut Lent, t: usize, d: usize, data: &[u8]) -> Result<(), Refusal> {
        self.check_descriptor(lent, t, d)?;
        let transaction = &mut self.transactions[t];
        let standing = &mut transaction.standings[d];
        let place = standing.write_place();
        let (Place::At(start) | Place::After(start)) = place;
        if data.len() > SPAN - usize::from(start) {
            return Err(Refusal::WritePastEnd);
        }
        let length = data.len() as u16;
        let record = WriteRecord { descriptor: d as u8, place, length };
        let start = SPAN * t + transaction.log.append(record)?;
        *standing = standing.after_bytes(length);
        transaction.acted |= 1 << d;
        lent.logs[start..start + data.len()].copy_from_slice(data);
        Ok(())
    }

    pub fn get_file_pointer(&mut self, lent: &mut Lent, t: usize, d: usize) -> Result<u16, Refusal> {
        self.check_look(lent, t, d)?;
        match self.transactions[t].standings[d] {
            Standing::Placed(offset) | Standing::Moved { offset, .. } | Standing::Known(offset) => Ok(offset),
            Standing::Untouched | Standing::Deferred(_) => {
                self.settle(t, 1 << d)?;
                Ok(self.offset(t, d))
            }
        }
    }

    /// Reads `count` bytes to the front of `reader`, or those up to the transaction's length, and answers how many there
    /// were. Where they are fewer the length is sighted.
    pub fn read(
        &mut self,
        lent: &mut Lent,
        t: usize,
        d: usize,
        count: usize,
        reader: &mut [u8],
    ) -> Result<u16, Refusal> {
        self.check_look(lent, t, d)?;
        if count > reader.len() {
            return Err(Refusal::ReaderTooShort);
        }
        self.settle(t, self.settled_by_read(t, d))?;
        let file = usize::from(self.files[d]);
        let start = usize::from(self.offset(t, d));
        let given = count.min(usize::from(self.length(t, file)).saturating_sub(start));
        self.fetch(lent, t, file, start, &mut reader[..given]);
        let transaction = &mut self.transactions[t];
        transaction.standings[d] = transaction.standings[d].after_bytes(given as u16);
        transaction.acted |= 1 << d;
        if given < count {
            transaction.sighted_lengths |= 1 << file;
        }
        Ok(given as u16)
    }

    /// Lists the places of a file that the transaction's writes cover, at the front of `out`, as pairs of offset and
    /// length, and answers how many pairs there are.
    pub fn places(&self, lent: &Lent, t: usize, file: usize, out: &mut [u8]) -> Result<u16, Refusal> {
        self.check_open(lent, t)?;
        if file >= FILES {
            return Err(Refusal::NoSuchTarget);
        }
        let stretches = joined(self.stretches(t, file)?);
        if out.len() < 4 * stretches.len() {
            return Err(Refusal::ListTooLong);
        }
        for (pair, stretch) in out.chunks_exact_mut(4).zip(&stretches) {
            pair[..2].copy_from_slice(&stretch.start.to_be_bytes());
            pair[2..].copy_from_slice(&(stretch.end - stretch.start).to_be_bytes());
        }
        Ok(stretches.len() as u16)
    }

    /// Answers which other transactions became stale (a bit for each).
    pub fn commit(&mut self, lent: &mut Lent, t: usize, minute: usize) -> Result<u8, Refusal> {
        self.check_open(lent, t)?;
        let minute = Store::checked_minute(minute)?;
        if self.transactions[t].stale {
            self.end(lent, t);
            return Err(Refusal::Stale);
        }
        self.check_hours(t, minute)?;
        self.check_settling(t, u16::MAX)?;
        self.hold(t);
        let sighters = self.land(lent, t);
        let lengths = self.raise_lengths();
        let offsets = self.set_offsets(t);
        self.end(lent, t);
        Ok(self.make_stale(sighters, lengths, offsets))
    }

    pub fn abort(&mut self, lent: &mut Lent, t: usize) -> Result<(), Refusal> {
        self.check_open(lent, t)?;
        self.end(lent, t);
        Ok(())
    }

    /// Sets the window of a file.
    pub fn set_window(&mut self, lent: &Lent, file: usize, start: usize, end: usize) -> Result<(), Refusal> {
        self.check_lent(lent)?;
        if file >= FILES {
            return Err(Refusal::NoSuchTarget);
        }
        self.windows[file] = Window { start: Store::checked_minute(start)?, end: Store::checked_minute(end)? };
        Ok(())
    }

    /// Takes the last grant back: files, offsets and lengths are again as it found them.
    pub fn undo(&mut self, lent: &mut Lent) -> Result<(), Refusal> {
        self.check_lent(lent)?;
        if self.is_any_open() {
            return Err(Refusal::UndoWhileOpen);
        }
        if !self.undo.valid {
            return Err(Refusal::NothingToUndo);
        }
        self.put_back(lent);
        self.offsets = self.undo.offsets;
        self.lengths = self.undo.lengths;
        self.undo = Undo::NONE;
        Ok(())
    }

    // The checks that calls begin with, in the order of the table.

    pub fn is_any_open(&self) -> bool {
        self.transactions.iter().any(|transaction| transaction.begun)
    }

    pub fn check_lent(&self, lent: &Lent) -> Result<(), Refusal> {
        lent.check()?;
        if !self.in_range() {
            return Err(Refusal::RecordRange);
        }
        Ok(())
    }

    pub fn check_number(&self, lent: &Lent, t: usize) -> Result<(), Refusal> {
        self.check_lent(lent)?;
        if t >= TRANSACTIONS {
            return Err(Refusal::NoSuchTransaction);
        }
        Ok(())
    }

    pub fn check_open(&self, lent: &Lent, t: usize) -> Result<(), Refusal> {
        self.check_number(lent, t)?;
        if !self.transactions[t].begun {
            return Err(Refusal::NotOpen);
        }
        Ok(())
    }

    pub fn checked_minute(minute: usize) -> Result<u16, Refusal> {
        if minute >= MINUTES {
            return Err(Refusal::NoSuchMinute);
        }
        Ok(minute as u16)
    }

    fn check_descriptor(&self, lent: &Lent, t: usize, d: usize) -> Result<(), Refusal> {
        self.check_open(lent, t)?;
        if d >= DESCRIPTORS {
            return Err(Refusal::NoSuchTarget);
        }
        Ok(())
    }

    /// The checks of a call that looks.
    fn check_look(&self, lent: &Lent, t: usize, d: usize) -> Result<(), Refusal> {
        self.check_descriptor(lent, t, d)?;
        if self.transactions[t].stale {
            return Err(Refusal::StaleReader);
        }
        Ok(())
    }

    /// The ranges of refusal 2. What a transaction that isn't open holds is free.
    pub fn in_range(&self) -> bool {
        self.files.iter().all(|&file| usize::from(file) < FILES)
            && self.offsets.iter().all(|&offset| offset <= SPAN_16)
            && self.lengths.iter().all(|&length| length <= SPAN_16)
            && self.windows.iter().all(|window| window.in_range())
            && self.transactions.iter().all(|transaction| !transaction.begun || transaction.in_range())
            && self.undo.in_range()
    }

    // Settling.

    /// The offset of a descriptor whose standing carries one; a descriptor just settled has it.
    fn offset(&self, t: usize, d: usize) -> u16 {
        match self.transactions[t].standings[d] {
            Standing::Placed(offset) | Standing::Moved { offset, .. } | Standing::Known(offset) => offset,
            Standing::Untouched | Standing::Deferred(_) => unreachable!("the descriptor carries an offset"),
        }
    }

    /// The descriptors (a bit for each) that a Read through `d` settles.
    fn settled_by_read(&self, t: usize, d: usize) -> u16 {
        let mut chosen = 0;
        for (other, standing) in self.transactions[t].standings.iter().enumerate() {
            let waits = self.files[other] == self.files[d] && standing.waiting().is_some();
            if waits || (other == d && *standing == Standing::Untouched) {
                chosen |= 1 << other;
            }
        }
        chosen
    }

    /// Would each of the chosen descriptors find room for its advance after its committed offset?
    fn check_settling(&self, t: usize, chosen: u16) -> Result<(), Refusal> {
        for (d, standing) in self.transactions[t].standings.iter().enumerate() {
            let advance = standing.waiting().unwrap_or(0);
            if chosen >> d & 1 == 1 && self.offsets[d] + advance > SPAN_16 {
                return Err(Refusal::AppendPastEnd);
            }
        }
        Ok(())
    }

    /// Settles the chosen descriptors, all or none, and gives their records a place.
    fn settle(&mut self, t: usize, chosen: u16) -> Result<(), Refusal> {
        if chosen == 0 {
            return Ok(());
        }
        self.check_settling(t, chosen)?;
        let transaction = &mut self.transactions[t];
        for (d, standing) in transaction.standings.iter_mut().enumerate() {
            if chosen >> d & 1 == 1 {
                *standing = standing.settled(self.offsets[d]);
            }
        }
        for record in &mut transaction.log.records {
            if let Place::After(advance) = record.place {
                if chosen >> record.descriptor & 1 == 1 {
                    record.place = Place::At(self.offsets[usize::from(record.descriptor)] + advance);
                }
            }
        }
        Ok(())
    }

    // Reading.

    /// The length of a file to a transaction: the committed one, or the furthest end of its own writes that have a place
    /// and a byte.
    pub fn length(&self, t: usize, file: usize) -> u16 {
        let mut length = self.lengths[file];
        for record in &self.transactions[t].log.records {
            let Place::At(start) = record.place else { continue };
            if record.length > 0 && usize::from(self.files[usize::from(record.descriptor)]) == file {
                length = length.max(start + record.length);
            }
        }
        length
    }

    /// Fills `out` from `place` of `file` on, run by run, and marks the bytes that the file supplied.
    fn fetch(&self, lent: &mut Lent, t: usize, file: usize, place: usize, out: &mut [u8]) {
        let end = place + out.len();
        let mut at = place;
        while at < end {
            let run = self.latest_write(t, file, at, end);
            let length = run.end - at;
            let source = match run.record {
                Some(_) => &lent.logs[SPAN * t + run.from..][..length],
                None => {
                    let from = SPAN * file + run.from;
                    marks::set(lent.marks, t, from..from + length);
                    &lent.files[from..from + length]
                }
            };
            out[at - place..run.end - place].copy_from_slice(source);
            at = run.end;
        }
    }

    /// From the newest record back to the first that covers `place`; with the longest stretch from there on, up to `end`,
    /// that this record supplies, or the file where none covers it.
    pub fn latest_write(&self, t: usize, file: usize, place: usize, end: usize) -> Run {
        let log = &self.transactions[t].log;
        let mut limit = end;
        let mut data = usize::from(log.bytes);
        for (looked, (k, record)) in (1..).zip(log.records.iter().enumerate().rev()) {
            let length = usize::from(record.length);
            data -= length;
            if length == 0 || usize::from(self.files[usize::from(record.descriptor)]) != file {
                continue;
            }
            let Place::At(start) = record.place else {
                unreachable!("a write on the file read has no place");
            };
            let start = usize::from(start);
            if start > place {
                limit = limit.min(start);
            } else if place < start + length {
                return Run { record: Some(k), looked, from: data + place - start, end: limit.min(start + length) };
            }
        }
        Run { record: None, looked: log.records.len(), from: place, end: limit }
    }

    // Listing places.

    /// The places of each write on a file, those of 0 bytes left out; refused where a write on it has no place.
    fn stretches(&self, t: usize, file: usize) -> Result<Vec<Range<u16>>, Refusal> {
        let mut stretches = Vec::new();
        for record in &self.transactions[t].log.records {
            if usize::from(self.files[usize::from(record.descriptor)]) != file {
                continue;
            }
            let Place::At(start) = record.place else {
                return Err(Refusal::NoPlaceYet);
            };
            if record.length > 0 {
                stretches.push(start..start + record.length);
            }
        }
        Ok(stretches)
    }

    // Ending a transaction.

    /// Is each file open to which a write of at least one byte would go?
    pub fn check_hours(&self, t: usize, minute: u16) -> Result<(), Refusal> {
        for record in self.transactions[t].log.records.iter().filter(|record| record.length > 0) {
            let file = usize::from(self.files[usize::from(record.descriptor)]);
            if !self.windows[file].is_open(minute) {
                return Err(Refusal::FileClosed);
            }
        }
        Ok(())
    }

    /// Holds where the writes of a transaction will land, and the offsets and lengths before that.
    fn hold(&mut self, t: usize) {
        let Store { offsets, lengths, transactions, undo, .. } = self;
        let log = &transactions[t].log;
        undo.valid = true;
        undo.log.records.clear();
        undo.log.records.extend(log.records.iter().map(|record| record.landed(offsets)));
        undo.log.bytes = log.bytes;
        undo.offsets = *offsets;
        undo.lengths = *lengths;
    }

    /// Lands the writes just held, in call order, each after its old bytes are kept in the undo buffer. Answers which other
    /// open transactions have sighted a byte just set (a bit for each).
    fn land(&self, lent: &mut Lent, t: usize) -> u8 {
        let mut sighters = 0;
        let mut data = 0;
        for record in &self.undo.log.records {
            let landing = self.landing(record);
            let length = landing.len();
            lent.undo[data..data + length].copy_from_slice(&lent.files[landing.clone()]);
            lent.files[landing.clone()].copy_from_slice(&lent.logs[SPAN * t + data..][..length]);
            for u in (0..TRANSACTIONS).filter(|&u| u != t && self.transactions[u].begun) {
                sighters |= u8::from(marks::any(lent.marks, u, landing.clone())) << u;
            }
            data += length;
        }
        sighters
    }

    /// Puts the old bytes back, from the last write to the first.
    fn put_back(&self, lent: &mut Lent) {
        let mut data = usize::from(self.undo.log.bytes);
        for record in self.undo.log.records.iter().rev() {
            let landing = self.landing(record);
            data -= landing.len();
            lent.files[landing.clone()].copy_from_slice(&lent.undo[data..data + landing.len()]);
        }
    }

    /// The bytes of the files buffer on which a write with a place lands.
    pub fn landing(&self, record: &WriteRecord) -> Range<usize> {
        let Place::At(place) = record.place else {
            unreachable!("what is held has a place");
        };
        let start = SPAN * usize::from(self.files[usize::from(record.descriptor)]) + usize::from(place);
        start..start + usize::from(record.length)
    }

    /// Raises the length of each file to the ends of the writes just held that have a byte, and answers which lengths were
    /// raised (a bit for each file).
    fn raise_lengths(&mut self) -> u8 {
        let mut raised = 0;
        for record in self.undo.log.records.iter().filter(|record| record.length > 0) {
            let file = usize::from(self.files[usize::from(record.descriptor)]);
            let end = record.end() as u16;
            if end > self.lengths[file] {
                self.lengths[file] = end;
                raised |= 1 << file;
            }
        }
        raised
    }

    /// Sets the committed offsets and answers which were set (a bit for each descriptor).
    fn set_offsets(&mut self, t: usize) -> u16 {
        let transaction = &self.transactions[t];
        let mut set = 0;
        for (d, standing) in transaction.standings.iter().enumerate() {
            if transaction.acted >> d & 1 == 0 {
                continue;
            }
            match *standing {
                Standing::Untouched => continue,
                Standing::Deferred(advance) => self.offsets[d] += advance,
                Standing::Placed(offset) | Standing::Moved { offset, .. } | Standing::Known(offset) => {
                    self.offsets[d] = offset
                }
            }
            set |= 1 << d;
        }
        set
    }

    fn end(&mut self, lent: &mut Lent, t: usize) {
        self.transactions[t].reset(false);
        marks::clear(lent.marks, t);
    }

    /// Makes stale every open transaction that has sighted one of the bytes, lengths or offsets just set, and answers the
    /// octet of those that were not so before. The one that set them has ended.
    fn make_stale(&mut self, sighters: u8, lengths: u8, offsets: u16) -> u8 {
        let mut octet = 0;
        for (t, transaction) in self.transactions.iter_mut().enumerate() {
            let length = transaction.sighted_lengths & lengths != 0;
            let sighted = sighters >> t & 1 == 1 || length || transaction.knows_any(offsets);
            if transaction.begun && !transaction.stale && sighted {
                transaction.stale = true;
                octet |= 1 << t;
            }
        }
        octet
    }
}

/// Stretches sorted by their start, those that overlap or touch made one.
fn joined(mut stretches: Vec<Range<u16>>) -> Vec<Range<u16>> {
    stretches.sort_by_key(|stretch| stretch.start);
    let mut joined: Vec<Range<u16>> = Vec::new();
    for stretch in stretches {
        match joined.last_mut() {
            Some(last) if stretch.start <= last.end => last.end = last.end.max(stretch.end),
            _ => joined.push(stretch),
        }
    }
    joined
}
