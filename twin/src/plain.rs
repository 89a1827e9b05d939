//! The plain machine of demand 3. It holds committed files, offsets, lengths and setters, a count of grants, what the last
//! grant found of these, the windows, and for each open transaction its accepted calls, standings, writes and sightings,
//! and on which descriptors it acted. It has no marks and no stale flag: a transaction is stale when the sightings it holds
//! differ from those of its accepted calls run alone on what is committed now.

use std::collections::HashSet;

use crate::call::{
    Action, Answer, Best, Call, Dispatch, Outcome, Ran, Refusal, Reply, Script, ScriptAction, ScriptStep, Step,
};

const FILES: usize = 8;
const DESCRIPTORS: usize = 16;
const TRANSACTIONS: usize = 8;
const FILE_BYTES: usize = 4096;
const LOG_RECORDS: usize = 64;
const LOG_BYTES: usize = 4096;
const MINUTES: usize = 1440;

/// The number of a granted commit, from 1; 0 stands for Fresh.
pub type Setter = u64;

/// What is committed.
#[derive(Clone, Debug, PartialEq, Eq)]
pub struct Committed {
    pub files: Vec<[u8; FILE_BYTES]>,
    /// The file of each descriptor.
    pub file_of: [usize; DESCRIPTORS],
    pub offsets: [usize; DESCRIPTORS],
    /// The length of each file.
    pub lengths: [usize; FILES],
    byte_setters: Vec<[Setter; FILE_BYTES]>,
    offset_setters: [Setter; DESCRIPTORS],
    length_setters: [Setter; FILES],
}

#[derive(Clone, Copy, Debug, PartialEq, Eq)]
pub enum Standing {
    Untouched,
    Placed { offset: usize },
    Deferred { advance: usize },
    Moved { advance: usize, offset: usize },
    Known { offset: usize },
}

/// Where a write lies: at a place of the file, or so far after a committed offset that isn't taken yet.
#[derive(Clone, Copy, Debug, PartialEq, Eq)]
pub enum Place {
    At(usize),
    After(usize),
}

#[derive(Clone, Debug, PartialEq, Eq)]
pub struct Write {
    pub descriptor: usize,
    pub place: Place,
    pub data: Vec<u8>,
}

#[derive(Clone, Copy, Debug, PartialEq, Eq)]
pub enum Item {
    Offset { descriptor: usize },
    Byte { file: usize, place: usize },
    Length { file: usize },
}

/// An entry of a list: what was sighted, and who had set it.
#[derive(Clone, Copy, Debug, PartialEq, Eq)]
pub struct Sighting {
    pub item: Item,
    pub setter: Setter,
}

/// A transaction from its Begin on, apart from the list of its calls.
#[derive(Clone, Debug, PartialEq, Eq)]
pub struct Course {
    pub standings: [Standing; DESCRIPTORS],
    /// On which descriptors there was an accepted Seek, Read or Write.
    pub acted: [bool; DESCRIPTORS],
    pub writes: Vec<Write>,
    pub sightings: Vec<Sighting>,
}

#[derive(Clone, Debug)]
pub struct Transaction {
    /// The accepted calls.
    pub calls: Vec<Step>,
    pub course: Course,
}

/// When a file may change: from the minute `start` on, until it is `end`.
#[derive(Clone, Copy, Debug, PartialEq, Eq)]
pub struct Window {
    pub start: usize,
    pub end: usize,
}

pub type Windows = [Window; FILES];

/// The windows of a Fresh.
pub const FRESH_WINDOWS: Windows = [Window { start: 0, end: 0 }; FILES];

/// What a grant found: files, offsets, lengths and setters, and the count of grants.
#[derive(Clone, Debug)]
pub struct Found {
    pub committed: Committed,
    grants: Setter,
}

#[derive(Clone, Debug)]
pub struct Machine {
    pub committed: Committed,
    pub grants: Setter,
    /// What the last grant found, until it is taken back.
    pub found: Option<Found>,
    pub windows: Windows,
    pub open: [Option<Transaction>; TRANSACTIONS],
}

impl Committed {
    /// The state of an accepted Fresh.
    pub fn fresh(files: &[u8]) -> Result<Committed, Refusal> {
        if files.iter().any(|&file| usize::from(file) >= FILES) {
            return Err(Refusal::NoSuchFile);
        }
        Ok(Committed {
            files: vec![[0; FILE_BYTES]; FILES],
            file_of: std::array::from_fn(|d| usize::from(files[d])),
            offsets: [0; DESCRIPTORS],
            lengths: [0; FILES],
            byte_setters: vec![[0; FILE_BYTES]; FILES],
            offset_setters: [0; DESCRIPTORS],
            length_setters: [0; FILES],
        })
    }

    pub fn sight(&self, item: Item) -> Sighting {
        let setter = match item {
            Item::Offset { descriptor } => self.offset_setters[descriptor],
            Item::Byte { file, place } => self.byte_setters[file][place],
            Item::Length { file } => self.length_setters[file],
        };
        Sighting { item, setter }
    }

    /// Was a byte of the file set last by this grant?
    pub fn has_byte_of(&self, file: usize, setter: Setter) -> bool {
        self.byte_setters[file].contains(&setter)
    }

    /// Lands the writes of a granted transaction, each raising its file's length where it ends beyond it, then sets the
    /// offsets; `setter` is the number of the grant.
    pub fn grant(&mut self, course: &Course, setter: Setter) {
        for write in &course.writes {
            self.land(write, setter);
        }
        for (d, standing) in course.standings.iter().enumerate().filter(|&(d, _)| course.acted[d]) {
            let offset = match *standing {
                Standing::Untouched => continue,
                Standing::Deferred { advance } => self.offsets[d] + advance,
                Standing::Placed { offset } | Standing::Moved { offset, .. } | Standing::Known { offset } => offset,
            };
            self.offsets[d] = offset;
            self.offset_setters[d] = setter;
        }
    }

    /// Where a write begins, as long as no offset of its grant is set.
    pub fn landing(&self, write: &Write) -> usize {
        match write.place {
            Place::At(place) => place,
            Place::After(advance) => self.offsets[write.descriptor] + advance,
        }
    }

    fn land(&mut self, write: &Write, setter: Setter) {
        let file = self.file_of[write.descriptor];
        for (place, &byte) in (self.landing(write)..).zip(&write.data) {
            self.files[file][place] = byte;
            self.byte_setters[file][place] = setter;
            if place >= self.lengths[file] {
                self.lengths[file] = place + 1;
                self.length_setters[file] = setter;
            }
        }
    }
}

impl Window {
    /// Walks through a day that begins at `start`, up to the next time that it is `end`.
    pub fn is_open(self, minute: usize) -> bool {
        let day = (self.start..self.start + MINUTES).map(|minute| minute % MINUTES);
        let ended = |(passed, now): &(usize, usize)| *passed > 0 && *now == self.end;
        day.enumerate().take_while(|now| !ended(now)).any(|(_, now)| now == minute)
    }
}

impl Standing {
    fn after_bytes(self, count: usize) -> Standing {
        match self {
            Standing::Untouched => Standing::Deferred { advance: count },
            Standing::Deferred { advance } => Standing::Deferred { advance: advance + count },
            Standing::Placed { offset } => Standing::Placed { offset: offset + count },
            Standing::Moved { advance, offset } => Standing::Moved { advance, offset: offset + count },
            Standing::Known { offset } => Standing::Known { offset: offset + count },
        }
    }

    fn after_seek(self, offset: usize) -> Standing {
        match self {
            Standing::Untouched | Standing::Placed { .. } => Standing::Placed { offset },
            Standing::Deferred { advance } | Standing::Moved { advance, .. } => Standing::Moved { advance, offset },
            Standing::Known { .. } => Standing::Known { offset },
        }
    }
}

impl Course {
    fn begun() -> Course {
        Course {
            standings: [Standing::Untouched; DESCRIPTORS],
            acted: [false; DESCRIPTORS],
            writes: Vec::new(),
            sightings: Vec::new(),
        }
    }

    /// The calls run alone on `committed`, up to the first one that is refused: what the run leaves, and its replies.
    pub fn run_alone<'a>(committed: &Committed, calls: impl IntoIterator<Item = &'a Step>) -> (Course, Vec<Reply>) {
        let mut course = Course::begun();
        let mut replies = Vec::new();
        for step in calls {
            let reply = course.serve(committed, step);
            if reply.outcome.is_err() {
                break;
            }
            replies.push(reply);
        }
        (course, replies)
    }

    /// Serves one call of the transaction. A refused one changes nothing.
    fn serve(&mut self, committed: &Committed, step: &Step) -> Reply {
        let d = step.descriptor;
        let reply = match &step.action {
            Action::Seek { to } => no_buffer(self.seek(d, *to)),
            Action::Write { data } => no_buffer(self.write(d, data)),
            Action::GetFilePointer => no_buffer(self.get_file_pointer(committed, d)),
            Action::Read { count, buffer } => {
                let mut buffer = buffer.clone();
                let outcome = self.read(committed, d, *count, &mut buffer);
                Reply { outcome, buffer }
            }
        };
        if reply.outcome.is_ok() && !matches!(step.action, Action::GetFilePointer) {
            self.acted[d] = true;
        }
        reply
    }

    fn seek(&mut self, d: usize, to: usize) -> Outcome {
        check_descriptor(d)?;
        if to > FILE_BYTES {
            return Err(Refusal::SeekPastEnd);
        }
        self.standings[d] = self.standings[d].after_seek(to);
        Ok(Answer::Done)
    }

    fn write(&mut self, d: usize, data: &[u8]) -> Outcome {
        check_descriptor(d)?;
        let place = match self.standings[d] {
            Standing::Untouched => Place::After(0),
            Standing::Deferred { advance } => Place::After(advance),
            Standing::Placed { offset } | Standing::Moved { offset, .. } | Standing::Known { offset } => {
                Place::At(offset)
            }
        };
        let (Place::At(start) | Place::After(start)) = place;
        if start + data.len() > FILE_BYTES {
            return Err(Refusal::WritePastEnd);
        }
        if self.writes.len() + 1 > LOG_RECORDS {
            return Err(Refusal::RecordsFull);
        }
        let used: usize = self.writes.iter().map(|write| write.data.len()).sum();
        if used + data.len() > LOG_BYTES {
            return Err(Refusal::LogFull);
        }
        self.writes.push(Write { descriptor: d, place, data: data.to_vec() });
        self.standings[d] = self.standings[d].after_bytes(data.len());
        Ok(Answer::Done)
    }

    fn get_file_pointer(&mut self, committed: &Committed, d: usize) -> Outcome {
        check_descriptor(d)?;
        if matches!(self.standings[d], Standing::Untouched | Standing::Deferred { .. }) {
            self.check_room(committed, d)?;
            self.settle(committed, d);
        }
        Ok(Answer::Offset(self.offset(d) as u16))
    }

    fn read(&mut self, committed: &Committed, d: usize, count: usize, buffer: &mut [u8]) -> Outcome {
        check_descriptor(d)?;
        if count > buffer.len() {
            return Err(Refusal::ReaderTooShort);
        }
        let settled = self.settled_by_read(committed, d);
        for &other in &settled {
            self.check_room(committed, other)?;
        }
        for &other in &settled {
            self.settle(committed, other);
        }
        let file = committed.file_of[d];
        let offset = self.offset(d);
        let given = (offset..self.length(committed, file)).take(count).len();
        self.fetch(committed, file, offset, &mut buffer[..given]);
        self.standings[d] = self.standings[d].after_bytes(given);
        if given < count {
            self.sightings.push(committed.sight(Item::Length { file }));
        }
        Ok(Answer::Given(given as u16))
    }

    /// The largest of the committed length and the ends of the own writes on the file that have a place and a byte.
    pub fn length(&self, committed: &Committed, file: usize) -> usize {
        let on_file = |write: &&Write| committed.file_of[write.descriptor] == file && !write.data.is_empty();
        let ends = self.writes.iter().filter(on_file).filter_map(|write| match write.place {
            Place::At(first) => Some(first + write.data.len()),
            Place::After(_) => None,
        });
        ends.fold(committed.lengths[file], usize::max)
    }

    /// The descriptors that a Read through `d` settles, in ascending number.
    fn settled_by_read(&self, committed: &Committed, d: usize) -> Vec<usize> {
        let settles = |other: &usize| match self.standings[*other] {
            Standing::Deferred { .. } | Standing::Moved { .. } => committed.file_of[*other] == committed.file_of[d],
            Standing::Untouched => *other == d,
            Standing::Placed { .. } | Standing::Known { .. } => false,
        };
        (0..DESCRIPTORS).filter(settles).collect()
    }

    /// Refusal 12: does the committed offset plus the advance stay in the file?
    fn check_room(&self, committed: &Committed, d: usize) -> Result<(), Refusal> {
        match self.standings[d] {
            Standing::Deferred { advance } | Standing::Moved { advance, .. }
                if committed.offsets[d] + advance > FILE_BYTES =>
            {
                Err(Refusal::AppendPastEnd)
            }
            _ => Ok(()),
        }
    }

    /// Takes the committed offset: the writes that waited for it get their place, and the offset is sighted.
    fn settle(&mut self, committed: &Committed, d: usize) {
        let taken = committed.offsets[d];
        for write in self.writes.iter_mut().filter(|write| write.descriptor == d) {
            if let Place::After(advance) = write.place {
                write.place = Place::At(taken + advance);
            }
        }
        self.standings[d] = match self.standings[d] {
            Standing::Untouched => Standing::Known { offset: taken },
            Standing::Deferred { advance } => Standing::Known { offset: taken + advance },
            Standing::Moved { offset, .. } => Standing::Known { offset },
            Standing::Placed { .. } | Standing::Known { .. } => unreachable!("settled without need"),
        };
        self.sightings.push(committed.sight(Item::Offset { descriptor: d }));
    }

    pub fn offset(&self, d: usize) -> usize {
        match self.standings[d] {
            Standing::Placed { offset } | Standing::Moved { offset, .. } | Standing::Known { offset } => offset,
            Standing::Untouched | Standing::Deferred { .. } => unreachable!("no offset is carried"),
        }
    }

    /// Each byte is that of the latest own write over its place, otherwise the committed byte, which is then sighted.
    fn fetch(&mut self, committed: &Committed, file: usize, start: usize, out: &mut [u8]) {
        let own = self.own_bytes(committed, file, start, out.len());
        for (i, own_byte) in own.into_iter().enumerate() {
            out[i] = match own_byte {
                Some(byte) => byte,
                None => {
                    self.sightings.push(committed.sight(Item::Byte { file, place: start + i }));
                    committed.files[file][start + i]
                }
            };
        }
    }

    /// Which write, in call order, is the latest over a place: it covers the place and no later one does.
    pub fn latest_write(&self, committed: &Committed, file: usize, place: usize) -> Option<usize> {
        self.writes.iter().rposition(|write| match write.place {
            Place::At(first) => {
                committed.file_of[write.descriptor] == file && (first..first + write.data.len()).contains(&place)
            }
            Place::After(_) => false,
        })
    }

    /// What the transaction's own writes put on `count` places of a file from `start` on.
    fn own_bytes(&self, committed: &Committed, file: usize, start: usize, count: usize) -> Vec<Option<u8>> {
        let mut own = vec![None; count];
        for write in self.writes.iter().filter(|write| committed.file_of[write.descriptor] == file) {
            let Place::At(first) = write.place else {
                unreachable!("a write on the file read has no place");
            };
            for (place, &byte) in (first..).zip(&write.data) {
                if (start..start + count).contains(&place) {
                    own[place - start] = Some(byte);
                }
            }
        }
        own
    }
}

impl Course {
    /// The places of a file that the writes cover, listed at the front of `buffer`.
    fn places(&self, committed: &Committed, file: usize, buffer: &mut [u8]) -> Outcome {
        if file >= FILES {
            return Err(Refusal::NoSuchTarget);
        }
        let pairs = pairs(&self.covered(committed, file)?);
        let list = pairs.iter().flatten().flat_map(|&number| [(number / 256) as u8, (number % 256) as u8]);
        if buffer.len() < 4 * pairs.len() {
            return Err(Refusal::ListTooLong);
        }
        for (byte, listed) in buffer.iter_mut().zip(list) {
            *byte = listed;
        }
        Ok(Answer::Pairs(pairs.len() as u16))
    }

    /// Which places of a file a write covers; refused where a write on it has no place yet.
    fn covered(&self, committed: &Committed, file: usize) -> Result<[bool; FILE_BYTES], Refusal> {
        let mut covered = [false; FILE_BYTES];
        for write in self.writes.iter().filter(|write| committed.file_of[write.descriptor] == file) {
            match write.place {
                Place::At(first) => covered[first..first + write.data.len()].fill(true),
                Place::After(_) => return Err(Refusal::NoPlaceYet),
            }
        }
        Ok(covered)
    }
}

impl Transaction {
    /// Does its list differ from that of its calls run alone on what is committed?
    fn is_stale(&self, committed: &Committed) -> bool {
        let (alone, _) = Course::run_alone(committed, &self.calls);
        alone.sightings != self.course.sightings
    }
}

impl Course {
    /// What a Commit that is not stale is refused for, at a good minute: a byte for a closed file, then placing.
    pub fn check_commit(&self, committed: &Committed, windows: &Windows, minute: usize) -> Result<(), Refusal> {
        let mut with_bytes = self.writes.iter().filter(|write| !write.data.is_empty());
        if with_bytes.any(|write| !windows[committed.file_of[write.descriptor]].is_open(minute)) {
            return Err(Refusal::FileClosed);
        }
        self.check_placing(committed)
    }

    pub fn check_placing(&self, committed: &Committed) -> Result<(), Refusal> {
        (0..DESCRIPTORS).try_for_each(|d| self.check_room(committed, d))
    }
}

impl Machine {
    /// The machine on the state of an accepted Fresh with these sixteen file numbers.
    pub fn fresh(files: &[u8]) -> Result<Machine, Refusal> {
        let committed = Committed::fresh(files)?;
        Ok(Machine { committed, grants: 0, found: None, windows: FRESH_WINDOWS, open: Default::default() })
    }

    /// Takes one call, of buffers and lists with the right lengths.
    pub fn take(&mut self, call: &Call) -> Reply {
        match call {
            Call::Fresh { files } => no_buffer(Machine::fresh(files).map(|machine| {
                *self = machine;
                Answer::Done
            })),
            Call::Begin(t) => no_buffer(self.begin(*t)),
            Call::Step(t, step) => self.step(*t, step),
            Call::Places { transaction, file, buffer } => self.places(*transaction, *file, buffer),
            Call::Commit { transaction, minute } => no_buffer(self.commit(*transaction, *minute)),
            Call::Abort(t) => no_buffer(self.abort(*t)),
            Call::Window { file, start, end } => no_buffer(self.set_window(*file, *start, *end)),
            Call::Undo => no_buffer(self.undo()),
            Call::Dispatch(dispatch) => self.dispatch(dispatch).0,
            Call::Best { list, minute, budget } => no_buffer(self.best(list, *minute, *budget)),
        }
    }

    /// Do the two lists of an open transaction differ?
    pub fn is_stale(&self, t: usize) -> bool {
        self.open[t].as_ref().is_some_and(|transaction| transaction.is_stale(&self.committed))
    }

    fn begin(&mut self, t: usize) -> Outcome {
        check_transaction(t)?;
        if self.open[t].is_some() {
            return Err(Refusal::AlreadyOpen);
        }
        self.open[t] = Some(Transaction { calls: Vec::new(), course: Course::begun() });
        Ok(Answer::Done)
    }

    fn step(&mut self, t: usize, step: &Step) -> Reply {
        let untouched_buffer = match &step.action {
            Action::Read { buffer, .. } => buffer.clone(),
            _ => Vec::new(),
        };
        if let Err(refusal) = self.check_open(t).and_then(|()| self.check_look(t, step)) {
            return Reply { outcome: Err(refusal), buffer: untouched_buffer };
        }
        let transaction = self.open[t].as_mut().expect("it is open");
        let reply = transaction.course.serve(&self.committed, step);
        if reply.outcome.is_ok() {
            transaction.calls.push(step.clone());
        }
        reply
    }

    /// Looks at what the transaction holds, and adds nothing to its accepted calls.
    fn places(&self, t: usize, file: usize, buffer: &[u8]) -> Reply {
        let mut buffer = buffer.to_vec();
        let outcome = self.check_open(t).and_then(|()| {
            let transaction = self.open[t].as_ref().expect("it is open");
            transaction.course.places(&self.committed, file, &mut buffer)
        });
        Reply { outcome, buffer }
    }

    fn commit(&mut self, t: usize, minute: usize) -> Outcome {
        self.check_open(t)?;
        check_minute(minute)?;
        if self.is_stale(t) {
            self.open[t] = None;
            return Err(Refusal::Stale);
        }
        self.course(t).check_commit(&self.committed, &self.windows, minute)?;
        let equal_before = self.with_equal_lists();
        let ended = self.open[t].take().expect("it is open");
        self.found = Some(Found { committed: self.committed.clone(), grants: self.grants });
        self.grants += 1;
        self.committed.grant(&ended.course, self.grants);
        let equal_after = self.with_equal_lists();
        let turned = (0..TRANSACTIONS).filter(|&u| u != t && equal_before[u] && !equal_after[u]);
        Ok(Answer::Granted(turned.map(|u| 1 << u).sum()))
    }

    fn abort(&mut self, t: usize) -> Outcome {
        self.check_open(t)?;
        self.open[t] = None;
        Ok(Answer::Done)
    }

    /// Changes nothing else.
    fn set_window(&mut self, file: usize, start: usize, end: usize) -> Outcome {
        if file >= FILES {
            return Err(Refusal::NoSuchTarget);
        }
        check_minute(start)?;
        check_minute(end)?;
        self.windows[file] = Window { start, end };
        Ok(Answer::Done)
    }

    /// Goes back to what the last grant found.
    fn undo(&mut self) -> Outcome {
        if self.open.iter().any(Option::is_some) {
            return Err(Refusal::UndoWhileOpen);
        }
        let found = self.found.take().ok_or(Refusal::NothingToUndo)?;
        self.committed = found.committed;
        self.grants = found.grants;
        Ok(Answer::Done)
    }

    fn check_open(&self, t: usize) -> Result<(), Refusal> {
        check_transaction(t)?;
        match self.open[t] {
            Some(_) => Ok(()),
            None => Err(Refusal::NotOpen),
        }
    }

    /// A stale transaction looks no more. A descriptor number above 15 is left to the step itself.
    fn check_look(&self, t: usize, step: &Step) -> Result<(), Refusal> {
        let looks = matches!(step.action, Action::GetFilePointer | Action::Read { .. });
        if looks && step.descriptor < DESCRIPTORS && self.is_stale(t) {
            return Err(Refusal::StaleReader);
        }
        Ok(())
    }

    /// Which transactions are open with two equal lists.
    fn with_equal_lists(&self) -> [bool; TRANSACTIONS] {
        std::array::from_fn(|t| self.open[t].is_some() && !self.is_stale(t))
    }
}

impl Machine {
    /// Tries the orders from the given one on, as many as the budget allows. Changes nothing.
    fn best(&self, list: &[usize], minute: usize, budget: usize) -> Outcome {
        self.check_best(list, minute, budget)?;
        let orders = (1..=list.len()).product();
        let tried = budget.min(orders);
        let grants: Vec<usize> = (0..tried).map(|n| self.grants_in(&nth_order(list, n), minute)).collect();
        let most = *grants.iter().max().expect("an order was tried");
        let earliest = grants.iter().position(|&count| count == most).expect("it is one of them");
        let gap = if tried == orders { 0 } else { self.without_closed_bytes(list, minute) - most };
        Ok(Answer::Best(Best::new(&nth_order(list, earliest), most, gap, tried)))
    }

    fn check_best(&self, list: &[usize], minute: usize, budget: usize) -> Result<(), Refusal> {
        let different: HashSet<&usize> = list.iter().collect();
        if list.is_empty() || list.len() > 8 || different.len() < list.len() {
            return Err(Refusal::BadList);
        }
        list.iter().try_for_each(|&t| check_transaction(t))?;
        list.iter().try_for_each(|&t| self.check_open(t))?;
        check_minute(minute)?;
        let unplaced = |write: &Write| matches!(write.place, Place::After(_));
        let unready = |&t: &usize| self.is_stale(t) || self.course(t).writes.iter().any(unplaced);
        if list.iter().any(unready) {
            return Err(Refusal::NotReady);
        }
        if !(1..=40320).contains(&budget) {
            return Err(Refusal::BadBudget);
        }
        Ok(())
    }

    /// How many of the Commits are granted, made in this order on a copy of what is committed.
    pub fn grants_in(&self, order: &[usize], minute: usize) -> usize {
        let mut committed = self.committed.clone();
        let mut grants = self.grants;
        for &t in order {
            let transaction = self.open[t].as_ref().expect("it is open");
            let refused = transaction.course.check_commit(&committed, &self.windows, minute).is_err();
            if !transaction.is_stale(&committed) && !refused {
                grants += 1;
                committed.grant(&transaction.course, grants);
            }
        }
        (grants - self.grants) as usize
    }

    /// How many of the transactions have no byte for a file that is closed at the minute.
    fn without_closed_bytes(&self, list: &[usize], minute: usize) -> usize {
        let closed = |write: &Write| !self.windows[self.committed.file_of[write.descriptor]].is_open(minute);
        let has_closed = |&t: &usize| self.course(t).writes.iter().any(|write| closed(write) && !write.data.is_empty());
        list.iter().filter(|t| !has_closed(t)).count()
    }

    fn course(&self, t: usize) -> &Course {
        &self.open[t].as_ref().expect("it is open").course
    }
}

/// Order number n, from 0, of the orders by ascending positions: each choice of a first one stands before so many orders of
/// the rest.
pub fn nth_order(list: &[usize], n: usize) -> Vec<usize> {
    let mut rest = list.to_vec();
    let mut order = Vec::new();
    let mut n = n;
    while !rest.is_empty() {
        let orders_of_rest: usize = (1..rest.len()).product();
        order.push(rest.remove(n / orders_of_rest));
        n %= orders_of_rest;
    }
    order
}

/// The single calls of each round of a dispatcher, with their replies.
pub type Rounds = Vec<Vec<(Call, Reply)>>;

impl Machine {
    /// Makes the single calls of which a dispatcher consists.
    pub fn dispatch(&mut self, dispatch: &Dispatch) -> (Reply, Rounds) {
        let mut running = Running {
            dispatch,
            reader: dispatch.buffer.clone(),
            ended: vec![None; dispatch.scripts.len()],
            rounds: Vec::new(),
        };
        if let Err(refusal) = self.check_dispatch(dispatch) {
            return (Reply { outcome: Err(refusal), buffer: running.reader }, running.rounds);
        }
        while running.ended.contains(&None) {
            running.round(self);
        }
        let made = running.rounds.iter().flatten();
        let commits = made.filter(|(call, _)| matches!(call, Call::Commit { .. })).count();
        let ended = std::array::from_fn(|k| running.ended.get(k).and_then(|ended| ended.expect("it is over").err()));
        let ran = Ran { scripts: dispatch.scripts.len(), ended, commits: commits as u16 };
        (Reply { outcome: Ok(Answer::Ran(ran)), buffer: running.reader }, running.rounds)
    }

    fn check_dispatch(&self, dispatch: &Dispatch) -> Result<(), Refusal> {
        if self.open.iter().any(Option::is_some) {
            return Err(Refusal::DispatchWhileOpen);
        }
        let past = |step: &ScriptStep| match step.action {
            ScriptAction::Write { start, length } => start.saturating_add(length) > dispatch.data.len(),
            _ => false,
        };
        let bad = |script: &Script| script.len() > 16 || script.iter().any(past);
        if dispatch.scripts.len() > 8 || dispatch.scripts.iter().any(bad) {
            return Err(Refusal::BadScripts);
        }
        Ok(())
    }
}

/// A dispatcher while it runs.
struct Running<'a> {
    dispatch: &'a Dispatch,
    reader: Vec<u8>,
    /// How each script that is over has ended.
    ended: Vec<Option<Result<(), Refusal>>>,
    rounds: Rounds,
}

impl Running<'_> {
    fn round(&mut self, machine: &mut Machine) {
        self.rounds.push(Vec::new());
        for k in self.unfinished() {
            self.make(machine, Call::Begin(k)).expect("no transaction is open between rounds");
        }
        let longest = self.dispatch.scripts.iter().map(Vec::len).max().unwrap_or(0);
        for turn in 0..longest {
            for k in self.unfinished() {
                let Some(step) = self.dispatch.step(k, turn, &self.reader) else { continue };
                if let Err(refusal) = self.make(machine, Call::Step(k, step)) {
                    self.fail(machine, k, refusal);
                }
            }
        }
        for k in self.unfinished() {
            match self.make(machine, Call::Commit { transaction: k, minute: self.dispatch.minute }) {
                Ok(_) => self.ended[k] = Some(Ok(())),
                Err(Refusal::Stale) => {}
                Err(refusal) => self.fail(machine, k, refusal),
            }
        }
    }

    fn unfinished(&self) -> Vec<usize> {
        (0..self.ended.len()).filter(|&k| self.ended[k].is_none()).collect()
    }

    fn fail(&mut self, machine: &mut Machine, k: usize, refusal: Refusal) {
        self.ended[k] = Some(Err(refusal));
        if machine.open[k].is_some() {
            self.make(machine, Call::Abort(k)).expect("it is open");
        }
    }

    fn make(&mut self, machine: &mut Machine, call: Call) -> Outcome {
        let reply = machine.take(&call);
        let outcome = reply.outcome;
        if matches!(call, Call::Step(_, Step { action: Action::Read { .. }, .. })) {
            self.reader = reply.buffer.clone();
        }
        self.rounds.last_mut().expect("a round is on").push((call, reply));
        outcome
    }
}

/// Offset and length of each stretch of covered places that goes as far as it can.
fn pairs(covered: &[bool]) -> Vec<[usize; 2]> {
    let starts = (0..covered.len()).filter(|&place| covered[place] && (place == 0 || !covered[place - 1]));
    starts.map(|start| [start, covered[start..].iter().take_while(|&&place| place).count()]).collect()
}

fn no_buffer(outcome: Outcome) -> Reply {
    Reply { outcome, buffer: Vec::new() }
}

fn check_transaction(t: usize) -> Result<(), Refusal> {
    if t < TRANSACTIONS {
        Ok(())
    } else {
        Err(Refusal::NoSuchTransaction)
    }
}

fn check_minute(minute: usize) -> Result<(), Refusal> {
    if minute < MINUTES {
        Ok(())
    } else {
        Err(Refusal::NoSuchMinute)
    }
}

fn check_descriptor(d: usize) -> Result<(), Refusal> {
    if d < DESCRIPTORS {
        Ok(())
    } else {
        Err(Refusal::NoSuchTarget)
    }
}
