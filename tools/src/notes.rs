//! The notes that are not about stale transactions: for each refusal the numbers that were compared, and for the
//! calls that only a log has what they did.

use twin::call::{Refusal, ORDERS};
use twin::calllog::{Asked, VERSION};
use twin::state::State;
use twin::store::{Place, Standing, Store, DESCRIPTORS, FILES, MINUTES, RECORDS, SPAN, TRANSACTIONS};

use crate::account::{self, Account, Answer, Change, End, Note};
use crate::citation::Citation;
use crate::history::{Course, History, LastGrant};
use crate::text::{self, counted};

/// The note for a refusal other than 13, 17 and 18.
pub fn of_refusal(asked: &Asked, refusal: Refusal, state: &State, history: &History) -> Vec<Note> {
    let refused = Refused { asked, store: &state.store, history };
    let note = match refusal {
        Refusal::BufferLength => refused.buffer_length(),
        Refusal::RecordRange => plain(broken_range(&state.store)),
        Refusal::NoSuchTransaction => refused.no_such_transaction(),
        Refusal::NotOpen => refused.not_open(),
        Refusal::AlreadyOpen => refused.already_open(),
        Refusal::NoSuchTarget => refused.no_such_target(),
        Refusal::ReaderTooShort => refused.reader_too_short(),
        Refusal::SeekPastEnd => refused.seek_past_end(),
        Refusal::WritePastEnd => refused.write_past_end(),
        Refusal::RecordsFull => plain(format!("the log holds {RECORDS} writes, and {RECORDS} are the most")),
        Refusal::LogFull => refused.log_full(),
        Refusal::AppendPastEnd => refused.append_past_end(),
        Refusal::NoSuchFile => refused.no_such_file(),
        Refusal::NoPlaceYet => refused.no_place_yet(),
        Refusal::ListTooLong => refused.list_too_long(),
        Refusal::FileClosed => refused.file_closed(),
        Refusal::NoSuchMinute => refused.no_such_minute(),
        Refusal::UndoWhileOpen => refused.undo_while_open(),
        Refusal::NothingToUndo => refused.nothing_to_undo(),
        Refusal::NotReady => refused.not_ready(),
        Refusal::BadList => refused.bad_list(),
        Refusal::BadBudget => refused.bad_budget(),
        Refusal::Stale | Refusal::StaleReader | Refusal::BadLine => None,
        Refusal::DispatchWhileOpen | Refusal::BadScripts => None,
    };
    note.into_iter().collect()
}

fn plain(text: String) -> Option<Note> {
    Some(Note::new(text, &[]))
}

/// A call, what it was refused on, and which lines led there.
struct Refused<'a> {
    asked: &'a Asked,
    store: &'a Store,
    history: &'a History,
}

impl Refused<'_> {
    fn buffer_length(&self) -> Option<Note> {
        let Asked::Fresh(files) = self.asked else { return None };
        plain(format!("the list has {}, and Fresh takes {DESCRIPTORS}", counted(files.len() as u64, "number")))
    }

    fn no_such_transaction(&self) -> Option<Note> {
        let number = match self.asked {
            Asked::Order { list, .. } => list.iter().copied().find(|&t| usize::from(t) >= TRANSACTIONS)?.into(),
            asked => account::named_transaction(asked)?,
        };
        plain(format!("no transaction {number}: there are 0 to {}", TRANSACTIONS - 1))
    }

    fn not_open(&self) -> Option<Note> {
        let t = match self.asked {
            Asked::Order { list, .. } => {
                list.iter().map(|&t| usize::from(t)).find(|&t| self.course(t).begun.is_none())?
            }
            asked => account::transaction_of(asked)?,
        };
        match self.course(t).ended {
            Some((line, how)) => Some(Note::new(format!("{t} ended at {} ({})", line.line, how.word()), &[line])),
            None if self.history.from_block => plain(format!("{t} was not open before line 1, and never begun since")),
            None => plain(format!("{t} was never begun")),
        }
    }

    fn already_open(&self) -> Option<Note> {
        let begun = self.course(account::transaction_of(self.asked)?).begun?;
        Some(Note::new(format!("open {}", since(begun)), &[begun]))
    }

    fn no_such_target(&self) -> Option<Note> {
        match self.asked {
            Asked::Places { file, .. } | Asked::Window { file, .. } => {
                plain(format!("no file {file}: there are 0 to {}", FILES - 1))
            }
            asked => plain(format!("no descriptor {}: there are 0 to {}", descriptor_of(asked)?, DESCRIPTORS - 1)),
        }
    }

    fn reader_too_short(&self) -> Option<Note> {
        let Asked::Read { count, room, .. } = self.asked else { return None };
        plain(format!("{count} is above {room}, the length of the buffer"))
    }

    fn seek_past_end(&self) -> Option<Note> {
        let Asked::Seek { to, .. } = self.asked else { return None };
        plain(format!("{to} is above {SPAN}"))
    }

    fn write_past_end(&self) -> Option<Note> {
        let (Asked::Write { data, .. }, t, d) = (self.asked, self.transaction()?, self.descriptor()?) else {
            return None;
        };
        let start = match self.store.transactions[t].standings[d] {
            Standing::Untouched => 0,
            Standing::Deferred(advance) => advance,
            Standing::Placed(offset) | Standing::Moved { offset, .. } | Standing::Known(offset) => offset,
        };
        plain(format!("{start} + {} is above {SPAN}", data.len()))
    }

    fn log_full(&self) -> Option<Note> {
        let Asked::Write { data, .. } = self.asked else { return None };
        let held = self.store.transactions[self.transaction()?].log.bytes;
        let bytes = counted(held, "byte");
        plain(format!("the log holds {bytes}, and {held} + {} is above {SPAN}", data.len()))
    }

    /// The first descriptor, of those that are settled or placed, that finds no room.
    fn append_past_end(&self) -> Option<Note> {
        let t = self.transaction()?;
        let (d, advance) = (0..DESCRIPTORS).filter(|&d| self.is_placed_by_call(d)).find_map(|d| {
            let advance = waiting(self.store.transactions[t].standings[d])?;
            (usize::from(self.store.offsets[d]) + usize::from(advance) > SPAN).then_some((d, advance))
        })?;
        let offset = self.store.offsets[d];
        let set = self.history.offsets[d].unwrap_or(Citation::BEFORE);
        let waits = if advance == 1 { "waits" } else { "wait" };
        let text = format!(
            "offset of descriptor {d} is {offset}, set {}, and {} {waits}: {offset} + {advance} is above {SPAN}",
            set.after("by"),
            counted(advance, "byte"),
        );
        Some(Note::new(text, &[set]))
    }

    /// Does the call give the appends through a descriptor their place? A Commit does so for all, a GetFilePointer
    /// for its own, a Read for those of its file.
    fn is_placed_by_call(&self, d: usize) -> bool {
        match self.asked {
            Asked::Commit { .. } => true,
            Asked::Pointer { .. } => self.descriptor() == Some(d),
            _ => self.descriptor().is_some_and(|own| self.store.files[own] == self.store.files[d]),
        }
    }

    fn no_such_file(&self) -> Option<Note> {
        let Asked::Fresh(files) = self.asked else { return None };
        let d = files.iter().position(|&file| usize::from(file) >= FILES)?;
        plain(format!("descriptor {d} in file {}: there are 0 to {}", files[d], FILES - 1))
    }

    fn no_place_yet(&self) -> Option<Note> {
        let Asked::Places { file, .. } = self.asked else { return None };
        let write = self.unplaced_write(self.transaction()?, |on| on as u64 == *file)?;
        Some(Note::new(format!("no place yet for the write {}", write.after("at")), &[write]))
    }

    fn list_too_long(&self) -> Option<Note> {
        let Asked::Places { file, room, .. } = self.asked else { return None };
        let pairs = covered(self.store, self.transaction()?, *file as usize);
        let bytes = 4 * pairs;
        plain(format!("the list has {}, {bytes} bytes, and the buffer {room}", counted(pairs as u64, "pair")))
    }

    /// The first write of at least one byte for a closed file.
    fn file_closed(&self) -> Option<Note> {
        let Asked::Commit { minute, .. } = self.asked else { return None };
        let t = self.transaction()?;
        let store = self.store;
        let closed = |file: usize| !store.windows[file].is_open(*minute as u16);
        let file_of = |k: usize| usize::from(store.files[usize::from(store.transactions[t].log.records[k].descriptor)]);
        let records = &store.transactions[t].log.records;
        let k = (0..records.len()).find(|&k| records[k].length > 0 && closed(file_of(k)))?;
        let (file, write) = (file_of(k), self.course(t).writes[k]);
        let set = self.history.windows[file].unwrap_or(Citation::BEFORE);
        let window = store.windows[file];
        let text = format!(
            "file {file} is closed at minute {minute}: its window is {} to {}, set {}; the write is {}",
            window.start,
            window.end,
            set.after("by"),
            write.after("at"),
        );
        Some(Note::new(text, &[set, write]))
    }

    fn no_such_minute(&self) -> Option<Note> {
        let over = |minute: u64| minute >= MINUTES as u64;
        let (what, minute) = match *self.asked {
            Asked::Commit { minute, .. } | Asked::Order { minute, .. } => ("minute", minute),
            Asked::Window { start, .. } if over(start) => ("start", start),
            Asked::Window { end, .. } => ("end", end),
            _ => return None,
        };
        plain(format!("{what} {minute} is above {}", MINUTES - 1))
    }

    fn undo_while_open(&self) -> Option<Note> {
        let open = (0..TRANSACTIONS).filter_map(|t| Some((t, self.course(t).begun?)));
        let (words, lines): (Vec<String>, Vec<Citation>) =
            open.map(|(t, begun)| (format!("{t} is open {}", since(begun)), begun)).unzip();
        Some(Note::new(words.join(", "), &lines))
    }

    fn nothing_to_undo(&self) -> Option<Note> {
        match self.history.last_grant {
            LastGrant::NoneSince(line) => Some(Note::new(format!("no grant {}", line.after("since")), &[line])),
            _ => plain("no grant yet".to_string()),
        }
    }

    /// The first of the list that is stale or has a write without a place.
    fn not_ready(&self) -> Option<Note> {
        let Asked::Order { list, .. } = self.asked else { return None };
        list.iter().find_map(|&t| {
            let t = usize::from(t);
            if let Some(stale) = &self.course(t).stale {
                return Some(Note::new(format!("{t} is stale {}", stale.since.after("since")), &[stale.since]));
            }
            let write = self.unplaced_write(t, |_| true)?;
            Some(Note::new(format!("{t} has no place yet for the write {}", write.after("at")), &[write]))
        })
    }

    fn bad_list(&self) -> Option<Note> {
        let Asked::Order { list, .. } = self.asked else { return None };
        if list.is_empty() {
            return plain("the list is empty".to_string());
        }
        if list.len() > TRANSACTIONS {
            return plain(format!("the list has {} numbers, and {TRANSACTIONS} are the most", list.len()));
        }
        let repeat = (0..list.len()).find(|&k| list[..k].contains(&list[k]))?;
        plain(format!("{} stands in the list twice", list[repeat]))
    }

    fn bad_budget(&self) -> Option<Note> {
        let Asked::Order { budget, .. } = self.asked else { return None };
        plain(format!("budget {budget} is not from 1 to {ORDERS}"))
    }

    fn course(&self, t: usize) -> &Course {
        &self.history.courses[t]
    }

    fn transaction(&self) -> Option<usize> {
        account::transaction_of(self.asked)
    }

    fn descriptor(&self) -> Option<usize> {
        descriptor_of(self.asked).map(|d| d as usize)
    }

    /// The first write of a transaction that has no place, on such a file.
    fn unplaced_write(&self, t: usize, on: impl Fn(usize) -> bool) -> Option<Citation> {
        let records = &self.store.transactions[t].log.records;
        let file_of = |k: usize| usize::from(self.store.files[usize::from(records[k].descriptor)]);
        let unplaced = |k: &usize| matches!(records[*k].place, Place::After(_)) && on(file_of(*k));
        (0..records.len()).find(unplaced).map(|k| self.course(t).writes[k])
    }
}

/// `since 7`, or `before line 1`.
fn since(line: Citation) -> String {
    match line.line {
        0 => "before line 1".to_string(),
        line => format!("since {line}"),
    }
}

fn descriptor_of(asked: &Asked) -> Option<u64> {
    match asked {
        Asked::Pointer { descriptor, .. }
        | Asked::Seek { descriptor, .. }
        | Asked::Write { descriptor, .. }
        | Asked::Read { descriptor, .. } => Some(*descriptor),
        _ => None,
    }
}

/// The bytes of appends that still wait for a committed offset.
fn waiting(standing: Standing) -> Option<u16> {
    match standing {
        Standing::Deferred(advance) | Standing::Moved { advance, .. } => Some(advance),
        Standing::Untouched | Standing::Placed(_) | Standing::Known(_) => None,
    }
}

/// How many stretches of a file the writes of a transaction cover.
fn covered(store: &Store, t: usize, file: usize) -> usize {
    let mut places = [false; SPAN];
    for record in &store.transactions[t].log.records {
        if let (Place::At(start), true) =
            (record.place, usize::from(store.files[usize::from(record.descriptor)]) == file)
        {
            places[usize::from(start)..][..usize::from(record.length)].fill(true);
        }
    }
    (0..SPAN).filter(|&place| places[place] && (place == 0 || !places[place - 1])).count()
}

/// The first range of refusal 2 that the record of a saved block breaks.
fn broken_range(store: &Store) -> String {
    let above = |numbers: &[u16], most: usize| numbers.iter().position(|&number| usize::from(number) > most);
    let bounds = store.windows.map(|window| window.start.max(window.end));
    if let Some(d) = store.files.iter().position(|&file| usize::from(file) >= FILES) {
        format!("in the saved block descriptor {d} is in file {}, above {}", store.files[d], FILES - 1)
    } else if let Some(d) = above(&store.offsets, SPAN) {
        format!("in the saved block the offset of descriptor {d} is {}, above {SPAN}", store.offsets[d])
    } else if let Some(f) = above(&store.lengths, SPAN) {
        format!("in the saved block the length of file {f} is {}, above {SPAN}", store.lengths[f])
    } else if let Some(f) = above(&bounds, MINUTES - 1) {
        format!("in the saved block the window of file {f} has minute {}, above {}", bounds[f], MINUTES - 1)
    } else {
        "in the saved block a log or a standing is out of range".to_string()
    }
}

// Lines of a log.

pub fn of_version(version: u64) -> Vec<Note> {
    let unknown = || plain(format!("version {version} is not known: the run ends here"));
    if version == VERSION { None } else { unknown() }.into_iter().collect()
}

/// `printed` is the answer of the replay, empty where there is none yet.
pub fn of_recorded(agrees: bool, printed: &[u8]) -> Vec<Note> {
    match (agrees, printed) {
        (true, _) => Vec::new(),
        (false, []) => vec![Note::new("nothing was answered yet", &[])],
        (false, _) => vec![Note::new(format!("the replay answers '{}'", text::shown(printed)), &[])],
    }
}

/// What an accepted call did that only a log has.
pub fn of_accepted(asked: &Asked, account: &Account, store: &Store) -> Vec<Note> {
    let note = match (asked, &account.answer) {
        (Asked::Fresh(_), _) => of_fresh(&account.changes),
        (Asked::Window { file, .. }, _) => of_window(store, *file as usize),
        (Asked::Undo, _) => of_undo(&account.changes),
        (Asked::Places { file, .. }, Some(Answer::Places(pairs))) => of_places(*file, pairs),
        (Asked::Order { .. }, Some(Answer::Order { grants, gap, tried, order })) => {
            of_order(*grants, *gap, *tried, order)
        }
        _ => None,
    };
    note.into_iter().collect()
}

fn of_fresh(changes: &[Change]) -> Option<Note> {
    let ended = |change: &Change| match change {
        Change::Ended { transaction, how: End::Fresh } => Some(transaction.to_string()),
        _ => None,
    };
    let ended: Vec<String> = changes.iter().filter_map(ended).collect();
    if ended.is_empty() {
        return None;
    }
    plain(format!("ends {}", ended.join(", ")))
}

fn of_window(store: &Store, file: usize) -> Option<Note> {
    let window = store.windows[file];
    if window.start == window.end {
        return plain(format!("file {file} may change at every minute"));
    }
    let midnight = if window.start > window.end { ", over midnight" } else { "" };
    plain(format!("file {file} may change from minute {} up to {}{midnight}", window.start, window.end))
}

fn of_undo(changes: &[Change]) -> Option<Note> {
    let Some(Change::Undone { commit }) = changes.first() else { return None };
    Some(Note::new(format!("takes back the grant {}", commit.after("of")), &[*commit]))
}

fn of_places(file: u64, pairs: &[(u16, u16)]) -> Option<Note> {
    let stretch = |&(offset, length): &(u16, u16)| match length {
        1 => format!("byte {offset}"),
        _ => format!("bytes {offset} to {}", offset + length - 1),
    };
    let stretches: Vec<String> = pairs.iter().map(stretch).collect();
    let what = if stretches.is_empty() { "nothing".to_string() } else { stretches.join(", ") };
    plain(format!("writes cover {what} of file {file}"))
}

fn of_order(grants: u16, gap: u16, tried: u16, order: &[u8]) -> Option<Note> {
    let order: Vec<String> = order.iter().map(u8::to_string).collect();
    plain(format!(
        "{} in the order {}; at most {gap} more in another, {} tried",
        counted(grants, "grant"),
        order.join(", "),
        counted(tried, "order"),
    ))
}
