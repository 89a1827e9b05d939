//! How often each outcome, and each case of interest, was met.

use std::io::{self, Write};
use std::ops::Range;

use crate::call::{Action, Answer, Best, Call, Outcome, Refusal, Reply, Step};
use crate::plain::{Committed, Course, Item, Machine, Place, Rounds, Window, Windows};
use crate::store::{Store, Transaction, FILES, SPAN};

/// The highest number of a refusal.
const REFUSALS: usize = 27;

#[derive(Clone, Debug, Default)]
pub struct Tally {
    pub done: u64,
    pub offset: u64,
    pub given: u64,
    pub granted: u64,
    pub pairs: u64,
    pub ran: u64,
    pub best: u64,
    /// By the refusal's number; the first entry stays 0.
    pub refused: [u64; REFUSALS + 1],
    /// Grants while another transaction was open.
    granted_among_others: u64,
    /// Grants that made another transaction stale.
    granted_making_stale: u64,
    /// Grants of a transaction with a Read or GetFilePointer and a Write.
    granted_after_look: u64,
    /// Lists of places with one pair, and with more.
    one_pair: u64,
    several_pairs: u64,
    /// Reads that gave fewer bytes than wanted.
    short: u64,
    /// Those of them that gave some, up to the committed length, and up to an own write beyond it.
    short_at_committed: u64,
    short_at_own: u64,
    /// Those of them that began beyond the length.
    short_beyond: u64,
    /// Grants that raised a length.
    granted_raising: u64,
    /// Grants with a byte just before a length that they leave as it is, while another transaction has sighted that length
    /// and stays as it was.
    granted_meeting: u64,
    /// Transactions made stale by a length, and by lengths alone.
    stale_by_length: u64,
    stale_by_length_alone: u64,
    /// Grants with a byte for a file that is not always open; where its window runs over midnight; in its first minute.
    granted_in_window: u64,
    granted_over_midnight: u64,
    granted_at_start: u64,
    /// Commits refused with 21 for a file whose window runs over midnight; in the minute in which it ends; for writes
    /// without a place alone; where 12 would come next.
    closed_over_midnight: u64,
    closed_at_end: u64,
    closed_unplaced: u64,
    closed_without_room: u64,
    /// Commits of a stale transaction refused with 22.
    stale_without_minute: u64,
    /// Grants taken back; with own writes that overlap; that had raised a length; without a byte; with a byte in a file that
    /// is not always open; after another transaction's end or a refused Commit.
    undone: u64,
    undone_overlapping: u64,
    undone_raising: u64,
    undone_empty: u64,
    undone_in_window: u64,
    undone_after_end: u64,
    /// Scripts of dispatchers; granted, in a later round than the first; failed at a call, at Commit, in a later round.
    scripts: u64,
    scripts_granted: u64,
    scripts_granted_later: u64,
    scripts_failed_at_call: u64,
    scripts_failed_at_commit: u64,
    scripts_failed_later: u64,
    /// Dispatchers of three rounds or more, and those of two scripts or more with as many rounds as scripts.
    many_rounds: u64,
    most_rounds: u64,
    /// Best orders of two transactions or more; of all eight; other than the given one; with fewer grants than transactions;
    /// with all orders tried; with a gap.
    orders: u64,
    orders_of_eight: u64,
    better_than_given: u64,
    not_all_granted: u64,
    all_tried: u64,
    with_gap: u64,
}

impl Tally {
    pub fn count(&mut self, outcome: Outcome) {
        match outcome {
            Ok(Answer::Done) => self.done += 1,
            Ok(Answer::Offset(_)) => self.offset += 1,
            Ok(Answer::Given(_)) => self.given += 1,
            Ok(Answer::Granted(_)) => self.granted += 1,
            Ok(Answer::Pairs(count)) => self.count_pairs(count),
            Ok(Answer::Ran(_)) => self.ran += 1,
            Ok(Answer::Best(_)) => self.best += 1,
            Err(refusal) => self.refused[refusal.number()] += 1,
        }
    }

    fn count_pairs(&mut self, count: u16) {
        self.pairs += 1;
        self.one_pair += u64::from(count == 1);
        self.several_pairs += u64::from(count > 1);
    }

    /// A Read that was accepted.
    pub fn count_read(&mut self, committed: &Committed, course: &Course, step: &Step, given: usize) {
        let Action::Read { count, .. } = step.action else { return };
        if given == count {
            return;
        }
        let file = committed.file_of[step.descriptor];
        let length = course.length(committed, file);
        self.short += 1;
        self.short_at_committed += u64::from(given > 0 && length == committed.lengths[file]);
        self.short_at_own += u64::from(given > 0 && length > committed.lengths[file]);
        self.short_beyond += u64::from(course.offset(step.descriptor) > length);
    }

    /// A grant of these calls that made these transactions stale.
    pub fn count_grant(&mut self, machine: &Machine, served: &[(Step, Reply)], turned: u8) {
        let writes = served.iter().any(|(step, _)| matches!(step.action, Action::Write { .. }));
        let looks = |step: &Step| matches!(step.action, Action::Read { .. } | Action::GetFilePointer);
        self.granted_among_others += u64::from(machine.open.iter().any(Option::is_some));
        self.granted_making_stale += u64::from(turned != 0);
        self.granted_after_look += u64::from(writes && served.iter().any(|(step, _)| looks(step)));
    }

    /// A grant that found these lengths and made these transactions stale.
    pub fn count_lengths(&mut self, machine: &Machine, store: &Store, lengths: [u16; FILES], turned: u8) {
        let Machine { committed, open, grants, .. } = machine;
        let met = |file: usize| {
            let length = committed.lengths[file];
            length == usize::from(lengths[file])
                && length > 0
                && committed.sight(Item::Byte { file, place: length - 1 }).setter == *grants
        };
        let met: u8 = (0..FILES).filter(|&file| met(file)).map(|file| 1 << file).sum();
        let spared = |transaction: &Transaction| !transaction.stale && transaction.sighted_lengths & met != 0;
        self.granted_raising += u64::from(store.lengths != lengths);
        self.granted_meeting += u64::from(store.transactions.iter().any(spared));
        for transaction in
            open.iter().enumerate().filter(|(t, _)| turned >> t & 1 == 1).filter_map(|(_, open)| open.as_ref())
        {
            let is_length = |item: Item| matches!(item, Item::Length { .. });
            let sightings = transaction.course.sightings.iter();
            let set: Vec<_> = sightings.filter(|sighting| committed.sight(sighting.item) != **sighting).collect();
            self.stale_by_length += u64::from(set.iter().any(|sighting| is_length(sighting.item)));
            self.stale_by_length_alone += u64::from(set.iter().all(|sighting| is_length(sighting.item)));
        }
    }

    /// A grant at this minute with a byte for each of these windows' files.
    pub fn count_windows(&mut self, windows: &[Window], minute: usize) {
        let any = |case: &dyn Fn(&Window) -> bool| u64::from(windows.iter().any(case));
        self.granted_in_window += any(&|window| window.start != window.end);
        self.granted_over_midnight += any(&|window| window.start > window.end);
        self.granted_at_start += any(&|window| window.start != window.end && window.start == minute);
    }

    /// A grant was taken back whose writes had landed on these parts of the files buffer. Did a length go down, and has a
    /// transaction ended since it?
    pub fn count_undo(&mut self, windows: &Windows, landed: &[Range<usize>], lowered: bool, ended_since: bool) {
        let landed: Vec<_> = landed.iter().filter(|bytes| !bytes.is_empty()).collect();
        let overlap = |one: &Range<usize>, other: &Range<usize>| one.start < other.end && other.start < one.end;
        let overlapping = |k: usize| landed[..k].iter().any(|earlier| overlap(earlier, landed[k]));
        let in_window = |bytes: &&Range<usize>| windows[bytes.start / SPAN].start != windows[bytes.start / SPAN].end;
        self.undone += 1;
        self.undone_overlapping += u64::from((0..landed.len()).any(overlapping));
        self.undone_raising += u64::from(lowered);
        self.undone_empty += u64::from(landed.is_empty());
        self.undone_in_window += u64::from(landed.iter().any(in_window));
        self.undone_after_end += u64::from(ended_since);
    }

    /// A dispatcher that ran in these rounds.
    pub fn count_rounds(&mut self, scripts: usize, rounds: &Rounds) {
        self.scripts += scripts as u64;
        self.many_rounds += u64::from(rounds.len() > 2);
        self.most_rounds += u64::from(scripts > 1 && rounds.len() == scripts);
        for (round, calls) in rounds.iter().enumerate() {
            let later = u64::from(round > 0);
            for (call, reply) in calls {
                match (call, reply.outcome) {
                    (_, Err(Refusal::Stale)) => {}
                    (Call::Commit { .. }, Ok(_)) => {
                        self.scripts_granted += 1;
                        self.scripts_granted_later += later;
                    }
                    (Call::Commit { .. }, Err(_)) => {
                        self.scripts_failed_at_commit += 1;
                        self.scripts_failed_later += later;
                    }
                    (_, Err(_)) => {
                        self.scripts_failed_at_call += 1;
                        self.scripts_failed_later += later;
                    }
                    _ => {}
                }
            }
        }
    }

    /// A best order of the list, which in its own order has so many grants.
    pub fn count_best(&mut self, list: &[usize], orders: usize, best: Best, given: usize) {
        if list.len() < 2 {
            return;
        }
        self.orders += 1;
        self.orders_of_eight += u64::from(list.len() == 8);
        self.better_than_given += u64::from(usize::from(best.grants) > given);
        self.not_all_granted += u64::from(usize::from(best.grants) < list.len());
        self.all_tried += u64::from(usize::from(best.tried) == orders);
        self.with_gap += u64::from(best.gap > 0);
    }

    /// A Commit that was refused, and left its transaction open if it was.
    pub fn count_kept_open(&mut self, machine: &Machine, t: usize, minute: usize, refusal: Refusal) {
        let Some(Some(transaction)) = machine.open.get(t) else { return };
        if refusal == Refusal::NoSuchMinute {
            self.stale_without_minute += u64::from(machine.is_stale(t));
        }
        if refusal != Refusal::FileClosed {
            return;
        }
        let Machine { committed, windows, .. } = machine;
        let course = &transaction.course;
        let window = |d: usize| windows[committed.file_of[d]];
        let with_bytes = course.writes.iter().filter(|write| !write.data.is_empty());
        let closed: Vec<_> = with_bytes.filter(|write| !window(write.descriptor).is_open(minute)).collect();
        let over_midnight = |d: usize| window(d).start > window(d).end;
        self.closed_over_midnight += u64::from(closed.iter().any(|write| over_midnight(write.descriptor)));
        self.closed_at_end += u64::from(closed.iter().any(|write| window(write.descriptor).end == minute));
        self.closed_unplaced += u64::from(closed.iter().all(|write| matches!(write.place, Place::After(_))));
        self.closed_without_room += u64::from(course.check_placing(committed).is_err());
    }

    pub fn write(&self, out: &mut impl Write) -> io::Result<()> {
        writeln!(out, "done {}", self.done)?;
        writeln!(out, "offset {}", self.offset)?;
        writeln!(out, "given {}", self.given)?;
        writeln!(out, "granted {}", self.granted)?;
        writeln!(out, "pairs {}", self.pairs)?;
        writeln!(out, "ran {}", self.ran)?;
        writeln!(out, "best {}", self.best)?;
        for (number, count) in self.refused.iter().enumerate().skip(1) {
            writeln!(out, "refused {number}: {count}")?;
        }
        writeln!(out, "granted with others open {}", self.granted_among_others)?;
        writeln!(out, "granted, making others stale {}", self.granted_making_stale)?;
        writeln!(out, "granted after a look and a write {}", self.granted_after_look)?;
        writeln!(out, "lists of one pair {}", self.one_pair)?;
        writeln!(out, "lists of several pairs {}", self.several_pairs)?;
        writeln!(out, "short reads {}", self.short)?;
        writeln!(out, "short reads with bytes, up to the committed length {}", self.short_at_committed)?;
        writeln!(out, "short reads with bytes, up to an own write {}", self.short_at_own)?;
        writeln!(out, "short reads from beyond the length {}", self.short_beyond)?;
        writeln!(out, "granted, raising a length {}", self.granted_raising)?;
        writeln!(out, "granted up to a length that stays, sighted by others {}", self.granted_meeting)?;
        writeln!(out, "made stale by a length {}", self.stale_by_length)?;
        writeln!(out, "made stale by lengths alone {}", self.stale_by_length_alone)?;
        writeln!(out, "granted inside a window {}", self.granted_in_window)?;
        writeln!(out, "granted inside a window over midnight {}", self.granted_over_midnight)?;
        writeln!(out, "granted in a window's first minute {}", self.granted_at_start)?;
        writeln!(out, "closed, by a window over midnight {}", self.closed_over_midnight)?;
        writeln!(out, "closed in the minute in which a window ends {}", self.closed_at_end)?;
        writeln!(out, "closed for writes without a place alone {}", self.closed_unplaced)?;
        writeln!(out, "closed, and without room too {}", self.closed_without_room)?;
        writeln!(out, "stale, with a minute above 1,439 {}", self.stale_without_minute)?;
        writeln!(out, "taken back {}", self.undone)?;
        writeln!(out, "taken back, own writes overlap {}", self.undone_overlapping)?;
        writeln!(out, "taken back, a length goes down {}", self.undone_raising)?;
        writeln!(out, "taken back, without a byte {}", self.undone_empty)?;
        writeln!(out, "taken back in a file that isn't always open {}", self.undone_in_window)?;
        writeln!(out, "taken back after another end or a refused commit {}", self.undone_after_end)?;
        writeln!(out, "scripts {}", self.scripts)?;
        writeln!(out, "scripts granted {}", self.scripts_granted)?;
        writeln!(out, "scripts granted after the first round {}", self.scripts_granted_later)?;
        writeln!(out, "scripts failed at a call {}", self.scripts_failed_at_call)?;
        writeln!(out, "scripts failed at their commit {}", self.scripts_failed_at_commit)?;
        writeln!(out, "scripts failed after the first round {}", self.scripts_failed_later)?;
        writeln!(out, "dispatchers of three rounds or more {}", self.many_rounds)?;
        writeln!(out, "dispatchers of as many rounds as scripts, at least two {}", self.most_rounds)?;
        writeln!(out, "best orders of two or more {}", self.orders)?;
        writeln!(out, "best orders of eight {}", self.orders_of_eight)?;
        writeln!(out, "best orders with more grants than the given one {}", self.better_than_given)?;
        writeln!(out, "best orders with fewer grants than transactions {}", self.not_all_granted)?;
        writeln!(out, "best orders of all {}", self.all_tried)?;
        writeln!(out, "best orders with a gap {}", self.with_gap)
    }
}
