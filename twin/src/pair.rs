//! Store and plain machine side by side. Every call goes to both, and the two must agree; a disagreement is a panic.

use crate::call::{Action, Answer, Best, Call, Dispatch, Ran, Refusal, Reply, Step};
use crate::forge::{forge, garbage_in_closed, garbage_in_record, garbage_in_undo};
use crate::generator::Damage;
use crate::plain::{self, nth_order, Committed, Course, Item, Machine, Rounds, FRESH_WINDOWS};
use crate::split::Split;
use crate::state::{untouched_buffer, State};
use crate::store::{
    self, Log, Standing, Transaction, Undo, Window, WriteRecord, BUFFER, DESCRIPTORS, FILES, SPAN, TRANSACTIONS,
};
use crate::tally::Tally;

/// An accepted call of a transaction, and what the store replied.
type Served = (Step, Reply);

/// A granted transaction: its accepted calls, and the minute of its Commit.
struct Grant {
    served: Vec<Served>,
    minute: usize,
}

pub struct Pair {
    pub state: State,
    pub machine: Machine,
    pub tally: Tally,
    /// The store with every Write in two parts.
    pub split: Split,
    /// The log buffer as it has to be: a Write's bytes put directly after the data used, and nothing else.
    expected_logs: Vec<u8>,
    /// The undo buffer as it has to be, and the records held of the last grant.
    expected_undo: Vec<u8>,
    expected_held: Vec<WriteRecord>,
    /// The file numbers of the last Fresh.
    fresh_files: Vec<u8>,
    /// The accepted calls of each open transaction.
    served: [Vec<Served>; TRANSACTIONS],
    /// The transactions granted since the last Fresh and not taken back, in the order of their grants.
    granted: Vec<Grant>,
    /// Has a transaction ended since the last grant, or a Commit been refused?
    ended_since: bool,
}

impl Pair {
    /// Both on the state of a Fresh in which descriptor d belongs to file d mod 8. All buffers are 0.
    pub fn new() -> Pair {
        let files: Vec<u8> = (0..16).map(|d| d % 8).collect();
        let mut state = State::new();
        let reply = state.apply(&Call::Fresh { files: files.clone() });
        assert_eq!(reply.outcome, Ok(Answer::Done));
        Pair {
            machine: Machine::fresh(&files).expect("file numbers up to 7"),
            tally: Tally::default(),
            split: Split::new(&state),
            state,
            expected_logs: vec![0; BUFFER],
            expected_undo: vec![0; SPAN],
            expected_held: Vec::new(),
            fresh_files: files,
            served: Default::default(),
            granted: Vec::new(),
            ended_since: false,
        }
    }

    /// Makes the call on both sides, or on the store alone where buffers or record are damaged or Fresh's list has a
    /// wrong length.
    pub fn call(&mut self, call: &Call, damage: Option<&Damage>) -> Reply {
        let wrong_list = matches!(call, Call::Fresh { files } if files.len() != DESCRIPTORS);
        let reply = match damage {
            Some(damage) if damage.is_any() => self.call_damaged(call, damage),
            _ if wrong_list => self.call_refused(call, Refusal::BufferLength),
            _ => self.call_both(call),
        };
        self.tally.count(reply.outcome);
        reply
    }

    /// Makes the call on a copy of the state, with a forged record or a buffer lent only in part.
    fn call_damaged(&mut self, call: &Call, damage: &Damage) -> Reply {
        let mut damaged = self.state.clone();
        if damage.forgery > 0 {
            forge(&mut damaged.store, damage);
        }
        let before = damaged.clone();
        let reply = damaged.apply_short(call, damage.short, damage.short_length as usize);
        let refusal = if damage.short > 0 { Refusal::BufferLength } else { Refusal::RecordRange };
        check_refused(call, &reply, refusal);
        assert!(damaged == before, "{call:?}: refusal {} changed something", refusal.number());
        reply
    }

    fn call_refused(&mut self, call: &Call, refusal: Refusal) -> Reply {
        let before = self.state.clone();
        let reply = self.state.apply(call);
        check_refused(call, &reply, refusal);
        assert!(self.state == before, "{call:?}: a refusal changed something");
        reply
    }

    fn call_both(&mut self, call: &Call) -> Reply {
        if matches!(call, Call::Fresh { .. }) {
            self.check_at_rest();
        }
        if let Call::Dispatch(dispatch) = call {
            return self.call_dispatch(call, dispatch);
        }
        let ending = self.ending(call);
        let expected = self.machine.take(call);
        if let (Some(course), Ok(_)) = (ending, expected.outcome) {
            self.expect_held(&course);
        }
        match expected.outcome {
            Ok(Answer::Pairs(_)) => self.call_looking(call, &expected),
            Ok(Answer::Best(best)) => {
                self.call_looking(call, &expected);
                self.check_best(call, best);
            }
            Ok(answer) => self.call_accepted(call, &expected, answer),
            Err(Refusal::Stale) => self.call_stale(call),
            Err(refusal) => {
                self.call_refused(call, refusal);
                if let Call::Commit { transaction, minute } = *call {
                    self.ended_since = true;
                    self.tally.count_kept_open(&self.machine, transaction, minute, refusal);
                }
            }
        }
        if matches!(expected.outcome, Ok(_) | Err(Refusal::Stale)) {
            self.split.follow(call, &expected, &self.state);
        }
        expected
    }

    /// A dispatcher leaves what the single calls leave that the machine makes for it. They go to both sides one by one.
    fn call_dispatch(&mut self, call: &Call, dispatch: &Dispatch) -> Reply {
        let mut machine = self.machine.clone();
        let (expected, rounds) = machine.dispatch(dispatch);
        let ran = match expected.outcome {
            Ok(Answer::Ran(ran)) => ran,
            Err(refusal) => return self.call_refused(call, refusal),
            Ok(other) => panic!("{call:?}: {other:?}"),
        };
        let mut dispatched = self.state.clone();
        assert_eq!(dispatched.apply(call), expected, "{call:?}");
        let tally = self.tally.clone();
        let found = self.machine.clone();
        for (single, reply) in rounds.iter().flatten() {
            assert_eq!(self.call_both(single), *reply, "{single:?} of {call:?}");
        }
        assert!(dispatched == self.state, "{call:?} leaves something else than its single calls");
        self.tally = tally;
        self.tally.count_rounds(ran.scripts, &rounds);
        check_rounds(dispatch, ran, &rounds);
        self.check_granted_scripts(dispatch, found, &rounds);
        expected
    }

    /// What is committed after a dispatcher is what the granted scripts leave alone, in the order of their grants, on what it
    /// found.
    fn check_granted_scripts(&self, dispatch: &Dispatch, found: Machine, rounds: &Rounds) {
        let Machine { mut committed, mut grants, .. } = found;
        for (call, reply) in rounds.iter().flatten() {
            let (Call::Commit { transaction, .. }, Ok(_)) = (call, reply.outcome) else { continue };
            let step = |place| dispatch.step(*transaction, place, &dispatch.buffer);
            let steps: Vec<_> = (0..).map_while(step).collect();
            let (course, replies) = Course::run_alone(&committed, &steps);
            assert_eq!(replies.len(), steps.len(), "script {transaction} alone is refused");
            grants += 1;
            committed.grant(&course, grants);
        }
        assert!(committed == self.machine.committed, "{dispatch:?}: the granted scripts alone leave something else");
    }

    /// The answer is an order of the list; Commit gives so many grants in it, on copies of both sides; no other order that is
    /// tried here has more than the gap allows (all of them for up to four transactions).
    fn check_best(&mut self, call: &Call, best: Best) {
        let Call::Best { list, minute, budget } = call else { return };
        let orders: usize = (1..=list.len()).product();
        assert_eq!(usize::from(best.tried), orders.min(*budget), "{call:?}");
        let mut machine = self.machine.clone();
        let mut state = self.state.clone();
        let mut left = list.clone();
        let mut grants = 0;
        for transaction in best.order().iter().map(|&t| usize::from(t)) {
            let position = left.iter().position(|&listed| listed == transaction);
            left.remove(position.expect("a transaction of the list"));
            let commit = Call::Commit { transaction, minute: *minute };
            let reply = state.apply(&commit);
            assert_eq!(reply, machine.take(&commit), "{commit:?} of {call:?}");
            grants += u16::from(reply.outcome.is_ok());
        }
        assert_eq!((left.len(), grants), (0, best.grants), "{call:?}");
        let stride = orders.div_ceil(24);
        let counts = (0..orders).step_by(stride).map(|n| self.machine.grants_in(&nth_order(list, n), *minute));
        let most = counts.max().unwrap_or_default();
        assert!(most <= usize::from(best.grants + best.gap), "{call:?}: {most} grants in another order");
        self.tally.count_best(list, orders, best, self.machine.grants_in(list, *minute));
    }

    /// The transaction that a Commit may end by a grant.
    fn ending(&self, call: &Call) -> Option<Course> {
        let Call::Commit { transaction, .. } = call else { return None };
        let open = self.machine.open.get(*transaction)?.as_ref()?;
        Some(open.course.clone())
    }

    /// What has to be held of a grant that the machine has just made.
    fn expect_held(&mut self, course: &Course) {
        let found = &self.machine.found.as_ref().expect("a grant").committed;
        let old = old_bytes(found, course);
        self.expected_undo[..old.len()].copy_from_slice(&old);
        let placed =
            |write| WriteRecord { place: store::Place::At(found.landing(write) as u16), ..store_record(write) };
        self.expected_held = course.writes.iter().map(placed).collect();
    }

    /// An accepted call that changes nothing.
    fn call_looking(&mut self, call: &Call, expected: &Reply) {
        let before = self.state.clone();
        assert_eq!(self.state.apply(call), *expected, "{call:?}");
        assert!(self.state == before, "{call:?} changed something");
        self.try_on_garbage(call, expected, self.with_garbage(call));
    }

    fn call_accepted(&mut self, call: &Call, expected: &Reply, answer: Answer) {
        self.expect_log_bytes(call);
        let with_window = self.with_window(call);
        let lengths = self.state.store.lengths;
        let with_garbage = self.with_garbage(call);
        let reply = self.state.apply(call);
        assert_eq!(reply, *expected, "{call:?}");
        self.try_on_garbage(call, expected, with_garbage);
        if let Some(with_window) = with_window {
            assert!(with_window == self.state, "{call:?} changed something else");
        }
        self.check_moment(call, expected);
        self.check_record();
        match (call, answer) {
            (Call::Step(t, step), Answer::Given(given)) => {
                let course = &self.machine.open[*t].as_ref().expect("it is open").course;
                self.check_latest_writes(*t, step.descriptor, usize::from(given));
                self.check_sighted_lengths(*t);
                self.tally.count_read(&self.machine.committed, course, step, usize::from(given));
            }
            (Call::Commit { transaction, minute }, Answer::Granted(octet)) => {
                self.check_hours(*minute);
                self.tally.count_grant(&self.machine, &self.served[*transaction], octet);
                self.tally.count_lengths(&self.machine, &self.state.store, lengths, octet);
            }
            (Call::Undo, _) => {
                let store = &self.state.store;
                let landed: Vec<_> = self.expected_held.iter().map(|record| store.landing(record)).collect();
                let lowered = store.lengths != lengths;
                self.tally.count_undo(&self.machine.windows, &landed, lowered, self.ended_since);
            }
            _ => {}
        }
        self.keep_history(call, reply);
    }

    /// What a call that looks gave is what its transaction's accepted calls up to it give, run alone on what is committed now.
    fn check_moment(&self, call: &Call, given: &Reply) {
        if let Call::Step(t, Step { action: Action::Read { .. } | Action::GetFilePointer, .. }) = call {
            let calls = &self.machine.open[*t].as_ref().expect("it is open").calls;
            let (_, replies) = Course::run_alone(&self.machine.committed, calls);
            assert_eq!(replies.len(), calls.len(), "{call:?}: the run alone stops before it");
            assert_eq!(replies.last(), Some(given), "{call:?} gave something else than alone");
        }
    }

    /// The state with garbage where no call looks: for a Begin and a Fresh, some that they have to clear away, and while
    /// nothing is held of a grant, some instead of it.
    fn with_garbage(&self, call: &Call) -> Option<State> {
        let held = self.state.store.undo.valid;
        if held && !matches!(call, Call::Begin(_) | Call::Fresh { .. }) {
            return None;
        }
        let mut state = self.state.clone();
        match call {
            Call::Begin(t) => garbage_in_closed(&mut state.store, &mut state.buffers.marks, *t),
            Call::Fresh { .. } => garbage_in_record(&mut state.store),
            _ => {}
        }
        if !held {
            garbage_in_undo(&mut state.store);
        }
        Some(state)
    }

    /// Makes the call on a state with garbage: the same reply, and the state that the store has after it.
    fn try_on_garbage(&self, call: &Call, expected: &Reply, with_garbage: Option<State>) {
        let Some(mut state) = with_garbage else { return };
        assert_eq!(state.apply(call), *expected, "{call:?} after garbage");
        if !state.store.undo.valid {
            state.store.undo = Undo::NONE;
        }
        assert!(state == self.state, "{call:?} leaves some garbage");
    }

    /// For the setting of a window: the state with this window, and otherwise as it is.
    fn with_window(&self, call: &Call) -> Option<State> {
        let &Call::Window { file, start, end } = call else { return None };
        let mut state = self.state.clone();
        state.store.windows[file] = Window { start: start as u16, end: end as u16 };
        Some(state)
    }

    /// A Commit refused with 13 leaves what an Abort leaves.
    fn call_stale(&mut self, call: &Call) {
        let &Call::Commit { transaction: t, .. } = call else {
            panic!("{call:?}: 13 from a call that is no Commit");
        };
        let mut aborted = self.state.clone();
        assert_eq!(aborted.apply(&Call::Abort(t)).outcome, Ok(Answer::Done));
        let reply = self.state.apply(call);
        check_refused(call, &reply, Refusal::Stale);
        assert!(self.state == aborted, "{call:?}: 13 left something else than Abort");
        self.served[t].clear();
        self.ended_since = true;
        self.check_record();
    }

    fn expect_log_bytes(&mut self, call: &Call) {
        if let Call::Step(t, Step { action: Action::Write { data }, .. }) = call {
            let start = SPAN * t + usize::from(self.state.store.transactions[*t].log.bytes);
            self.expected_logs[start..start + data.len()].copy_from_slice(data);
        }
    }

    fn keep_history(&mut self, call: &Call, reply: Reply) {
        match call {
            Call::Fresh { files } => {
                self.fresh_files = files.clone();
                self.served = Default::default();
                self.granted.clear();
            }
            Call::Begin(t) => self.served[*t].clear(),
            Call::Abort(t) => {
                self.served[*t].clear();
                self.ended_since = true;
            }
            Call::Step(t, step) => self.served[*t].push((step.clone(), reply)),
            Call::Commit { transaction, minute } => {
                let served = std::mem::take(&mut self.served[*transaction]);
                self.granted.push(Grant { served, minute: *minute });
                self.ended_since = false;
            }
            Call::Undo => {
                self.granted.pop();
            }
            Call::Places { .. } | Call::Window { .. } | Call::Dispatch(_) | Call::Best { .. } => {}
        }
    }

    // What must hold after every accepted call.

    /// Files, offsets, lengths, windows, standings, what was acted on, write records, log bytes and what is held of the last
    /// grant are those of the machine.
    fn check_record(&self) {
        let State { store, buffers } = &self.state;
        let committed = &self.machine.committed;
        assert!(buffers.files.chunks(SPAN).eq(committed.files.iter().map(|file| &file[..])), "committed files");
        for d in 0..DESCRIPTORS {
            assert_eq!(usize::from(store.files[d]), committed.file_of[d], "file of descriptor {d}");
            assert_eq!(usize::from(store.offsets[d]), committed.offsets[d], "committed offset {d}");
        }
        assert_eq!(store.lengths.map(usize::from), committed.lengths, "committed lengths");
        let windows = store.windows.map(|Window { start, end }| plain::Window { start: start.into(), end: end.into() });
        assert_eq!(windows, self.machine.windows, "windows");
        assert!(buffers.logs == self.expected_logs, "log bytes");
        self.check_held();
        for t in 0..TRANSACTIONS {
            match &self.machine.open[t] {
                None => assert_eq!(store.transactions[t], Transaction::ENDED, "ended transaction {t}"),
                Some(transaction) => self.check_open(t, &transaction.course),
            }
        }
    }

    /// Held is what the last grant found, as long as the machine keeps it.
    fn check_held(&self) {
        let State { store, buffers } = &self.state;
        let held = self.machine.found.as_ref().map_or(Undo::NONE, |found| {
            let records = self.expected_held.clone();
            let bytes = records.iter().map(|record| record.length).sum();
            Undo {
                valid: true,
                log: Log { records, bytes },
                offsets: found.committed.offsets.map(|offset| offset as u16),
                lengths: found.committed.lengths.map(|length| length as u16),
            }
        });
        assert_eq!(store.undo, held, "held of the last grant");
        assert!(buffers.undo == self.expected_undo, "undo buffer");
    }

    fn check_open(&self, t: usize, course: &Course) {
        let transaction = &self.state.store.transactions[t];
        assert!(transaction.begun, "transaction {t} is open");
        assert_eq!(transaction.standings, course.standings.map(store_standing), "standings of transaction {t}");
        let acted = std::array::from_fn(|d| transaction.acted >> d & 1 == 1);
        assert_eq!(course.acted, acted, "Seek, Read or Write in transaction {t}");
        let records: Vec<_> = course.writes.iter().map(store_record).collect();
        assert_eq!(transaction.log.records, records, "write records of transaction {t}");
        let data = course.writes.iter().flat_map(|write| &write.data);
        let logged = &self.state.buffers.logs[SPAN * t..][..usize::from(transaction.log.bytes)];
        assert!(logged.iter().eq(data), "data bytes of transaction {t}");
    }

    /// The last grant has put no byte into a file that is closed at its minute.
    fn check_hours(&mut self, minute: usize) {
        let Machine { committed, windows, grants, .. } = &self.machine;
        let changed: Vec<_> = (0..FILES).filter(|&file| committed.has_byte_of(file, *grants)).collect();
        for &file in &changed {
            assert!(windows[file].is_open(minute), "minute {minute}: a byte for file {file}, {:?}", windows[file]);
        }
        let changed: Vec<_> = changed.into_iter().map(|file| windows[file]).collect();
        self.tally.count_windows(&changed, minute);
    }

    /// At each place just read the store finds the latest write over it, and has looked at that one and all newer ones,
    /// or at all where there is none.
    fn check_latest_writes(&self, t: usize, d: usize, given: usize) {
        let committed = &self.machine.committed;
        let course = &self.machine.open[t].as_ref().expect("a Read was accepted").course;
        let file = committed.file_of[d];
        let end = course.offset(d);
        for place in end - given..end {
            let latest = course.latest_write(committed, file, place);
            let run = self.state.store.latest_write(t, file, place, end);
            assert_eq!(run.record, latest, "transaction {t}, latest write over place {place} of file {file}");
            let looked = course.writes.len() - latest.unwrap_or(0);
            assert_eq!(run.looked, looked, "transaction {t}, records looked at for place {place} of file {file}");
        }
    }

    /// The lengths that t has sighted are those in its first list, and each file has one length to t on both sides.
    fn check_sighted_lengths(&self, t: usize) {
        let store = &self.state.store;
        let committed = &self.machine.committed;
        let course = &self.machine.open[t].as_ref().expect("it is open").course;
        for file in 0..FILES {
            let sighted = course.sightings.iter().any(|sighting| sighting.item == Item::Length { file });
            let bit = store.transactions[t].sighted_lengths >> file & 1 == 1;
            assert_eq!(bit, sighted, "transaction {t}, sighted length of file {file}");
            assert_eq!(
                usize::from(store.length(t, file)),
                course.length(committed, file),
                "transaction {t}, file {file}"
            );
        }
    }

    // What is looked at now and then.

    /// The marks of t are the bytes in t's first list, its Known descriptors the offsets in it, its sighted lengths the
    /// lengths in it, and it has the stale flag exactly when its two lists differ.
    pub fn check_sightings(&self) {
        let mut marks = vec![0; BUFFER];
        for (t, transaction) in self.machine.open.iter().enumerate() {
            let Some(transaction) = transaction else { continue };
            let record = &self.state.store.transactions[t];
            let mut known = [false; DESCRIPTORS];
            for sighting in &transaction.course.sightings {
                match sighting.item {
                    Item::Offset { descriptor } => known[descriptor] = true,
                    Item::Byte { file, place } => {
                        let byte = SPAN * file + place;
                        marks[SPAN * t + byte / 8] |= 1 << (byte % 8);
                    }
                    Item::Length { .. } => {}
                }
            }
            self.check_sighted_lengths(t);
            let is_known = record.standings.map(|standing| matches!(standing, Standing::Known(_)));
            assert_eq!(is_known, known, "transaction {t}, sighted offsets");
            assert_eq!(record.stale, self.machine.is_stale(t), "staleness of transaction {t}");
        }
        assert!(marks == self.state.buffers.marks, "marks");
    }

    /// From the committed length of a file on, every byte of it is 0.
    pub fn check_beyond_lengths(&self) {
        for (file, bytes) in self.state.buffers.files.chunks(SPAN).enumerate() {
            let length = usize::from(self.state.store.lengths[file]);
            assert!(bytes[length..].iter().all(|&byte| byte == 0), "file {file} beyond its length");
        }
    }

    /// Runs the granted transactions that are not taken back one after another from the state of Fresh, with Fresh's windows:
    /// the store has given the same replies and has the same files, offsets and lengths.
    pub fn check_serial_order(&self) {
        let mut committed = Committed::fresh(&self.fresh_files).expect("an accepted Fresh");
        for (Grant { served, minute }, number) in self.granted.iter().zip(1..) {
            let (course, replies) = Course::run_alone(&committed, served.iter().map(|(step, _)| step));
            let same = replies.iter().eq(served.iter().map(|(_, reply)| reply));
            assert!(same, "serial order: transaction of grant {number} replies otherwise");
            let granted = course.check_commit(&committed, &FRESH_WINDOWS, *minute);
            assert_eq!(granted, Ok(()), "serial order: Commit of grant {number}");
            committed.grant(&course, number);
        }
        assert_eq!(self.granted.len() as u64, self.machine.grants, "count of grants");
        assert!(committed == self.machine.committed, "serial order: the machine's files, offsets, lengths and setters");
        assert!(committed.files.concat() == self.state.buffers.files, "serial order: the store's files");
        assert_eq!(committed.offsets, self.state.store.offsets.map(usize::from), "serial order: the store's offsets");
        assert_eq!(committed.lengths, self.state.store.lengths.map(usize::from), "serial order: the store's lengths");
    }

    pub fn check_at_rest(&self) {
        self.check_sightings();
        self.check_beyond_lengths();
        self.check_serial_order();
    }
}

impl Default for Pair {
    fn default() -> Self {
        Pair::new()
    }
}

/// The bytes on which the writes of a course land, one write after another, on the files that its grant finds: those of the
/// latest write before it over the place, otherwise the file's.
fn old_bytes(found: &Committed, course: &Course) -> Vec<u8> {
    let mut old = Vec::new();
    for (k, write) in course.writes.iter().enumerate() {
        let file = found.file_of[write.descriptor];
        let start = found.landing(write);
        for place in start..start + write.data.len() {
            let byte_of = |earlier: &plain::Write| {
                let same_file = found.file_of[earlier.descriptor] == file;
                let i = place.checked_sub(found.landing(earlier)).filter(|_| same_file)?;
                earlier.data.get(i).copied()
            };
            let earlier = course.writes[..k].iter().rev().find_map(byte_of);
            old.push(earlier.unwrap_or(found.files[file][place]));
        }
    }
    old
}

/// As many rounds as scripts are enough, and the Commits that go with them; the answer names how each script ended.
fn check_rounds(dispatch: &Dispatch, ran: Ran, rounds: &Rounds) {
    let n = dispatch.scripts.len();
    assert!(rounds.len() <= n, "{} rounds of {n} scripts", rounds.len());
    assert!(usize::from(ran.commits) <= n * (n + 1) / 2, "{} commits of {n} scripts", ran.commits);
    for k in 0..n {
        let of_script = |call: &Call| match call {
            Call::Step(t, _) => *t == k,
            Call::Commit { transaction, .. } => *transaction == k,
            _ => false,
        };
        let last = rounds.iter().flatten().rfind(|(call, _)| of_script(call));
        let (_, last) = last.expect("it was committed or refused");
        assert_eq!(ran.ended[k], last.outcome.err(), "script {k} of {dispatch:?}");
    }
}

fn check_refused(call: &Call, reply: &Reply, refusal: Refusal) {
    assert_eq!(reply.outcome, Err(refusal), "{call:?}");
    assert!(reply.buffer == untouched_buffer(call), "{call:?}: a refusal changed the buffer lent for the answer");
}

/// A standing of the machine in the record's form.
fn store_standing(standing: plain::Standing) -> Standing {
    match standing {
        plain::Standing::Untouched => Standing::Untouched,
        plain::Standing::Placed { offset } => Standing::Placed(offset as u16),
        plain::Standing::Deferred { advance } => Standing::Deferred(advance as u16),
        plain::Standing::Moved { advance, offset } => {
            Standing::Moved { advance: advance as u16, offset: offset as u16 }
        }
        plain::Standing::Known { offset } => Standing::Known(offset as u16),
    }
}

/// A write of the machine as the record holds it.
fn store_record(write: &plain::Write) -> WriteRecord {
    let place = match write.place {
        plain::Place::At(place) => store::Place::At(place as u16),
        plain::Place::After(advance) => store::Place::After(advance as u16),
    };
    WriteRecord { descriptor: write.descriptor as u8, place, length: write.data.len() as u16 }
}
