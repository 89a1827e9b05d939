//! Which line did what: a table for each transaction number, and the lines that set the committed offsets and the
//! windows.

use std::rc::Rc;

use twin::state::State;
use twin::store::{Store, DESCRIPTORS, FILES, SPAN, TRANSACTIONS};

use crate::account::{Change, End, MadeStale, Stale};
use crate::citation::Citation;
use crate::settings::{Settings, Touched};
use crate::sightings::{Passed, Sightings};
use crate::things::{self, Thing};

/// The lines of a transaction number.
#[derive(Default)]
pub struct Course {
    /// Its Begin, while it is open.
    pub begun: Option<Citation>,
    /// How and where the one before it ended.
    pub ended: Option<(Citation, End)>,
    pub stale: Option<Stale>,
    pub sightings: Sightings,
    pub touched: Touched,
    /// Its accepted Writes, in the order of the store's write records.
    pub writes: Vec<Citation>,
}

/// The lines that set the committed offsets; none where Fresh did.
type OffsetLines = [Option<Citation>; DESCRIPTORS];

/// What an undo would find.
#[derive(Clone, Copy, Debug, PartialEq, Eq)]
pub enum LastGrant {
    /// None since the start.
    Never,
    /// None since a Fresh or an undo.
    NoneSince(Citation),
    Commit(Citation),
}

pub struct History {
    pub courses: [Course; TRANSACTIONS],
    pub offsets: OffsetLines,
    /// As the last grant found them.
    offsets_found: OffsetLines,
    pub windows: [Option<Citation>; FILES],
    pub last_grant: LastGrant,
    /// Did the input start from a saved block?
    pub from_block: bool,
}

impl Course {
    fn begin(&mut self, line: Citation) {
        self.begun = Some(line);
        self.stale = None;
        self.sightings.clear();
        self.touched = [None; DESCRIPTORS];
        self.writes.clear();
    }

    fn end(&mut self, line: Citation, how: End) {
        self.begun = None;
        self.stale = None;
        self.ended = Some((line, how));
    }
}

impl History {
    /// Of a fresh store.
    pub fn new() -> History {
        History {
            courses: Default::default(),
            offsets: [None; DESCRIPTORS],
            offsets_found: [None; DESCRIPTORS],
            windows: [None; FILES],
            last_grant: LastGrant::Never,
            from_block: false,
        }
    }

    /// Of a store that was in use: what it holds came about before line 1.
    pub fn of_block(state: &State) -> History {
        let store = &state.store;
        let mut history = History {
            offsets: [Some(Citation::BEFORE); DESCRIPTORS],
            offsets_found: [Some(Citation::BEFORE); DESCRIPTORS],
            windows: [Some(Citation::BEFORE); FILES],
            last_grant: if store.undo.valid { LastGrant::Commit(Citation::BEFORE) } else { LastGrant::Never },
            from_block: true,
            ..History::new()
        };
        for t in (0..TRANSACTIONS).filter(|&t| store.transactions[t].begun) {
            history.open_in_block(state, t);
        }
        history
    }

    fn open_in_block(&mut self, state: &State, t: usize) {
        let transaction = &state.store.transactions[t];
        let course = &mut self.courses[t];
        course.begun = Some(Citation::BEFORE);
        course.stale = transaction.stale.then(|| Stale { since: Citation::BEFORE, reasons: Rc::default() });
        course.touched = std::array::from_fn(|d| (transaction.acted >> d & 1 == 1).then_some(Citation::BEFORE));
        course.writes = vec![Citation::BEFORE; transaction.log.records.len()];
        for file in 0..FILES {
            self.sight(state, t, Citation::BEFORE, SPAN * file..SPAN * (file + 1));
        }
    }

    pub fn fresh(&mut self, line: Citation) -> Vec<Change> {
        let open = (0..TRANSACTIONS).filter(|&t| self.courses[t].begun.is_some()).collect::<Vec<_>>();
        for &t in &open {
            self.courses[t].end(line, End::Fresh);
        }
        self.offsets = [None; DESCRIPTORS];
        self.windows = [None; FILES];
        self.last_grant = LastGrant::NoneSince(line);
        open.into_iter().map(|transaction| Change::Ended { transaction, how: End::Fresh }).collect()
    }

    pub fn begin(&mut self, t: usize, line: Citation) -> Change {
        self.courses[t].begin(line);
        Change::Began { transaction: t }
    }

    pub fn end(&mut self, t: usize, line: Citation, how: End) -> Change {
        self.courses[t].end(line, how);
        Change::Ended { transaction: t, how }
    }

    /// An accepted Seek, Read or Write through a descriptor.
    pub fn touch(&mut self, t: usize, d: usize, line: Citation) {
        self.courses[t].touched[d] = Some(line);
    }

    pub fn write(&mut self, t: usize, line: Citation) {
        self.courses[t].writes.push(line);
    }

    /// After an accepted GetFilePointer or Read: what it newly sighted.
    pub fn sight(&mut self, state: &State, t: usize, line: Citation, passed: Passed) -> Vec<Thing> {
        let marks = &state.buffers.marks[SPAN * t..SPAN * (t + 1)];
        self.courses[t].sightings.take(line, &state.store.transactions[t], marks, passed)
    }

    /// After a grant of transaction t that made those of the octet stale. Its course has still to be ended.
    pub fn grant(&mut self, store: &Store, t: usize, line: Citation, octet: u8) -> Vec<MadeStale> {
        self.offsets_found = self.offsets;
        for (descriptor, touched) in self.courses[t].touched.iter().enumerate() {
            self.offsets[descriptor] = touched.or(self.offsets[descriptor]);
        }
        self.last_grant = LastGrant::Commit(line);
        let made_stale = self.made_stale(store, t, octet);
        for MadeStale { transaction, reasons } in &made_stale {
            self.courses[*transaction].stale = Some(Stale { since: line, reasons: reasons.clone() });
        }
        made_stale
    }

    fn made_stale(&self, store: &Store, t: usize, octet: u8) -> Vec<MadeStale> {
        if octet == 0 {
            return Vec::new();
        }
        let Course { touched, writes, .. } = &self.courses[t];
        let settings = Settings::of_grant(store, touched, writes);
        let transactions = (0..TRANSACTIONS).filter(|u| octet >> u & 1 == 1);
        let made = |transaction: usize| {
            let reasons = things::reasons(&self.courses[transaction].sightings, &settings);
            MadeStale { transaction, reasons: Rc::new(reasons) }
        };
        transactions.map(made).collect()
    }

    pub fn undo(&mut self, line: Citation) -> Change {
        self.offsets = self.offsets_found;
        let commit = match self.last_grant {
            LastGrant::Commit(commit) => commit,
            LastGrant::Never | LastGrant::NoneSince(_) => unreachable!("a grant was taken back"),
        };
        self.last_grant = LastGrant::NoneSince(line);
        Change::Undone { commit }
    }

    pub fn set_window(&mut self, file: usize, line: Citation) {
        self.windows[file] = Some(line);
    }
}

impl Default for History {
    fn default() -> Self {
        History::new()
    }
}
