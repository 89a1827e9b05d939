//! Calls, answers and refusals: what store and plain machine have in common.

/// What a transaction does through one descriptor.
#[derive(Clone, Debug, PartialEq, Eq)]
pub enum Action {
    Seek {
        to: usize,
    },
    Write {
        data: Vec<u8>,
    },
    GetFilePointer,
    /// `buffer` is the reader's buffer as it is before the call.
    Read {
        count: usize,
        buffer: Vec<u8>,
    },
}

#[derive(Clone, Debug, PartialEq, Eq)]
pub struct Step {
    pub descriptor: usize,
    pub action: Action,
}

/// The most scripts of a dispatcher, and the most calls of a script.
pub const SCRIPTS: usize = 8;
pub const SCRIPT_STEPS: usize = 16;

/// What a script does through one descriptor. A Write's bytes are a part of the dispatcher's data.
#[derive(Clone, Copy, Debug, PartialEq, Eq)]
pub enum ScriptAction {
    Seek { to: usize },
    Write { start: usize, length: usize },
    GetFilePointer,
    Read { count: usize },
}

#[derive(Clone, Copy, Debug, PartialEq, Eq)]
pub struct ScriptStep {
    pub descriptor: usize,
    pub action: ScriptAction,
}

pub type Script = Vec<ScriptStep>;

/// The arguments of a dispatcher. `buffer` is the reader's buffer as it is before the call.
#[derive(Clone, Debug, PartialEq, Eq)]
pub struct Dispatch {
    pub scripts: Vec<Script>,
    pub data: Vec<u8>,
    pub buffer: Vec<u8>,
    pub minute: usize,
}

impl Dispatch {
    /// The call that stands at a place of a script, for a reader's buffer as it is.
    pub fn step(&self, script: usize, place: usize, buffer: &[u8]) -> Option<Step> {
        let ScriptStep { descriptor, action } = *self.scripts[script].get(place)?;
        let action = match action {
            ScriptAction::Seek { to } => Action::Seek { to },
            ScriptAction::Write { start, length } => Action::Write { data: self.data[start..start + length].to_vec() },
            ScriptAction::GetFilePointer => Action::GetFilePointer,
            ScriptAction::Read { count } => Action::Read { count, buffer: buffer.to_vec() },
        };
        Some(Step { descriptor, action })
    }
}

/// A call with its arguments. A number without a name is the transaction.
#[derive(Clone, Debug, PartialEq, Eq)]
pub enum Call {
    Fresh {
        files: Vec<u8>,
    },
    Begin(usize),
    Step(usize, Step),
    /// `buffer` is the buffer for the list as it is before the call.
    Places {
        transaction: usize,
        file: usize,
        buffer: Vec<u8>,
    },
    Commit {
        transaction: usize,
        minute: usize,
    },
    Abort(usize),
    /// Sets the hours in which a file may change.
    Window {
        file: usize,
        start: usize,
        end: usize,
    },
    /// Takes the last grant back.
    Undo,
    /// Runs scripts in rounds until each is done.
    Dispatch(Dispatch),
    /// Asks in which order of the listed transactions most Commits would be granted.
    Best {
        list: Vec<usize>,
        minute: usize,
        budget: usize,
    },
}

#[derive(Clone, Copy, Debug, PartialEq, Eq)]
pub enum Answer {
    Done,
    Offset(u16),
    /// The count of bytes that a Read gave.
    Given(u16),
    /// The transactions that became stale by the Commit: bit t, worth 2 to the power t, for t.
    Granted(u8),
    /// The count of pairs that a Places listed.
    Pairs(u16),
    Ran(Ran),
    Best(Best),
}

/// How the scripts of a dispatcher ended, and how many Commit calls it made.
#[derive(Clone, Copy, Debug, PartialEq, Eq)]
pub struct Ran {
    pub scripts: usize,
    /// Of each script: none where it was granted, otherwise the refusal that ended it. None beyond the last script.
    pub ended: [Option<Refusal>; SCRIPTS],
    pub commits: u16,
}

impl Ran {
    /// A number for each script: 0 where it was granted, otherwise the refusal's.
    pub fn results(&self) -> Vec<u64> {
        let number = |ended: &Option<Refusal>| ended.map_or(0, |refusal| refusal.number() as u64);
        self.ended[..self.scripts].iter().map(number).collect()
    }
}

/// The orders of eight transactions, and the largest budget.
pub const ORDERS: usize = 40320;

/// An order of Commits, how many of them would be granted, how many more another order may have at most, and how many orders
/// were tried.
#[derive(Clone, Copy, Debug, PartialEq, Eq)]
pub struct Best {
    order: [u8; 8],
    members: usize,
    pub grants: u16,
    pub gap: u16,
    pub tried: u16,
}

impl Best {
    pub fn new(order: &[usize], grants: usize, gap: usize, tried: usize) -> Best {
        let order_of_eight = std::array::from_fn(|k| order.get(k).map_or(0, |&t| t as u8));
        let (grants, gap, tried) = (grants as u16, gap as u16, tried as u16);
        Best { order: order_of_eight, members: order.len(), grants, gap, tried }
    }

    /// The transaction numbers.
    pub fn order(&self) -> &[u8] {
        &self.order[..self.members]
    }
}

/// The refusals, with their numbers in the paper's table.
#[derive(Clone, Copy, Debug, PartialEq, Eq)]
pub enum Refusal {
    BufferLength = 1,
    RecordRange = 2,
    NoSuchTransaction = 3,
    NotOpen = 4,
    AlreadyOpen = 5,
    /// A descriptor number above 15, or a file number above 7 in Places or Window.
    NoSuchTarget = 6,
    ReaderTooShort = 7,
    SeekPastEnd = 8,
    WritePastEnd = 9,
    RecordsFull = 10,
    LogFull = 11,
    AppendPastEnd = 12,
    Stale = 13,
    NoSuchFile = 14,
    NoPlaceYet = 15,
    ListTooLong = 16,
    /// A line of a trace; no call meets it.
    BadLine = 17,
    StaleReader = 18,
    DispatchWhileOpen = 19,
    /// Too many scripts, one that is too long, or a Write's part past the data.
    BadScripts = 20,
    FileClosed = 21,
    NoSuchMinute = 22,
    UndoWhileOpen = 23,
    NothingToUndo = 24,
    /// One of a list is stale, or has a write without a place.
    NotReady = 25,
    /// A list is empty, too long or has a repeat.
    BadList = 26,
    BadBudget = 27,
}

impl Refusal {
    pub fn number(self) -> usize {
        self as usize
    }
}

pub type Outcome = Result<Answer, Refusal>;

/// The outcome of a call and the buffer lent for its answer, after it (empty for a call that is no Read, Places or
/// Dispatch).
#[derive(Clone, Debug, PartialEq, Eq)]
pub struct Reply {
    pub outcome: Outcome,
    pub buffer: Vec<u8>,
}
