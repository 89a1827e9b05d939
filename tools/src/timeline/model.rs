//! What a page shows, before it is drawn.

use crate::summary::Summary;

/// A piece of a note: text, or the number of a line.
#[derive(Clone, Debug, PartialEq, Eq)]
pub enum Piece {
    Text(String),
    Line(u64),
}

/// A paragraph of a note.
pub type Note = Vec<Piece>;

/// Where a row's words stand.
#[derive(Clone, Copy, Debug, PartialEq, Eq)]
pub enum Place {
    /// In the lane of a transaction.
    Lane(usize),
    /// At the left: a line that is no call, or a call that names no transaction of the store.
    Left,
    /// Across all lanes: an accepted undo or Fresh.
    Across,
}

#[derive(Clone, Debug, PartialEq, Eq)]
pub enum Sign {
    None,
    Granted,
    /// A refusal, by its number.
    Refused(usize),
    /// The recorded answer is another than that of the replay.
    Differs,
}

#[derive(Clone, Debug, PartialEq, Eq)]
pub struct Row {
    pub line: u64,
    /// The line itself, printable.
    pub source: String,
    /// What the replay answered, printable; empty for a line that gets no answer.
    pub answer: String,
    pub place: Place,
    /// Is it no call, or one that names no transaction of the store?
    pub aside: bool,
    pub words: String,
    pub sign: Sign,
    /// Did it sight something that its transaction had not sighted before?
    pub sighted: bool,
    /// The transactions that it made stale, ascending.
    pub made_stale: Vec<usize>,
    pub notes: Vec<Note>,
    /// The line that Enter leads to.
    pub cause: Option<u64>,
    /// The Commit that made its transaction stale, where one did so before.
    pub stale_since: Option<u64>,
}

/// How a transaction ended.
#[derive(Clone, Copy, Debug, PartialEq, Eq)]
pub enum End {
    Granted,
    Stale,
    Aborted,
    Open,
}

/// A transaction from its Begin to its end.
#[derive(Clone, Debug, PartialEq, Eq)]
pub struct Span {
    pub transaction: usize,
    /// The line of its Begin; 0 where a saved block has it open.
    pub from: u64,
    /// The line that ended it.
    pub to: Option<u64>,
    pub end: End,
    /// The Commit that made it stale.
    pub stale_since: Option<u64>,
}

/// From a Commit to a line that had sighted what it set.
#[derive(Clone, Copy, Debug, PartialEq, Eq)]
pub struct Arrow {
    pub commit: u64,
    pub setter: usize,
    pub sighting: u64,
    pub reader: usize,
}

#[derive(Clone, Debug, PartialEq, Eq)]
pub struct Page {
    pub title: String,
    /// Consecutive lines of the trace, the first of which need not be line 1.
    pub rows: Vec<Row>,
    pub spans: Vec<Span>,
    pub arrows: Vec<Arrow>,
    /// The transactions that the trace names, ascending.
    pub lanes: Vec<usize>,
    /// Of the whole trace.
    pub counts: Summary,
}

impl Page {
    /// The first line of the page, 1 where it has none.
    pub fn first(&self) -> u64 {
        self.rows.first().map_or(1, |row| row.line)
    }

    /// The last line of the page, 0 where it has none.
    pub fn last(&self) -> u64 {
        self.rows.last().map_or(0, |row| row.line)
    }

    pub fn has(&self, line: u64) -> bool {
        (self.first()..=self.last()).contains(&line)
    }

    pub fn is_part(&self) -> bool {
        self.rows.len() as u64 != self.counts.lines
    }

    pub fn refused(&self) -> impl Iterator<Item = &Row> {
        self.rows.iter().filter(|row| matches!(row.sign, Sign::Refused(_)))
    }
}
