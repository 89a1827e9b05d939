//! What is known of a line: what it says, what was answered, and why.

use std::rc::Rc;

use twin::call::Refusal;
use twin::calllog::Asked;
use twin::store::TRANSACTIONS;

use crate::citation::Citation;
use crate::lines::{Format, RawLine};
use crate::refusals;
use crate::text;
use crate::things::{Reason, Thing};

/// The account of a line.
#[derive(Clone, Debug)]
pub struct Account {
    /// From 1.
    pub number: u64,
    /// The line without its end; only its first bytes where it is longer than a line may be.
    pub line: Vec<u8>,
    /// How many bytes the line has.
    pub length: u64,
    pub meaning: Meaning,
    /// What `trace` or `replay` prints; none for a line that is not answered.
    pub answer: Option<Answer>,
    /// What the call newly sighted.
    pub saw: Vec<Thing>,
    /// The transactions that a Commit made stale, ascending.
    pub made_stale: Vec<MadeStale>,
    /// Why the transaction is stale, at a 13 or 18.
    pub stale: Option<Stale>,
    /// Transactions that began or ended at the line, and a grant taken back.
    pub changes: Vec<Change>,
    /// The notes that are not about stale transactions: one for every other refusal, and some for calls of a log.
    pub other_notes: Vec<Note>,
}

/// What a line says.
#[derive(Clone, Debug, PartialEq, Eq)]
pub enum Meaning {
    Call(Asked),
    /// It has another form (17). Is it good without the byte 13 at its end?
    Bad {
        return_only: bool,
    },
    /// The rest are lines of a log alone. A comment, or an empty line.
    Comment,
    Version(u64),
    /// The answer that the call before had; does the replay agree?
    Recorded {
        agrees: bool,
    },
}

#[derive(Clone, Debug, PartialEq, Eq)]
pub enum Answer {
    Done,
    Offset(u16),
    /// Granted; the transactions made stale, a bit for each.
    Granted(u8),
    /// What a Read gave.
    Bytes(Vec<u8>),
    /// Offset and length of each stretch that Places lists.
    Places(Vec<(u16, u16)>),
    Order {
        grants: u16,
        gap: u16,
        tried: u16,
        order: Vec<u8>,
    },
    Refused(Refusal),
}

#[derive(Clone, Debug, PartialEq, Eq)]
pub struct MadeStale {
    pub transaction: usize,
    pub reasons: Rc<Vec<Reason>>,
}

/// Since when a transaction is stale, and why.
#[derive(Clone, Debug, PartialEq, Eq)]
pub struct Stale {
    /// The Commit that made it stale.
    pub since: Citation,
    /// None only where a saved block has it stale.
    pub reasons: Rc<Vec<Reason>>,
}

#[derive(Clone, Copy, Debug, PartialEq, Eq)]
pub enum Change {
    Began {
        transaction: usize,
    },
    Ended {
        transaction: usize,
        how: End,
    },
    /// The grant of a Commit was taken back.
    Undone {
        commit: Citation,
    },
}

/// How a transaction ended.
#[derive(Clone, Copy, Debug, PartialEq, Eq)]
pub enum End {
    Granted,
    Stale,
    Aborted,
    /// A Fresh of a log ends every transaction.
    Fresh,
}

/// A note, and the lines that it names.
#[derive(Clone, Debug, PartialEq, Eq)]
pub struct Note {
    pub text: String,
    /// Their numbers, from 1, in the order of the text.
    pub names: Vec<u64>,
}

impl End {
    pub fn word(self) -> &'static str {
        match self {
            End::Granted => "granted",
            End::Stale => "stale",
            End::Aborted => "aborted",
            End::Fresh => "Fresh",
        }
    }
}

impl Note {
    pub fn new(text: impl Into<String>, names: &[Citation]) -> Note {
        let names = names.iter().map(|citation| citation.line).filter(|&line| line > 0).collect();
        Note { text: text.into(), names }
    }
}

impl MadeStale {
    /// `makes 0 stale: ..`, for each reason.
    fn note_texts(&self) -> impl Iterator<Item = String> + '_ {
        self.reasons.iter().map(|reason| format!("makes {} stale: {reason}", self.transaction))
    }

    fn notes(&self) -> impl Iterator<Item = Note> + '_ {
        let names = self.reasons.iter().map(|reason| [reason.seen, reason.set]);
        self.note_texts().zip(names).map(|(text, names)| Note::new(text, &names))
    }
}

impl Stale {
    /// `since 13 (C3): ..`, for each reason; a saved block has none.
    fn note_texts(&self) -> impl Iterator<Item = String> + '_ {
        let since = self.since.after("since");
        let unknown = self.reasons.is_empty().then(|| format!("stale {since}"));
        unknown.into_iter().chain(self.reasons.iter().map(move |reason| format!("{since}: {reason}")))
    }

    fn notes(&self) -> impl Iterator<Item = Note> + '_ {
        let names = self.reasons.iter().map(|reason| [self.since, reason.seen, reason.set]);
        let unknown = [Citation::BEFORE; 3];
        self.note_texts().zip(names.chain([unknown])).map(|(text, names)| Note::new(text, &names))
    }
}

impl Account {
    /// Of a line of which nothing is known yet.
    pub fn new(number: u64, line: &RawLine, format: Format) -> Account {
        let kept = line.bytes.len().min(format.longest());
        Account {
            number,
            line: line.bytes[..kept].to_vec(),
            length: line.length,
            meaning: Meaning::Comment,
            answer: None,
            saw: Vec::new(),
            made_stale: Vec::new(),
            stale: None,
            changes: Vec::new(),
            other_notes: Vec::new(),
        }
    }

    /// All notes, as they stand under the line. There may be some thousands, one for each byte of a Commit.
    pub fn notes(&self) -> Vec<Note> {
        let mut notes = self.other_notes.clone();
        notes.extend(self.made_stale.iter().flat_map(MadeStale::notes));
        notes.extend(self.stale.iter().flat_map(Stale::notes));
        notes
    }

    /// Their texts, one after the other.
    pub fn note_texts(&self) -> impl Iterator<Item = String> + '_ {
        let others = self.other_notes.iter().map(|note| note.text.clone());
        let made_stale = self.made_stale.iter().flat_map(MadeStale::note_texts);
        others.chain(made_stale).chain(self.stale.iter().flat_map(Stale::note_texts))
    }

    /// Is it the version line of a log that is not known? No later line is read as a call.
    pub fn ends_run(&self) -> bool {
        matches!(self.meaning, Meaning::Version(version) if version != twin::calllog::VERSION)
    }

    pub fn refusal(&self) -> Option<Refusal> {
        match self.answer {
            Some(Answer::Refused(refusal)) => Some(refusal),
            _ => None,
        }
    }

    /// The transaction that the call names, if there is such a one (0 to 7).
    pub fn transaction(&self) -> Option<usize> {
        match &self.meaning {
            Meaning::Call(asked) => transaction_of(asked),
            _ => None,
        }
    }

    /// The line as it is shown, with `...` where it is cut.
    pub fn shown(&self) -> String {
        let cut = if self.is_cut() { "..." } else { "" };
        text::shown(&self.line) + cut
    }

    pub fn is_cut(&self) -> bool {
        (self.line.len() as u64) < self.length
    }
}

/// The number that a call has for its transaction.
pub fn named_transaction(asked: &Asked) -> Option<u64> {
    match asked {
        Asked::Begin(t) | Asked::Abort(t) => Some(*t),
        Asked::Commit { transaction, .. }
        | Asked::Pointer { transaction, .. }
        | Asked::Seek { transaction, .. }
        | Asked::Write { transaction, .. }
        | Asked::Read { transaction, .. }
        | Asked::Places { transaction, .. } => Some(*transaction),
        Asked::Fresh(_) | Asked::Window { .. } | Asked::Undo | Asked::Order { .. } => None,
    }
}

/// The transaction that a call names, if there is such a one (0 to 7).
pub fn transaction_of(asked: &Asked) -> Option<usize> {
    named_transaction(asked).and_then(|t| usize::try_from(t).ok()).filter(|&t| t < TRANSACTIONS)
}

impl Answer {
    /// The line that is printed, without its end.
    pub fn push(&self, out: &mut Vec<u8>) {
        match self {
            Answer::Done => push_ok(out, []),
            Answer::Offset(offset) => push_ok(out, [*offset]),
            Answer::Granted(octet) => push_ok(out, [u16::from(*octet)]),
            Answer::Bytes(bytes) => {
                out.extend(if bytes.is_empty() { b"ok".as_slice() } else { b"ok " });
                text::push_pairs(out, bytes);
            }
            Answer::Places(pairs) => push_ok(out, pairs.iter().flat_map(|&(offset, length)| [offset, length])),
            Answer::Order { grants, gap, tried, order } => {
                push_ok(out, [*grants, *gap, *tried].into_iter().chain(order.iter().map(|&t| t.into())))
            }
            Answer::Refused(refusal) => text::push_number(out, refusal.number() as u64, 0),
        }
    }

    pub fn text(&self) -> String {
        let mut out = Vec::new();
        self.push(&mut out);
        text::shown(&out)
    }

    /// The text, a refusal with its name: `13 Stale`.
    pub fn named(&self) -> String {
        match self {
            Answer::Refused(refusal) => format!("{} {}", refusal.number(), refusals::name(*refusal)),
            _ => self.text(),
        }
    }
}

fn push_ok(out: &mut Vec<u8>, numbers: impl IntoIterator<Item = u16>) {
    out.extend(b"ok");
    for number in numbers {
        out.push(b' ');
        text::push_number(out, number.into(), 0);
    }
}
