//! From the accounts of a replay to what a page shows.

use super::model::{Arrow, End, Note, Page, Piece, Place, Row, Sign, Span};
use super::words;
use crate::account::{self, Account, Change, Meaning};
use crate::citation::Citation;
use crate::history::History;
use crate::summary::Summary;

/// The words of a note after which the number of a line stands.
const BEFORE_LINES: [&str; 4] = [" at ", " by ", " of ", "since "];

pub struct Gatherer {
    /// The lines of the page.
    first: u64,
    last: u64,
    rows: Vec<Row>,
    spans: Vec<Span>,
    /// For each transaction, its open span.
    open: [Option<Span>; 8],
    arrows: Vec<Arrow>,
    named: [bool; 8],
    /// Where the call of the last line stood, for the answer that a log has behind it.
    before: Place,
}

impl Gatherer {
    pub fn new(first: u64, last: u64) -> Gatherer {
        Gatherer {
            first,
            last,
            rows: Vec::new(),
            spans: Vec::new(),
            open: Default::default(),
            arrows: Vec::new(),
            named: [false; 8],
            before: Place::Left,
        }
    }

    /// The lines on the page so far.
    pub fn rows(&self) -> usize {
        self.rows.len()
    }

    /// Transactions that a saved block has open.
    pub fn take_block(&mut self, history: &History) {
        for transaction in (0..8).filter(|&t| history.courses[t].begun.is_some()) {
            self.begin(transaction, 0);
            let stale = history.courses[transaction].stale.is_some();
            self.open[transaction].as_mut().expect("it has just begun").stale_since = stale.then_some(0);
        }
    }

    pub fn take(&mut self, account: &Account) {
        let line = account.number;
        if let Some(transaction) = account.transaction() {
            self.named[transaction] = true;
        }
        let stale_since = self.stale_since(account);
        for made in &account.made_stale {
            if let Some(span) = &mut self.open[made.transaction] {
                span.stale_since = Some(line);
            }
            self.add_arrows(account, made);
        }
        for change in &account.changes {
            match *change {
                Change::Began { transaction } => self.begin(transaction, line),
                Change::Ended { transaction, how } => self.end(transaction, line, how),
                Change::Undone { .. } => {}
            }
        }
        self.add_row(account, stale_since);
    }

    /// The Commit that made the line's transaction stale before the line.
    fn stale_since(&self, account: &Account) -> Option<u64> {
        self.open[account.transaction()?].as_ref()?.stale_since
    }

    fn begin(&mut self, transaction: usize, line: u64) {
        self.named[transaction] = true;
        self.open[transaction] = Some(Span { transaction, from: line, to: None, end: End::Open, stale_since: None });
    }

    fn end(&mut self, transaction: usize, line: u64, how: account::End) {
        let Some(mut span) = self.open[transaction].take() else { return };
        span.to = Some(line);
        span.end = match how {
            account::End::Granted => End::Granted,
            account::End::Stale => End::Stale,
            account::End::Aborted | account::End::Fresh => End::Aborted,
        };
        if line >= self.first && span.from <= self.last {
            self.spans.push(span);
        }
    }

    fn add_arrows(&mut self, account: &Account, made: &account::MadeStale) {
        let Some(setter) = account.transaction() else { return };
        let (commit, reader) = (account.number, made.transaction);
        let mut sightings: Vec<u64> = made.reasons.iter().map(|reason| reason.seen.line).collect();
        sightings.sort_unstable();
        sightings.dedup();
        let on_page = |line: &u64| (self.first..=self.last).contains(line);
        if on_page(&commit) {
            let drawn = sightings.into_iter().filter(on_page);
            self.arrows.extend(drawn.map(|sighting| Arrow { commit, setter, sighting, reader }));
        }
    }

    fn add_row(&mut self, account: &Account, stale_since: Option<u64>) {
        let place = self.place(account);
        if !matches!(account.meaning, Meaning::Recorded { .. }) {
            self.before = place;
        }
        if (self.first..=self.last).contains(&account.number) {
            self.rows.push(Row { stale_since, ..row(account, place) });
        }
    }

    fn place(&self, account: &Account) -> Place {
        match (&account.meaning, account.transaction()) {
            (Meaning::Recorded { .. }, _) if self.before != Place::Across => self.before,
            (_, Some(lane)) => Place::Lane(lane),
            _ if undone(account).is_some() || is_fresh(account) => Place::Across,
            _ => Place::Left,
        }
    }

    pub fn page(self, title: String, counts: Summary) -> Page {
        let Gatherer { mut rows, mut spans, open, arrows, named, .. } = self;
        spans.extend(open.into_iter().flatten().filter(|span| span.from <= self.last));
        spans.sort_by_key(|span| (span.from, span.transaction));
        rows.shrink_to_fit();
        let lanes = (0..8).filter(|&t| named[t]).collect();
        Page { title, rows, spans, arrows, lanes, counts }
    }
}

/// The Commit that an undo took back.
pub fn undone(account: &Account) -> Option<Citation> {
    account.changes.iter().find_map(|change| match change {
        Change::Undone { commit } => Some(*commit),
        _ => None,
    })
}

fn is_fresh(account: &Account) -> bool {
    matches!(account.meaning, Meaning::Call(crate::Asked::Fresh(_))) && account.refusal().is_none()
}

fn row(account: &Account, place: Place) -> Row {
    Row {
        line: account.number,
        source: words::source(account),
        answer: words::answer(account),
        place,
        aside: is_aside(account),
        words: words::words(account),
        sign: sign(account),
        sighted: !account.saw.is_empty(),
        made_stale: account.made_stale.iter().map(|made| made.transaction).collect(),
        notes: notes(account),
        cause: cause(account),
        stale_since: None,
    }
}

/// Is it no call, or one that names a transaction that the store has not? A window or an order names none.
fn is_aside(account: &Account) -> bool {
    let Meaning::Call(asked) = &account.meaning else { return true };
    account.transaction().is_none() && account::named_transaction(asked).is_some()
}

fn sign(account: &Account) -> Sign {
    match (account.refusal(), &account.meaning) {
        (Some(refusal), _) => Sign::Refused(refusal.number()),
        (None, Meaning::Recorded { agrees: false }) => Sign::Differs,
        (None, Meaning::Call(crate::Asked::Commit { .. })) => Sign::Granted,
        _ => Sign::None,
    }
}

/// From a stale transaction to the Commit that made it so, from a Commit to the first line that had sighted what it set.
fn cause(account: &Account) -> Option<u64> {
    let seen = account.made_stale.iter().flat_map(|made| made.reasons.iter().map(|reason| reason.seen.line));
    let cause = account.stale.as_ref().map(|stale| stale.since.line).or_else(|| seen.filter(|&line| line > 0).min());
    cause.filter(|&line| line > 0)
}

fn notes(account: &Account) -> Vec<Note> {
    let mut notes: Vec<Note> = account.notes().iter().map(pieces).collect();
    if !account.saw.is_empty() {
        let things: Vec<String> = account.saw.iter().map(ToString::to_string).collect();
        notes.push(vec![Piece::Text(format!("saw {}", things.join(", ")))]);
    }
    notes
}

/// The text of a note with the lines that it names, in their order.
fn pieces(note: &account::Note) -> Note {
    let mut pieces = Vec::new();
    let mut rest = note.text.as_str();
    for &line in &note.names {
        let number = line.to_string();
        if let Some(at) = find_line(rest, &number) {
            pieces.push(Piece::Text(rest[..at].to_string()));
            pieces.push(Piece::Line(line));
            rest = &rest[at + number.len()..];
        }
    }
    pieces.push(Piece::Text(rest.to_string()));
    pieces
}

/// Where the number of a line stands in a text: behind one of the words that name lines.
fn find_line(text: &str, number: &str) -> Option<usize> {
    let is_line = |&(at, _): &(usize, &str)| {
        let ends = !text[at + number.len()..].starts_with(|next: char| next.is_ascii_digit());
        ends && BEFORE_LINES.iter().any(|word| text[..at].ends_with(word))
    };
    text.match_indices(number).find(is_line).map(|(at, _)| at)
}

#[cfg(test)]
mod tests {
    use super::*;

    #[test]
    fn lines_of_a_note() {
        let text = "since 26 (C5): bytes 26 to 29 of file 2, seen at 26 (R4 2 4), set by 2 (W5 2 show)";
        let note = account::Note { text: text.to_string(), names: vec![26, 26, 2] };
        let text = |text: &str| Piece::Text(text.to_string());
        let expected = [
            text("since "),
            Piece::Line(26),
            text(" (C5): bytes 26 to 29 of file 2, seen at "),
            Piece::Line(26),
            text(" (R4 2 4), set by "),
            Piece::Line(2),
            text(" (W5 2 show)"),
        ];
        assert_eq!(pieces(&note), expected);
    }
}
