//! The reasons for 13 and 18, and under the Commits that made a transaction stale: they are the plain machine's.

use tools::{Account, Citation, Format, Meaning, RawLine, Reason, Replay, Stale, Thing};
use twin::call::Refusal;
use twin::plain::Item;
use twin::store::{SPAN, TRANSACTIONS};

use crate::plain::{Cause, Plain};
use crate::run::{changed, generated, lines};

const TRACES: u64 = 200;
const LOGS: u64 = 100;

/// A replay beside the plain machine, and how many reasons were compared.
struct Pair<'a> {
    lines: Vec<&'a [u8]>,
    replay: Replay,
    plain: Plain,
    /// What the notes of a transaction's 13s and 18s have to be.
    stale: [Option<Stale>; TRANSACTIONS],
    compared: usize,
}

/// Byte by byte, in the order of the notes.
fn causes(reasons: &[Reason]) -> Vec<Cause> {
    let items = |thing: Thing| -> Vec<Item> {
        match thing {
            Thing::Offset { descriptor } => vec![Item::Offset { descriptor }],
            Thing::Bytes { file, first, last } => (first..=last).map(|place| Item::Byte { file, place }).collect(),
            Thing::Length { file } => vec![Item::Length { file }],
        }
    };
    let cause = |reason: &Reason| {
        let (seen, set) = (reason.seen.line, reason.set.line);
        items(reason.thing).into_iter().map(move |item| Cause { item, seen, set })
    };
    reasons.iter().flat_map(cause).collect()
}

/// Are stretches as long as they can be, and inside a file?
fn are_joined(reasons: &[Reason]) -> bool {
    let apart = |pair: &[Reason]| match (pair[0].thing, pair[1].thing) {
        (Thing::Bytes { file, last, .. }, Thing::Bytes { file: next, first, .. }) => {
            file != next || last + 1 != first || pair[0].seen != pair[1].seen || pair[0].set != pair[1].set
        }
        _ => true,
    };
    let inside = |reason: &Reason| match reason.thing {
        Thing::Bytes { first, last, .. } => first <= last && last < SPAN,
        _ => true,
    };
    reasons.windows(2).all(apart) && reasons.iter().all(inside)
}

impl<'a> Pair<'a> {
    fn new(format: Format, input: &'a [u8]) -> Pair<'a> {
        Pair {
            lines: lines(input),
            replay: Replay::new(format),
            plain: Plain::new(),
            stale: Default::default(),
            compared: 0,
        }
    }

    /// How many reasons of the whole input agree: all of them.
    fn run(mut self, what: &str) -> usize {
        for line in self.lines.clone() {
            let account = self.replay.take(&RawLine { bytes: line.to_vec(), length: line.len() as u64 });
            if let Meaning::Call(asked) = &account.meaning {
                self.plain.take(account.number, asked);
                self.check(&account, &format!("{what}, line {}", account.number));
            }
        }
        self.compared
    }

    fn check(&mut self, account: &Account, what: &str) {
        let octet = match account.answer {
            Some(tools::Answer::Granted(octet)) => octet,
            _ => 0,
        };
        let made: Vec<usize> = account.made_stale.iter().map(|made| made.transaction).collect();
        assert_eq!(made, (0..TRANSACTIONS).filter(|t| octet >> t & 1 == 1).collect::<Vec<_>>(), "{what}");
        for made in &account.made_stale {
            assert_eq!(causes(&made.reasons), self.plain.causes(made.transaction), "{what}");
            assert!(!made.reasons.is_empty() && are_joined(&made.reasons), "{what}");
            made.reasons.iter().for_each(|reason| self.check_citations(reason, what));
            let since = Citation::new(account.number, &account.line);
            self.stale[made.transaction] = Some(Stale { since, reasons: made.reasons.clone() });
            self.compared += made.reasons.len();
        }
        let stale = matches!(account.refusal(), Some(Refusal::Stale | Refusal::StaleReader));
        assert_eq!(account.stale.is_some(), stale, "{what}");
        if let (Some(noted), Some(t)) = (&account.stale, account.transaction()) {
            assert_eq!(Some(noted), self.stale[t].as_ref(), "{what}");
        }
    }

    /// What is cited is that line.
    fn check_citations(&self, reason: &Reason, what: &str) {
        for citation in [reason.seen, reason.set] {
            assert_eq!(citation, Citation::new(citation.line, self.lines[citation.line as usize - 1]), "{what}");
        }
    }
}

#[test]
fn generated_traces() {
    let run = |seed| Pair::new(Format::Trace, &generated(seed)).run(&format!("seed {seed}"));
    let compared: usize = (0..TRACES).map(run).sum();
    assert!(compared > 1000, "{compared} reasons were compared");
}

#[test]
fn traces_with_changed_bytes() {
    let run = |seed| Pair::new(Format::Trace, &changed(seed)).run(&format!("seed {seed}, changed"));
    let compared: usize = (0..TRACES).map(run).sum();
    assert!(compared > 1000, "{compared} reasons were compared");
}

#[test]
fn generated_logs() {
    let run = |seed| {
        let mut log = Vec::new();
        twin::logs::write(&mut log, seed, 400).expect("memory is written");
        Pair::new(Format::Log, &log).run(&format!("log {seed}"))
    };
    let compared: usize = (0..LOGS).map(run).sum();
    assert!(compared > 100, "{compared} reasons were compared");
}
