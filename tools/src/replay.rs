//! The replay: a line's call is made on the twin's store, and what came of it becomes the line's account.

use twin::block;
use twin::call::Refusal;
use twin::calllog::{self, Asked, Line};
use twin::replay;
use twin::state::State;
use twin::store::{Standing, SPAN};
use twin::trace::{self, Form};

use crate::account::{self, Account, Answer, End, Meaning};
use crate::bad_line;
use crate::citation::Citation;
use crate::history::History;
use crate::lines::{Format, RawLine};
use crate::notes;

/// A buffer for an answer as long as any call needs it: one more than a file has.
const ROOM: usize = SPAN + 1;

pub struct Replay {
    format: Format,
    state: State,
    history: History,
    /// How many lines were taken.
    lines: u64,
    /// Of a log: the answer to the last line that has one, as it is printed.
    printed: Vec<u8>,
    reader: Vec<u8>,
}

impl Replay {
    /// On a fresh store, descriptor d in file d mod 8.
    pub fn new(format: Format) -> Replay {
        Replay::on(format, replay::fresh(), History::new())
    }

    /// A log on the store of a saved block; none where it has another length than a block.
    pub fn from_block(block: &[u8]) -> Option<Replay> {
        let state = block::decode(block)?;
        let history = History::of_block(&state);
        Some(Replay::on(Format::Log, state, history))
    }

    fn on(format: Format, state: State, history: History) -> Replay {
        Replay { format, state, history, lines: 0, printed: Vec::new(), reader: vec![0; ROOM] }
    }

    /// How many lines were taken.
    pub fn lines(&self) -> u64 {
        self.lines
    }

    pub fn state(&self) -> &State {
        &self.state
    }

    pub fn history(&self) -> &History {
        &self.history
    }

    /// Does what the line says.
    pub fn take(&mut self, line: &RawLine) -> Account {
        self.lines += 1;
        let mut account = Account::new(self.lines, line, self.format);
        match self.format {
            Format::Trace => self.take_from_trace(line, &mut account),
            Format::Log => self.take_from_log(line, &mut account),
        }
        if let (Format::Log, Some(answer)) = (self.format, &account.answer) {
            self.printed.clear();
            answer.push(&mut self.printed);
        }
        account
    }

    fn take_from_trace(&mut self, line: &RawLine, account: &mut Account) {
        match trace::parse(&line.bytes) {
            Some((transaction, form)) => self.make(asked(transaction as u64, form), account),
            None => self.refuse_line(line, account),
        }
    }

    fn take_from_log(&mut self, line: &RawLine, account: &mut Account) {
        match calllog::parse(&line.bytes) {
            Line::Asks(asked) => self.make(asked, account),
            Line::Other => self.refuse_line(line, account),
            Line::Comment => account.meaning = Meaning::Comment,
            Line::Version(version) => {
                account.meaning = Meaning::Version(version);
                account.other_notes = notes::of_version(version);
            }
            Line::Answered(recorded) => {
                let agrees = !recorded.is_empty() && recorded == self.printed;
                account.meaning = Meaning::Recorded { agrees };
                account.other_notes = notes::of_recorded(agrees, &self.printed);
            }
        }
    }

    fn refuse_line(&mut self, line: &RawLine, account: &mut Account) {
        let return_only = bad_line::is_good_without_return(self.format, &line.bytes);
        account.meaning = Meaning::Bad { return_only };
        account.answer = Some(Answer::Refused(Refusal::BadLine));
        account.other_notes = vec![bad_line::note(self.format, line)];
    }

    fn make(&mut self, asked: Asked, account: &mut Account) {
        let line = Citation::new(account.number, &account.line);
        match self.perform(&asked) {
            Ok(answer) => {
                account.answer = Some(answer);
                self.follow(&asked, line, account);
            }
            Err(refusal) => {
                account.answer = Some(Answer::Refused(refusal));
                self.explain(&asked, refusal, line, account);
            }
        }
        account.meaning = Meaning::Call(asked);
    }

    /// Makes the call on the store.
    fn perform(&mut self, asked: &Asked) -> Result<Answer, Refusal> {
        let State { store, buffers } = &mut self.state;
        let mut lent = buffers.lend();
        match *asked {
            Asked::Fresh(ref files) => store.fresh(&mut lent, files).map(|()| Answer::Done),
            Asked::Begin(t) => store.begin(&mut lent, number(t)).map(|()| Answer::Done),
            Asked::Abort(t) => store.abort(&mut lent, number(t)).map(|()| Answer::Done),
            Asked::Commit { transaction, minute } => {
                store.commit(&mut lent, number(transaction), number(minute)).map(Answer::Granted)
            }
            Asked::Pointer { transaction, descriptor } => {
                store.get_file_pointer(&mut lent, number(transaction), number(descriptor)).map(Answer::Offset)
            }
            Asked::Seek { transaction, descriptor, to } => {
                store.seek(&mut lent, number(transaction), number(descriptor), number(to)).map(|()| Answer::Done)
            }
            Asked::Write { transaction, descriptor, ref data } => {
                store.write(&mut lent, number(transaction), number(descriptor), data).map(|()| Answer::Done)
            }
            Asked::Read { .. } | Asked::Places { .. } => self.perform_reading(asked),
            Asked::Window { file, start, end } => {
                store.set_window(&lent, number(file), number(start), number(end)).map(|()| Answer::Done)
            }
            Asked::Undo => store.undo(&mut lent).map(|()| Answer::Done),
            Asked::Order { minute, budget, ref list } => {
                let list: Vec<usize> = list.iter().map(|&t| t.into()).collect();
                let best = store.best(&lent, &list, number(minute), number(budget))?;
                let order = best.order().to_vec();
                Ok(Answer::Order { grants: best.grants, gap: best.gap, tried: best.tried, order })
            }
        }
    }

    /// The calls that put their answer into a buffer. One longer than a file makes no difference, nor does a Read
    /// of more.
    fn perform_reading(&mut self, asked: &Asked) -> Result<Answer, Refusal> {
        let State { store, buffers } = &mut self.state;
        let mut lent = buffers.lend();
        match *asked {
            Asked::Read { transaction, descriptor, count, room } => {
                let reader = &mut self.reader[..number(room).min(ROOM)];
                let count = if count > room { ROOM + 1 } else { number(count).min(ROOM) };
                let given = store.read(&mut lent, number(transaction), number(descriptor), count, reader)?;
                Ok(Answer::Bytes(reader[..given.into()].to_vec()))
            }
            Asked::Places { transaction, file, room } => {
                let out = &mut self.reader[..number(room).min(ROOM)];
                let pairs = store.places(&lent, number(transaction), number(file), out)?;
                Ok(Answer::Places(listed(&out[..4 * usize::from(pairs)])))
            }
            _ => unreachable!("another call has no buffer"),
        }
    }

    /// Writes down what an accepted call did.
    fn follow(&mut self, asked: &Asked, line: Citation, account: &mut Account) {
        match *asked {
            Asked::Fresh(_) => account.changes = self.history.fresh(line),
            Asked::Begin(t) => account.changes.push(self.history.begin(number(t), line)),
            Asked::Abort(t) => account.changes.push(self.history.end(number(t), line, End::Aborted)),
            Asked::Commit { transaction, .. } => self.follow_commit(number(transaction), line, account),
            Asked::Pointer { transaction, .. } => {
                account.saw = self.history.sight(&self.state, number(transaction), line, 0..0);
            }
            Asked::Seek { transaction, descriptor, .. } => {
                self.history.touch(number(transaction), number(descriptor), line);
            }
            Asked::Write { transaction, descriptor, .. } => {
                self.history.touch(number(transaction), number(descriptor), line);
                self.history.write(number(transaction), line);
            }
            Asked::Read { transaction, descriptor, .. } => {
                self.follow_read(number(transaction), number(descriptor), line, account);
            }
            Asked::Window { file, .. } => self.history.set_window(number(file), line),
            Asked::Undo => account.changes.push(self.history.undo(line)),
            Asked::Places { .. } | Asked::Order { .. } => {}
        }
        if self.format == Format::Log {
            account.other_notes = notes::of_accepted(asked, account, &self.state.store);
        }
    }

    fn follow_commit(&mut self, t: usize, line: Citation, account: &mut Account) {
        if let Some(Answer::Granted(octet)) = account.answer {
            account.made_stale = self.history.grant(&self.state.store, t, line, octet);
        }
        account.changes.push(self.history.end(t, line, End::Granted));
    }

    fn follow_read(&mut self, t: usize, d: usize, line: Citation, account: &mut Account) {
        let Some(Answer::Bytes(bytes)) = &account.answer else { return };
        let (Standing::Placed(end) | Standing::Known(end)) = self.state.store.transactions[t].standings[d] else {
            unreachable!("a Read leaves an offset");
        };
        let end = SPAN * usize::from(self.state.store.files[d]) + usize::from(end);
        self.history.touch(t, d, line);
        account.saw = self.history.sight(&self.state, t, line, end - bytes.len()..end);
    }

    /// Says why a call was refused.
    fn explain(&mut self, asked: &Asked, refusal: Refusal, line: Citation, account: &mut Account) {
        match (refusal, account::transaction_of(asked)) {
            (Refusal::StaleReader, Some(t)) => account.stale = self.history.courses[t].stale.clone(),
            (Refusal::Stale, Some(t)) => {
                account.stale = self.history.courses[t].stale.clone();
                account.changes.push(self.history.end(t, line, End::Stale));
            }
            _ => account.other_notes = notes::of_refusal(asked, refusal, &self.state, &self.history),
        }
    }
}

/// The call of a trace's line.
fn asked(transaction: u64, form: Form) -> Asked {
    match form {
        Form::Begin => Asked::Begin(transaction),
        Form::Commit => Asked::Commit { transaction, minute: 0 },
        Form::Abort => Asked::Abort(transaction),
        Form::Pointer(d) => Asked::Pointer { transaction, descriptor: d as u64 },
        Form::Seek(d, to) => Asked::Seek { transaction, descriptor: d as u64, to: to as u64 },
        Form::Read(d, count) => {
            Asked::Read { transaction, descriptor: d as u64, count: count as u64, room: SPAN as u64 }
        }
        Form::Write(d, data) => Asked::Write { transaction, descriptor: d as u64, data: data.to_vec() },
    }
}

/// A number of a line as the store takes it. All that are out of every range are alike.
fn number(number: u64) -> usize {
    usize::try_from(number).unwrap_or(usize::MAX)
}

/// Offsets and lengths, 16 bits each, high byte first.
fn listed(list: &[u8]) -> Vec<(u16, u16)> {
    let number = |high: u8, low: u8| u16::from_be_bytes([high, low]);
    list.chunks(4).map(|pair| (number(pair[0], pair[1]), number(pair[2], pair[3]))).collect()
}

#[cfg(test)]
mod tests {
    use super::*;

    fn take(replay: &mut Replay, line: &[u8]) -> Account {
        replay.take(&RawLine { bytes: line.to_vec(), length: line.len() as u64 })
    }

    /// Numbers of lines need more than 32 bits.
    #[test]
    fn more_lines_than_two_to_the_32() {
        let mut replay = Replay::new(Format::Trace);
        replay.lines = (1 << 32) - 2;
        let lines: [&[u8]; 7] = [b"B0", b"B0", b"P0 0", b"B1", b"S1 0 1", b"C1", b"C0"];
        let accounts: Vec<Account> = lines.iter().map(|line| take(&mut replay, line)).collect();
        assert_eq!(accounts[1].note_texts().collect::<Vec<_>>(), ["open since 4294967295"]);
        let note =
            "since 4294967300 (C1): offset of descriptor 0, seen at 4294967297 (P0 0), set by 4294967299 (S1 0 1)";
        assert_eq!(accounts[6].note_texts().collect::<Vec<_>>(), [note]);
        assert_eq!(accounts[6].notes()[0].names, [4294967300, 4294967297, 4294967299]);
    }
}
