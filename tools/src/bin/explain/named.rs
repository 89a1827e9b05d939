//! The lines of the input with their accounts, and those that the notes of one line name (`--line`).

use std::collections::{BTreeSet, VecDeque};

use tools::program::{self, Failure, Input};
use tools::{Account, RawLine, Replay, Source};

use crate::options::Options;

type AnySource = Source<Box<dyn std::io::BufRead>>;

/// The lines of the input, each taken by the replay.
pub struct Lines {
    name: String,
    source: AnySource,
    /// Lines read before, which come first.
    held: VecDeque<RawLine>,
    /// Is a line that is taken put into `held`, for another replay?
    holds: bool,
    replay: Replay,
    line: RawLine,
    ended: bool,
}

impl Lines {
    pub fn open(options: &Options) -> Result<Lines, Failure> {
        let Input { name, reader } = Input::open(options.file.as_deref())?;
        let source = Source::new(reader, options.crlf, options.asked_format())
            .map_err(|error| Failure::reading(&name, 0, &error))?;
        let replay = new_replay(options, &source)?;
        let (held, line) = (VecDeque::new(), RawLine::default());
        Ok(Lines { name, source, held, holds: false, replay, line, ended: false })
    }

    /// The account of the next line; none behind the last one, or behind a version that is not known.
    pub fn next(&mut self) -> Result<Option<Account>, Failure> {
        if self.ended || !self.next_line()? {
            return Ok(None);
        }
        let account = self.replay.take(&self.line);
        self.ended = account.ends_run();
        Ok(Some(account))
    }

    fn next_line(&mut self) -> Result<bool, Failure> {
        if !self.holds {
            if let Some(line) = self.held.pop_front() {
                self.line = line;
                return Ok(true);
            }
        }
        let next = self.source.next(&mut self.line);
        let there = next.map_err(|error| Failure::reading(&self.name, self.taken(), &error))?;
        if there && self.holds {
            self.held.push_back(self.line.clone());
        }
        Ok(there)
    }

    /// How many lines were taken.
    pub fn taken(&self) -> u64 {
        self.replay.lines()
    }

    pub fn replay(&self) -> &Replay {
        &self.replay
    }

    pub fn open_transactions(&self) -> u64 {
        self.replay.history().courses.iter().filter(|course| course.begun.is_some()).count() as u64
    }

    pub fn no_line(&self, number: u64) -> Failure {
        Failure::Failed(format!("{} has no line {number}, it has {}", self.name, self.taken()))
    }

    /// Starts the replay again. Standard input cannot be read twice: its lines were held.
    fn again(self, options: &Options) -> Result<Lines, Failure> {
        if self.holds {
            let replay = new_replay(options, &self.source)?;
            return Ok(Lines { holds: false, replay, ended: false, ..self });
        }
        Lines::open(options)
    }
}

fn new_replay(options: &Options, source: &AnySource) -> Result<Replay, Failure> {
    match &options.block {
        Some(block) => program::replay_from_block(block),
        None => Ok(Replay::new(source.format())),
    }
}

/// The lines from the first on, and which of them are line `number` and those that its notes name.
pub fn lines_named_at(options: &Options, number: u64) -> Result<(Lines, BTreeSet<u64>), Failure> {
    let mut lines = Lines::open(options)?;
    lines.holds = options.file.as_ref().is_none_or(|file| file == "-");
    let mut names = BTreeSet::from([number]);
    while lines.taken() < number {
        let Some(account) = lines.next()? else { return Err(lines.no_line(number)) };
        if account.number == number {
            names.extend(account.notes().into_iter().flat_map(|note| note.names));
        }
    }
    Ok((lines.again(options)?, names))
}
