//! The run through the input.

use std::collections::BTreeSet;
use std::io::{Stdout, Write};
use std::process::ExitCode;

use tools::program::{self, Failure};
use tools::{Account, Summary};

use crate::answers::Answers;
use crate::counts;
use crate::named::{self, Lines};
use crate::options::Options;
use crate::rows;
use crate::snapshot;
use tools::ending::Ending;

/// Of recorded answers that differ.
const DIFFER: u8 = 1;

pub fn explain(options: &Options) -> Result<ExitCode, Failure> {
    match options.at {
        Some(line) => explain_moment(options, line),
        None => explain_lines(options),
    }
}

/// What stands after a line; after line 0 that is the start.
fn explain_moment(options: &Options, number: u64) -> Result<ExitCode, Failure> {
    let mut out = Output::new()?;
    let mut lines = Lines::open(options)?;
    let mut ending = Ending::default();
    while lines.taken() < number {
        let Some(account) = lines.next()? else { return Err(lines.no_line(number)) };
        ending.add(&account);
    }
    snapshot::push(&mut out.text, lines.replay());
    out.put(lines.taken())?;
    out.flush(lines.taken())?;
    ending.say(crate::PROGRAM);
    Ok(ExitCode::SUCCESS)
}

fn explain_lines(options: &Options) -> Result<ExitCode, Failure> {
    let out = Output::new()?;
    let answers = options.answers.as_deref().map(|file| Answers::open(file, options.crlf)).transpose()?;
    let (mut lines, chosen) = match options.line {
        Some(number) => named::lines_named_at(options, number)?,
        None => (Lines::open(options)?, BTreeSet::new()),
    };
    let summary = Summary::new(lines.open_transactions());
    let mut run = Run { options, chosen, out, answers, summary, ending: Ending::default() };
    while let Some(account) = lines.next()? {
        run.take(&account)?;
    }
    run.finish(lines.taken())
}

/// A run through all lines.
struct Run<'a> {
    options: &'a Options,
    /// With `--line`: the line, and those that its notes name.
    chosen: BTreeSet<u64>,
    out: Output,
    answers: Option<Answers>,
    summary: Summary,
    ending: Ending,
}

impl Run<'_> {
    fn take(&mut self, account: &Account) -> Result<(), Failure> {
        self.summary.add(account);
        self.ending.add(account);
        if let Some(answers) = &mut self.answers {
            answers.hold(account)?;
        }
        if self.is_printed(account) {
            self.print(account)?;
        }
        Ok(())
    }

    /// A line that only the notes of another name is printed without its own.
    fn print(&mut self, account: &Account) -> Result<(), Failure> {
        rows::push_row(&mut self.out.text, account, self.options.text);
        self.out.put(account.number)?;
        if self.options.line.is_some_and(|line| line != account.number) {
            return Ok(());
        }
        if self.options.sightings {
            account.saw.iter().for_each(|thing| rows::push_note(&mut self.out.text, &format!("saw {thing}")));
        }
        for text in account.note_texts() {
            rows::push_note(&mut self.out.text, &text);
            self.out.put(account.number)?;
        }
        Ok(())
    }

    fn is_printed(&self, account: &Account) -> bool {
        let refused = account.refusal().is_some() || !account.made_stale.is_empty();
        let chosen = self.options.line.is_none() || self.chosen.contains(&account.number);
        !self.options.quiet && chosen && (refused || !self.options.refusals || self.options.line.is_some())
    }

    fn finish(mut self, lines: u64) -> Result<ExitCode, Failure> {
        if self.options.summary {
            counts::push(&mut self.out.text, &self.summary);
            self.out.put(lines)?;
        }
        if let Some(answers) = &mut self.answers {
            answers.finish(lines)?;
        }
        self.out.flush(lines)?;
        let difference = self.answers.and_then(|answers| answers.difference);
        if let Some(sentence) = &difference {
            program::say(crate::PROGRAM, sentence);
        }
        self.ending.say(crate::PROGRAM);
        Ok(if difference.is_some() { ExitCode::from(DIFFER) } else { ExitCode::SUCCESS })
    }
}

/// Standard output, and the text on its way to it.
struct Output {
    text: Vec<u8>,
    out: Stdout,
}

/// So much text is written at a time.
const PIECE: usize = 1 << 16;

impl Output {
    fn new() -> Result<Output, Failure> {
        Ok(Output { text: Vec::with_capacity(2 * PIECE), out: program::output()? })
    }

    /// Writes the text if there is enough of it, after so many lines of the input.
    fn put(&mut self, lines: u64) -> Result<(), Failure> {
        if self.text.len() < PIECE {
            return Ok(());
        }
        let written = self.out.write_all(&self.text);
        self.text.clear();
        written.map_err(|error| Failure::writing("standard output", lines, &error))
    }

    fn flush(&mut self, lines: u64) -> Result<(), Failure> {
        let written = self.out.write_all(&self.text).and_then(|()| self.out.flush());
        written.map_err(|error| Failure::writing("standard output", lines, &error))
    }
}
