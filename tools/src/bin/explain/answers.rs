//! Recorded answers (`--answers`), held to those of the replay.

use std::ffi::OsStr;

use tools::lines::next_line;
use tools::program::{Failure, Input};
use tools::text::quoted;
use tools::{Account, RawLine};

pub struct Answers {
    input: Input,
    crlf: bool,
    /// The recorded answer last read, and how many there were.
    line: RawLine,
    read: u64,
    /// The first difference, as a sentence.
    pub difference: Option<String>,
}

impl Answers {
    pub fn open(file: &OsStr, crlf: bool) -> Result<Answers, Failure> {
        let input = Input::open(Some(file))?;
        Ok(Answers { input, crlf, line: RawLine::default(), read: 0, difference: None })
    }

    /// Holds the answer of a line to the next recorded one, until one has differed.
    pub fn hold(&mut self, account: &Account) -> Result<(), Failure> {
        let (None, Some(answer)) = (&self.difference, &account.answer) else {
            return Ok(());
        };
        let mut printed = Vec::new();
        answer.push(&mut printed);
        let there = self.next()?;
        let (name, number, answers) = (&self.input.name, account.number, quoted(&printed));
        self.difference = match there {
            true if self.line.bytes == printed => None,
            true => {
                let recorded = quoted(&self.line.bytes);
                Some(format!("line {number} differs: {name} has {recorded}, the replay answers {answers}"))
            }
            false => {
                let read = self.read;
                Some(format!("{name} is too short: it ends after {read} answers, and line {number} answers {answers}"))
            }
        };
        Ok(())
    }

    /// Is there an answer behind the last line's?
    pub fn finish(&mut self, lines: u64) -> Result<(), Failure> {
        if self.difference.is_none() && self.next()? {
            let (name, recorded) = (&self.input.name, quoted(&self.line.bytes));
            self.difference = Some(format!("{name} is too long: it has {recorded} behind the last of {lines} lines"));
        }
        Ok(())
    }

    fn next(&mut self) -> Result<bool, Failure> {
        let there = next_line(&mut self.input.reader, self.crlf, &mut self.line)
            .map_err(|error| Failure::reading(&self.input.name, self.read, &error))?;
        self.read += u64::from(there);
        Ok(there)
    }
}
