//! The command line.

use std::ffi::{OsStr, OsString};

use tools::program::Failure;
use tools::Format;

pub const USAGE: &str = "\
usage: explain [OPTIONS] [FILE]

Replays a trace, or a log of calls, and says under each refusal why it came. No FILE, or -, is standard input.

  --refusals         only refused lines, and Commits that made a transaction stale
  --line N           only line N, with the lines that its notes name
  --sightings        also what each call newly sighted
  --at N             instead, what stands after line N
  --summary          also counts, at the end
  --quiet            no lines: with --summary the counts alone
  --answers FILE     hold the answers to those in FILE, a line each
  --text             a Read's bytes also as text
  --crlf             byte 13 before byte 10 belongs to the line's end
  --from-block FILE  a log that starts from a saved block
  --log, --trace     what the input is; without them a log is known by its first line, V and a number
  --help             this text
  --version          the version

Status: 0; 1 if --answers differ; 2 if something cannot be read, written or understood.
";

/// What the program is asked for.
pub enum Task {
    Help,
    Version,
    Explain(Box<Options>),
}

#[derive(Default)]
pub struct Options {
    pub file: Option<OsString>,
    pub refusals: bool,
    pub line: Option<u64>,
    pub sightings: bool,
    pub at: Option<u64>,
    pub summary: bool,
    pub quiet: bool,
    pub answers: Option<OsString>,
    pub text: bool,
    pub crlf: bool,
    pub block: Option<OsString>,
    pub format: Option<Format>,
}

/// The words of the command line, one after the other.
struct Words<I> {
    rest: I,
    options: Options,
}

pub fn parse(words: impl Iterator<Item = OsString>) -> Result<Task, Failure> {
    let mut words = Words { rest: words, options: Options::default() };
    while let Some(word) = words.rest.next() {
        match word.to_str() {
            Some("--help") => return Ok(Task::Help),
            Some("--version") => return Ok(Task::Version),
            Some("--") => {
                while let Some(file) = words.rest.next() {
                    words.take_file(file)?;
                }
            }
            Some(option) if option.starts_with('-') && option != "-" => words.take_option(option)?,
            _ => words.take_file(word)?,
        }
    }
    words.options.check()?;
    Ok(Task::Explain(Box::new(words.options)))
}

impl<I: Iterator<Item = OsString>> Words<I> {
    fn take_option(&mut self, word: &str) -> Result<(), Failure> {
        let (option, value) = match word.split_once('=') {
            Some((option, value)) => (option, Some(OsString::from(value))),
            None => (word, None),
        };
        if value.is_some() && !["--line", "--at", "--answers", "--from-block"].contains(&option) {
            return Err(unknown(word));
        }
        match option {
            "--refusals" => self.options.refusals = true,
            "--line" => self.options.line = Some(self.number(option, value)?),
            "--sightings" => self.options.sightings = true,
            "--at" => self.options.at = Some(self.number(option, value)?),
            "--summary" => self.options.summary = true,
            "--quiet" => self.options.quiet = true,
            "--answers" => self.options.answers = Some(self.value(option, value)?),
            "--text" => self.options.text = true,
            "--crlf" => self.options.crlf = true,
            "--from-block" => self.options.block = Some(self.value(option, value)?),
            "--log" => self.options.format = Some(Format::Log),
            "--trace" => self.options.format = Some(Format::Trace),
            _ => return Err(unknown(word)),
        }
        Ok(())
    }

    /// The value behind `=`, or the next word.
    fn value(&mut self, option: &str, value: Option<OsString>) -> Result<OsString, Failure> {
        value.or_else(|| self.rest.next()).ok_or_else(|| Failure::Usage(format!("{option} needs a value")))
    }

    fn number(&mut self, option: &str, value: Option<OsString>) -> Result<u64, Failure> {
        let value = self.value(option, value)?;
        let digits = value.to_str().filter(|text| text.bytes().all(|byte| byte.is_ascii_digit()));
        let bad = || Failure::Usage(format!("{option} needs the number of a line, not {}", shown(&value)));
        digits.and_then(|digits| digits.parse().ok()).ok_or_else(bad)
    }

    fn take_file(&mut self, file: OsString) -> Result<(), Failure> {
        match self.options.file.replace(file) {
            None => Ok(()),
            Some(_) => Err(Failure::Usage("more than one FILE".to_string())),
        }
    }
}

impl Options {
    fn check(&self) -> Result<(), Failure> {
        let together = |one: &str, other: &str| Err(Failure::Usage(format!("{one} and {other} do not go together")));
        if self.at.is_some() && self.line.is_some() {
            return together("--at", "--line");
        }
        if self.at.is_some() && (self.summary || self.quiet) {
            return together("--at", "--summary or --quiet");
        }
        if self.at.is_some() && self.answers.is_some() {
            return together("--at", "--answers");
        }
        if self.block.is_some() && self.format == Some(Format::Trace) {
            return together("--from-block", "--trace");
        }
        if self.line == Some(0) {
            return Err(Failure::Usage("--line needs the number of a line, from 1".to_string()));
        }
        Ok(())
    }

    /// What the input is, where an option tells.
    pub fn asked_format(&self) -> Option<Format> {
        self.block.as_ref().map(|_| Format::Log).or(self.format)
    }
}

fn unknown(option: &str) -> Failure {
    Failure::Usage(format!("unknown option {}", tools::text::shown(option.as_bytes())))
}

fn shown(value: &OsStr) -> String {
    tools::text::shown(value.as_encoded_bytes())
}
