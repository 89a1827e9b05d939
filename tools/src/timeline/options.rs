//! The command line of `timeline`.

use std::ffi::{OsStr, OsString};

use crate::lines::Format;
use crate::program::Failure;
use crate::text::shown;

pub const USAGE: &str = "\
usage: timeline [--from N] [--to N] [--around N] [--title TEXT] [-o FILE] [FILE]

Draws a trace, or a log of calls, as one HTML page. No FILE, or -, is standard input.

  --from N           the page begins at line N
  --to N             the page ends at line N
  --around N         the page has line N, 200 lines before it and 200 after it
  --title TEXT       the page's title, instead of the file's name
  -o FILE            writes the page to FILE, instead of to standard output
  --crlf             byte 13 before byte 10 belongs to the line's end
  --from-block FILE  a log that starts from a saved block
  --log, --trace     what the input is; without them a log is known by its first line, V and a number
  --help             this text
  --version          the version

A page has at most 10,000 lines. Status: 0; 2 if something cannot be read, written or understood.
";

/// How many lines `--around` takes before and after its line.
const AROUND: u64 = 200;
const WITH_VALUE: [&str; 6] = ["--from", "--to", "--around", "--title", "-o", "--from-block"];

/// What the program is asked for.
#[derive(Debug)]
pub enum Task {
    Draw(Options),
    Help,
    Version,
}

#[derive(Clone, Debug, PartialEq, Eq)]
pub struct Options {
    /// The lines of the page.
    pub first: u64,
    /// None for the end of the trace.
    pub last: Option<u64>,
    /// The line that has to be there: `--around` names it.
    pub around: Option<u64>,
    pub title: Option<String>,
    pub output: Option<OsString>,
    pub file: Option<OsString>,
    pub block: Option<OsString>,
    pub crlf: bool,
    format: Option<Format>,
}

impl Options {
    /// What the input is, where an option tells.
    pub fn asked_format(&self) -> Option<Format> {
        self.block.as_ref().map(|_| Format::Log).or(self.format)
    }
}

pub fn parse(words: impl Iterator<Item = OsString>) -> Result<Task, Failure> {
    let mut given = Given::default();
    let mut words = words;
    let mut options_end = false;
    while let Some(word) = words.next() {
        if options_end || !is_option(&word) {
            given.take_file(word)?;
            continue;
        }
        match word.to_str() {
            Some("--help") => return Ok(Task::Help),
            Some("--version") => return Ok(Task::Version),
            Some("--") => options_end = true,
            _ => given.take_option(&word, &mut words)?,
        }
    }
    given.options().map(Task::Draw)
}

fn is_option(word: &OsStr) -> bool {
    word != "-" && word.as_encoded_bytes().starts_with(b"-")
}

fn usage<T>(sentence: String) -> Result<T, Failure> {
    Err(Failure::Usage(sentence))
}

#[derive(Default)]
struct Given {
    from: Option<u64>,
    to: Option<u64>,
    around: Option<u64>,
    title: Option<String>,
    output: Option<OsString>,
    file: Option<OsString>,
    block: Option<OsString>,
    crlf: bool,
    format: Option<Format>,
}

impl Given {
    fn take_option(&mut self, word: &OsStr, rest: &mut dyn Iterator<Item = OsString>) -> Result<(), Failure> {
        let (option, value) = split(word);
        let mut value = || match value.clone().or_else(|| rest.next()) {
            Some(value) => Ok(value),
            None => usage(format!("{} needs a value", shown(word.as_encoded_bytes()))),
        };
        match option {
            "--from" => self.from = Some(line_number(option, &value()?)?),
            "--to" => self.to = Some(line_number(option, &value()?)?),
            "--around" => self.around = Some(line_number(option, &value()?)?),
            "--title" => self.title = Some(value()?.to_string_lossy().into_owned()),
            "-o" => self.output = Some(value()?),
            "--from-block" => self.block = Some(value()?),
            "--crlf" => self.crlf = true,
            "--log" => self.format = Some(Format::Log),
            "--trace" => self.format = Some(Format::Trace),
            _ => return usage(format!("unknown option {}", shown(word.as_encoded_bytes()))),
        }
        Ok(())
    }

    fn take_file(&mut self, file: OsString) -> Result<(), Failure> {
        match self.file.replace(file) {
            None => Ok(()),
            Some(_) => usage("more than one FILE".to_string()),
        }
    }

    fn options(self) -> Result<Options, Failure> {
        let together = |one: &str, other: &str| usage(format!("{one} and {other} do not go together"));
        if self.around.is_some() && (self.from.is_some() || self.to.is_some()) {
            return together("--around", "--from or --to");
        }
        if self.block.is_some() && self.format == Some(Format::Trace) {
            return together("--from-block", "--trace");
        }
        let (first, last) = match self.around {
            Some(line) => (line.saturating_sub(AROUND).max(1), Some(line.saturating_add(AROUND))),
            None => (self.from.unwrap_or(1), self.to),
        };
        if last.is_some_and(|last| last < first) {
            return usage("--to is before --from".to_string());
        }
        let Given { around, title, output, file, block, crlf, format, .. } = self;
        Ok(Options { first, last, around, title, output, file, block, crlf, format })
    }
}

/// An option and the value behind its `=`.
fn split(word: &OsStr) -> (&str, Option<OsString>) {
    let text = word.to_str().unwrap_or_default();
    match text.split_once('=') {
        Some((option, value)) if option.starts_with("--") && WITH_VALUE.contains(&option) => {
            (option, Some(value.into()))
        }
        _ => (text, None),
    }
}

fn line_number(option: &str, value: &OsStr) -> Result<u64, Failure> {
    let digits = value.to_str().filter(|value| value.bytes().all(|byte| byte.is_ascii_digit()));
    match digits.and_then(|value| value.parse().ok()) {
        Some(number) if number > 0 => Ok(number),
        _ => usage(format!("{option} needs the number of a line, from 1, not {}", shown(value.as_encoded_bytes()))),
    }
}

#[cfg(test)]
mod tests {
    use super::*;

    fn parsed(words: &str) -> Result<Task, Failure> {
        parse(words.split_whitespace().map(OsString::from))
    }

    #[track_caller]
    fn options(words: &str) -> Options {
        match parsed(words) {
            Ok(Task::Draw(options)) => options,
            other => panic!("{words}: {other:?}"),
        }
    }

    fn lines(words: &str) -> (u64, Option<u64>) {
        (options(words).first, options(words).last)
    }

    #[test]
    fn parts_of_a_trace() {
        assert_eq!(lines(""), (1, None));
        assert_eq!(lines("--from 7"), (7, None));
        assert_eq!(lines("--from 7 --to=7"), (7, Some(7)));
        assert_eq!(lines("--around 201"), (1, Some(401)));
        assert_eq!(lines("--around 12"), (1, Some(212)));
        assert_eq!(lines("--around 1000"), (800, Some(1200)));
    }

    #[test]
    fn files() {
        let options = options("-o a.html --title=x=y -- -x");
        assert_eq!((options.output, options.file), (Some("a.html".into()), Some("-x".into())));
        assert_eq!(options.title.as_deref(), Some("x=y"));
    }

    #[test]
    fn formats() {
        assert_eq!(options("x").asked_format(), None);
        assert_eq!(options("--log x").asked_format(), Some(Format::Log));
        assert_eq!(options("--from-block b x").asked_format(), Some(Format::Log));
    }

    #[test]
    fn bad_arguments() {
        for bad in ["--from", "--from 0", "--from x", "--from +1", "--from 99999999999999999999", "--to 1 --from 2"] {
            assert!(matches!(parsed(bad), Err(Failure::Usage(_))), "{bad}");
        }
        for bad in ["--around 3 --to 9", "--fold", "-x", "a b", "-o", "--title", "--crlf=1", "--from-block b --trace"] {
            assert!(matches!(parsed(bad), Err(Failure::Usage(_))), "{bad}");
        }
    }

    #[test]
    fn help_and_version() {
        assert!(matches!(parsed("--help"), Ok(Task::Help)));
        assert!(matches!(parsed("x --version"), Ok(Task::Version)));
    }
}
