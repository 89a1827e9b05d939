//! Why a line has another form (17).

use twin::calllog::{self, Line};
use twin::store::SPAN;
use twin::trace;

use crate::account::Note;
use crate::lines::{Format, RawLine};
use crate::text::{counted, shown, Shown};

const RETURN: u8 = 13;
/// The most bytes of a line with a Write's bytes as they are.
const LONGEST_TEXT: u64 = 128;
/// The most bytes of a Write in a log's line.
const MOST_PAIRS: usize = SPAN + 1;
const MOST_NUMBERS: usize = 18;
/// How much is shown of what is too much.
const SHOWN: usize = 16;

/// What stands behind the numbers of a line.
#[derive(Clone, Copy, PartialEq, Eq)]
enum Tail {
    Nothing,
    /// One space and any bytes.
    Text,
    /// Nothing, or one space and hexadecimal pairs.
    Pairs,
    /// Octets, each behind one space, but for the first number of a line.
    Octets,
}

/// The lines of a letter: the names of their numbers, how many of them are needed, and what follows.
struct Shape {
    numbers: &'static [&'static str],
    needed: usize,
    tail: Tail,
}

impl Shape {
    const fn of(numbers: &'static [&'static str]) -> Shape {
        Shape { numbers, needed: numbers.len(), tail: Tail::Nothing }
    }

    const fn with_tail(numbers: &'static [&'static str], tail: Tail) -> Shape {
        Shape { numbers, needed: numbers.len(), tail }
    }

    /// The last number may be missing.
    const fn with_option(numbers: &'static [&'static str]) -> Shape {
        Shape { numbers, needed: numbers.len() - 1, tail: Tail::Nothing }
    }

    fn of_trace(letter: u8) -> Option<Shape> {
        Some(match letter {
            b'B' | b'C' | b'A' => Shape::of(&["transaction"]),
            b'P' => Shape::of(&["transaction", "descriptor"]),
            b'S' => Shape::of(&["transaction", "descriptor", "offset"]),
            b'R' => Shape::of(&["transaction", "descriptor", "count"]),
            b'W' => Shape::with_tail(&["transaction", "descriptor"], Tail::Text),
            _ => return None,
        })
    }

    fn of_log(letter: u8) -> Option<Shape> {
        Some(match letter {
            b'V' => Shape::of(&["version"]),
            b'F' => Shape::with_tail(&[], Tail::Octets),
            b'C' => Shape::with_option(&["transaction", "minute"]),
            b'R' => Shape::with_option(&["transaction", "descriptor", "count", "buffer's length"]),
            b'X' => Shape::with_tail(&["transaction", "descriptor"], Tail::Pairs),
            b'L' => Shape::of(&["transaction", "file", "buffer's length"]),
            b'H' => Shape::of(&["file", "start", "end"]),
            b'U' => Shape::of(&[]),
            b'O' => Shape::with_tail(&["minute", "budget"], Tail::Octets),
            letter => return Shape::of_trace(letter),
        })
    }
}

/// Would the line be good without the byte 13 at its end?
pub fn is_good_without_return(format: Format, line: &[u8]) -> bool {
    line.split_last().is_some_and(|(&last, front)| last == RETURN && is_good(format, front))
}

fn is_good(format: Format, line: &[u8]) -> bool {
    match format {
        Format::Trace => trace::accepts(line),
        Format::Log => calllog::parse(line) != Line::Other,
    }
}

/// The note for a line of another form.
pub fn note(format: Format, line: &RawLine) -> Note {
    if is_good_without_return(format, &line.bytes) {
        return Note::new("ends in byte 13", &[]);
    }
    match cause(format, line) {
        Err(cause) => Note::new(cause, &[]),
        Ok(()) => Note::new("another form", &[]),
    }
}

/// The first cause on the way through the line, as an error.
fn cause(format: Format, line: &RawLine) -> Result<(), String> {
    check_length(format, line)?;
    let [letter, rest @ ..] = &line.bytes[..] else {
        return Err("an empty line".to_string());
    };
    let shape = match format {
        Format::Trace => Shape::of_trace(*letter),
        Format::Log if *letter == b'=' => return Err("no space behind '='".to_string()),
        Format::Log => Shape::of_log(*letter),
    };
    let shape = shape.ok_or_else(|| format!("no call begins with '{}'", shown(&[*letter])))?;
    Walk { format, rest, behind: format!("'{}'", *letter as char), numbers: 0 }.pass(&shape)
}

fn check_length(format: Format, line: &RawLine) -> Result<(), String> {
    let longest = format.longest() as u64;
    if line.length > longest {
        return Err(format!("{} bytes, more than {longest}", line.length));
    }
    if line.length > LONGEST_TEXT && line.bytes[0] == b'W' {
        return Err(format!("{} bytes, more than {LONGEST_TEXT}", line.length));
    }
    Ok(())
}

/// A walk through a line behind its letter.
struct Walk<'a> {
    format: Format,
    rest: &'a [u8],
    /// What stands before the rest.
    behind: String,
    numbers: usize,
}

impl Walk<'_> {
    fn pass(&mut self, shape: &Shape) -> Result<(), String> {
        for (k, name) in shape.numbers.iter().enumerate() {
            if self.rest.is_empty() && k >= shape.needed {
                return Ok(());
            }
            self.pass_number(name)?;
        }
        match shape.tail {
            Tail::Nothing => self.check_end(),
            Tail::Text => self.pass_space("bytes"),
            Tail::Pairs if self.rest.is_empty() => Ok(()),
            Tail::Pairs => self.pass_pairs(),
            Tail::Octets => self.pass_octets(),
        }
    }

    /// The first number of a line stands directly behind the letter, each further one behind one space.
    fn pass_number(&mut self, name: &str) -> Result<u64, String> {
        if self.rest.is_empty() {
            return Err(format!("no {name}"));
        }
        if self.numbers > 0 {
            self.pass_space(name)?;
        }
        let digits = self.rest.iter().take_while(|byte| byte.is_ascii_digit()).count();
        self.check_digits(name, digits)?;
        let value = self.value(name, digits)?;
        self.rest = &self.rest[digits..];
        self.numbers += 1;
        self.behind = format!("the {name}");
        Ok(value)
    }

    fn pass_space(&mut self, name: &str) -> Result<(), String> {
        match self.rest.strip_prefix(b" ") {
            Some(rest) => {
                self.rest = rest;
                Ok(())
            }
            None => Err(format!("no space between {} and the {name}", self.behind)),
        }
    }

    fn check_digits(&self, name: &str, digits: usize) -> Result<(), String> {
        let most = match self.format {
            Format::Trace if self.numbers == 0 => 1,
            Format::Trace => 5,
            Format::Log => 20,
        };
        match (digits, self.rest.first()) {
            (0, None) => Err(format!("no {name}")),
            (0, Some(b' ')) => Err(format!("a space too many before the {name}")),
            (0, Some(&byte)) => Err(format!("the {name} begins with '{}'", shown(&[byte]))),
            _ if digits > most => Err(format!("the {name} has {digits} digits, more than {most}")),
            _ => Ok(()),
        }
    }

    fn value(&self, name: &str, digits: usize) -> Result<u64, String> {
        let text = shown(&self.rest[..digits]);
        text.parse().map_err(|_| format!("the {name} is {text}, not below 2^64"))
    }

    fn check_end(&self) -> Result<(), String> {
        match self.rest {
            [] => Ok(()),
            rest if rest.iter().all(|&byte| byte == b' ') => Err("a space too many at the end".to_string()),
            rest => Err(format!("'{}' too much behind {}", Shown(&rest[..rest.len().min(SHOWN)]), self.behind)),
        }
    }

    fn pass_pairs(&mut self) -> Result<(), String> {
        self.pass_space("pairs")?;
        let digit = |byte: &u8| matches!(byte, b'0'..=b'9' | b'a'..=b'f');
        if let Some(&other) = self.rest.iter().find(|byte| !digit(byte)) {
            return Err(format!("'{}' is no hexadecimal digit in lower case", shown(&[other])));
        }
        let digits = self.rest.len();
        if digits % 2 == 1 {
            return Err(format!("{}, and a pair has two", counted(digits as u64, "hexadecimal digit")));
        }
        if digits > 2 * MOST_PAIRS {
            return Err(format!("{} pairs, more than {MOST_PAIRS}", digits / 2));
        }
        Ok(())
    }

    fn pass_octets(&mut self) -> Result<(), String> {
        let name = match self.numbers {
            0 => "file",
            _ => "transaction",
        };
        while !self.rest.is_empty() {
            let value = self.pass_number(name)?;
            if value > 255 {
                return Err(format!("the {name} is {value}, above 255"));
            }
        }
        if self.numbers > MOST_NUMBERS {
            return Err(format!("{} numbers, more than {MOST_NUMBERS}", self.numbers));
        }
        Ok(())
    }
}

#[cfg(test)]
mod tests {
    use super::*;

    fn raw(line: &[u8]) -> RawLine {
        RawLine { bytes: line.to_vec(), length: line.len() as u64 }
    }

    fn lines(text: &[u8]) -> impl Iterator<Item = &[u8]> {
        text.split(|&byte| byte == b'\n')
    }

    /// The walk finds a cause in a line exactly where the twin answers 17.
    #[track_caller]
    fn check(format: Format, line: &[u8]) {
        let comment = format == Format::Log && matches!(calllog::parse(line), Line::Comment | Line::Answered(_));
        assert_eq!(cause(format, &raw(line)).is_ok() || comment, is_good(format, line), "{}", shown(line));
    }

    #[test]
    fn a_cause_is_found_in_every_bad_line_and_in_no_good_one() {
        for seed in 0..20 {
            let mut text = Vec::new();
            twin::traces::write(&mut text, seed, 5000).expect("memory is written");
            lines(&text).for_each(|line| check(Format::Trace, line));
            lines(&text).for_each(|line| check(Format::Log, line));
            text.clear();
            twin::logs::write_lines(&mut text, seed, 5000).expect("memory is written");
            lines(&text).for_each(|line| check(Format::Trace, line));
            lines(&text).for_each(|line| check(Format::Log, line));
        }
    }
}
