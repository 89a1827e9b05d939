//! The input, cut into lines. Of a line of any length only the first bytes are kept.

use std::io::{self, BufRead};

use twin::calllog::{self, Line};

const LINE_END: u8 = 10;
const RETURN: u8 = 13;
/// The most bytes of a trace's line, without its end.
const TRACE_LONGEST: usize = 128;
/// One more than the longest line has.
const KEPT: usize = calllog::LONGEST + 1;

/// What the input is.
#[derive(Clone, Copy, Debug, PartialEq, Eq)]
pub enum Format {
    /// The lines of request F-5, as the program `trace` reads them.
    Trace,
    /// The lines of docs/CALLLOG.md, as the program `replay` reads them.
    Log,
}

impl Format {
    /// A log begins with its version. One without it has to be called a log.
    pub fn of_first_line(line: &[u8]) -> Format {
        match calllog::parse(line) {
            Line::Version(_) => Format::Log,
            _ => Format::Trace,
        }
    }

    /// The most bytes of a line, without its end.
    pub fn longest(self) -> usize {
        match self {
            Format::Trace => TRACE_LONGEST,
            Format::Log => calllog::LONGEST,
        }
    }
}

/// A line without its end.
#[derive(Clone, Debug, Default, PartialEq, Eq)]
pub struct RawLine {
    /// Its first bytes: all of them, if it is not longer than any line may be.
    pub bytes: Vec<u8>,
    /// How many it has.
    pub length: u64,
}

/// An input and what it is.
pub struct Source<R> {
    input: R,
    /// Does byte 13 before byte 10 belong to the line's end?
    crlf: bool,
    format: Format,
    /// The first line, until it is asked for.
    first: Option<RawLine>,
}

impl<R: BufRead> Source<R> {
    /// Reads the first line, which tells what the input is, unless `format` does.
    pub fn new(mut input: R, crlf: bool, format: Option<Format>) -> io::Result<Source<R>> {
        let mut first = RawLine::default();
        let found = next_line(&mut input, crlf, &mut first)?;
        let format = format.unwrap_or_else(|| Format::of_first_line(&first.bytes));
        Ok(Source { input, crlf, format, first: found.then_some(first) })
    }

    pub fn format(&self) -> Format {
        self.format
    }

    /// Is there a next line?
    pub fn next(&mut self, line: &mut RawLine) -> io::Result<bool> {
        match self.first.take() {
            Some(first) => {
                *line = first;
                Ok(true)
            }
            None => next_line(&mut self.input, self.crlf, line),
        }
    }
}

/// Takes the next line from the input. Is there one? A line ends at byte 10, the last one also at the end of the
/// input, where an empty rest is no line.
pub fn next_line(input: &mut impl BufRead, crlf: bool, line: &mut RawLine) -> io::Result<bool> {
    line.bytes.clear();
    line.length = 0;
    let mut last = 0;
    loop {
        let waiting = match input.fill_buf() {
            Err(error) if error.kind() == io::ErrorKind::Interrupted => continue,
            waiting => waiting?,
        };
        if waiting.is_empty() {
            return Ok(line.length > 0);
        }
        let end = waiting.iter().position(|&byte| byte == LINE_END);
        let part = &waiting[..end.unwrap_or(waiting.len())];
        let room = KEPT - line.bytes.len();
        line.bytes.extend_from_slice(&part[..part.len().min(room)]);
        line.length += part.len() as u64;
        last = part.last().copied().unwrap_or(last);
        let taken = part.len() + usize::from(end.is_some());
        input.consume(taken);
        if end.is_some() {
            if crlf && last == RETURN {
                drop_return(line);
            }
            return Ok(true);
        }
    }
}

fn drop_return(line: &mut RawLine) {
    line.length -= 1;
    if line.bytes.len() as u64 > line.length {
        line.bytes.pop();
    }
}

#[cfg(test)]
mod tests {
    use super::*;

    fn cut(input: &[u8], crlf: bool) -> Vec<(Vec<u8>, u64)> {
        let mut input = io::BufReader::with_capacity(3, input);
        let mut line = RawLine::default();
        let mut lines = Vec::new();
        while next_line(&mut input, crlf, &mut line).expect("memory is read") {
            lines.push((line.bytes.clone(), line.length));
        }
        lines
    }

    fn texts(input: &[u8], crlf: bool) -> Vec<String> {
        cut(input, crlf).into_iter().map(|(bytes, _)| String::from_utf8(bytes).expect("letters")).collect()
    }

    #[test]
    fn ends_of_lines() {
        assert_eq!(texts(b"", false), [""; 0]);
        assert_eq!(texts(b"\n\nB0", false), ["", "", "B0"]);
        assert_eq!(texts(b"B0\n", false), ["B0"]);
        assert_eq!(texts(b"B0\r\nB1\r", false), ["B0\r", "B1\r"]);
        assert_eq!(texts(b"B0\r\nB1\r", true), ["B0", "B1\r"]);
        assert_eq!(texts(b"\r\r\n\r\n", true), ["\r", ""]);
    }

    #[test]
    fn a_long_line_is_counted_and_cut() {
        let long = vec![b'x'; 70_000];
        assert_eq!(cut(&long, false), [(vec![b'x'; KEPT], 70_000)]);
        assert_eq!(cut(&[&long, b"\r\n".as_slice()].concat(), true), [(vec![b'x'; KEPT], 70_000)]);
        let edge = [vec![b'x'; KEPT - 1], b"\r\nB0\n".to_vec()].concat();
        assert_eq!(cut(&edge, true), [(vec![b'x'; KEPT - 1], KEPT as u64 - 1), (b"B0".to_vec(), 2)]);
    }

    #[test]
    fn the_first_line_tells_the_format() {
        let format = |input: &[u8]| Source::new(input, false, None).expect("memory is read").format();
        assert_eq!(format(b"V1\nB0\n"), Format::Log);
        assert_eq!(format(b"V2"), Format::Log);
        assert_eq!(format(b"B0\nV1\n"), Format::Trace);
        assert_eq!(format(b"V\n"), Format::Trace);
        assert_eq!(format(b""), Format::Trace);
        assert_eq!(Source::new(&b"B0\n"[..], false, Some(Format::Log)).expect("memory is read").format(), Format::Log);
    }
}
