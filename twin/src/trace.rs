//! A trace (request F-5): calls read from an input, a line each, made on a fresh store, and a line printed for each.

use std::io::{self, BufRead, Write};

use crate::call::Refusal;
use crate::store::{Buffers, Store, DESCRIPTORS, FILES, SPAN};

/// The most bytes of a line, without its end.
const LONGEST: usize = 128;
const LINE_END: u8 = 10;
/// The minute of every Commit.
const MINUTE: usize = 0;

/// What a line asks of its transaction; the first number is a descriptor.
#[derive(Clone, Copy, Debug, PartialEq, Eq)]
pub enum Form<'a> {
    Begin,
    Commit,
    Abort,
    Pointer(usize),
    Seek(usize, usize),
    Read(usize, usize),
    Write(usize, &'a [u8]),
}

/// What is answered where a line is not refused.
enum Said<'a> {
    Nothing,
    Number(u16),
    Bytes(&'a [u8]),
}

struct Trace {
    store: Store,
    buffers: Buffers,
    reader: Vec<u8>,
}

pub fn run(input: &mut impl BufRead, out: &mut impl Write) -> io::Result<()> {
    let mut trace = Trace::new();
    let mut line = Vec::with_capacity(LONGEST + 1);
    while next_line(input, &mut line, LONGEST)? {
        trace.answer(&line, out)?;
    }
    out.flush()
}

/// Takes the next line from the input, without its end, or its first `longest` + 1 bytes. Is there one?
pub fn next_line(input: &mut impl BufRead, line: &mut Vec<u8>, longest: usize) -> io::Result<bool> {
    line.clear();
    loop {
        let waiting = input.fill_buf()?;
        if waiting.is_empty() {
            return Ok(!line.is_empty());
        }
        let end = waiting.iter().position(|&byte| byte == LINE_END);
        let part = &waiting[..end.unwrap_or(waiting.len())];
        let room = longest + 1 - line.len();
        line.extend_from_slice(&part[..part.len().min(room)]);
        let taken = part.len() + usize::from(end.is_some());
        input.consume(taken);
        if end.is_some() {
            return Ok(true);
        }
    }
}

/// Is it a line of a trace, which is not answered 17?
pub fn accepts(line: &[u8]) -> bool {
    parse(line).is_some()
}

/// The transaction and what is asked of it; none where the line has another form or is too long.
pub fn parse(line: &[u8]) -> Option<(usize, Form<'_>)> {
    let [letter, digit, rest @ ..] = line else { return None };
    if line.len() > LONGEST || !digit.is_ascii_digit() {
        return None;
    }
    let form = match (letter, rest) {
        (b'B', []) => Form::Begin,
        (b'C', []) => Form::Commit,
        (b'A', []) => Form::Abort,
        _ => through_descriptor(*letter, rest)?,
    };
    Some((usize::from(digit - b'0'), form))
}

fn through_descriptor(letter: u8, rest: &[u8]) -> Option<Form<'_>> {
    let (descriptor, rest) = number(rest)?;
    match letter {
        b'P' => rest.is_empty().then_some(Form::Pointer(descriptor)),
        b'W' => Some(Form::Write(descriptor, rest.strip_prefix(b" ")?)),
        b'S' | b'R' => {
            let (wanted, rest) = number(rest)?;
            let form = if letter == b'S' { Form::Seek(descriptor, wanted) } else { Form::Read(descriptor, wanted) };
            rest.is_empty().then_some(form)
        }
        _ => None,
    }
}

/// One space, then 1 to 5 digits: the number, and what follows.
fn number(bytes: &[u8]) -> Option<(usize, &[u8])> {
    let bytes = bytes.strip_prefix(b" ")?;
    let digits = bytes.iter().take_while(|byte| byte.is_ascii_digit()).count();
    if !(1..=5).contains(&digits) {
        return None;
    }
    let (digits, rest) = bytes.split_at(digits);
    Some((digits.iter().fold(0, |n, digit| 10 * n + usize::from(digit - b'0')), rest))
}

impl Trace {
    /// A fresh store, descriptor d in file d mod 8.
    fn new() -> Trace {
        let mut store = Store::new([0; DESCRIPTORS]);
        let mut buffers = Buffers::zeros();
        let list: Vec<u8> = (0..DESCRIPTORS).map(|d| (d % FILES) as u8).collect();
        store.fresh(&mut buffers.lend(), &list).expect("a good list");
        Trace { store, buffers, reader: vec![0; SPAN] }
    }

    /// Makes the call of a line, and prints what comes of it.
    fn answer(&mut self, line: &[u8], out: &mut impl Write) -> io::Result<()> {
        let said = match parse(line) {
            Some((transaction, form)) => self.perform(transaction, form),
            None => Err(Refusal::BadLine),
        };
        match said {
            Ok(Said::Nothing | Said::Bytes([])) => out.write_all(b"ok\n"),
            Ok(Said::Number(n)) => writeln!(out, "ok {n}"),
            Ok(Said::Bytes(bytes)) => {
                out.write_all(b"ok ")?;
                for byte in bytes {
                    let digits = b"0123456789abcdef";
                    out.write_all(&[digits[usize::from(byte >> 4)], digits[usize::from(byte & 15)]])?;
                }
                out.write_all(b"\n")
            }
            Err(refusal) => writeln!(out, "{}", refusal.number()),
        }
    }

    fn perform(&mut self, t: usize, form: Form) -> Result<Said<'_>, Refusal> {
        let mut lent = self.buffers.lend();
        match form {
            Form::Begin => self.store.begin(&mut lent, t).map(|()| Said::Nothing),
            Form::Commit => self.store.commit(&mut lent, t, MINUTE).map(|n| Said::Number(u16::from(n))),
            Form::Abort => self.store.abort(&mut lent, t).map(|()| Said::Nothing),
            Form::Pointer(d) => self.store.get_file_pointer(&mut lent, t, d).map(Said::Number),
            Form::Seek(d, to) => self.store.seek(&mut lent, t, d, to).map(|()| Said::Nothing),
            Form::Write(d, data) => self.store.write(&mut lent, t, d, data).map(|()| Said::Nothing),
            Form::Read(d, count) => {
                let given = self.store.read(&mut lent, t, d, count, &mut self.reader)?;
                Ok(Said::Bytes(&self.reader[..usize::from(given)]))
            }
        }
    }
}

#[cfg(test)]
mod tests {
    use super::*;

    fn printed(input: &[u8]) -> String {
        let mut out = Vec::new();
        run(&mut io::BufReader::with_capacity(7, input), &mut out).expect("memory is read and written");
        String::from_utf8(out).expect("letters and digits")
    }

    #[test]
    fn the_requests_four_lines() {
        assert_eq!(printed(b"B0\nW0 0 hi\nP0 0\nC0\n"), "ok\nok\nok 2\nok 0\n");
    }

    #[test]
    fn the_sample_opens_the_trace_that_the_store_is_tested_with() {
        let sample = include_str!("../../samples/afternoon.trace");
        let shown = include_str!("../../samples/afternoon.txt");
        let tested: &[u8] = include_bytes!("../../crates/trace/stdin");
        let stored = include_str!("../../crates/trace/stdout");
        assert!(tested.starts_with(sample.as_bytes()) && stored.starts_with(shown));
        assert_eq!(printed(sample.as_bytes()), shown);
        assert_eq!(printed(tested), stored);
    }

    #[test]
    fn lines_and_their_ends() {
        assert_eq!(printed(b""), "");
        assert_eq!(printed(b"\n"), "17\n");
        assert_eq!(printed(b"B0"), "ok\n");
        assert_eq!(printed(b"B0\r\nB0\n\nB0"), "17\nok\n17\n5\n");
    }

    #[test]
    fn numbers_and_spaces() {
        let input =
            b"B0\nB8\nB9\nP0 00003\nP0 000003\nP0  3\nP0 3 \nP0\nW0 3\nW0 3 \nW0 3  \nP0 3\nb0\nB00\nS0 3 x\nR0 3\n";
        assert_eq!(printed(input), "ok\n3\n3\nok 0\n17\n17\n17\n17\n17\nok\nok\nok 1\n17\n17\n17\n17\n");
    }

    #[test]
    fn long_lines() {
        let line = |data: usize| [b"W0 0 ".as_slice(), &vec![b'x'; data], b"\n"].concat();
        let input = [b"B0\n".as_slice(), &line(123), &line(124), &line(70_000), b"P0 0\n"].concat();
        assert_eq!(printed(&input), "ok\nok\n17\n17\nok 123\n");
    }

    #[test]
    fn what_a_read_gives() {
        let input = b"B0\nW0 0 \x00\n\nS0 0 0\nR0 0 0\nW0 0 \x0b\xfa\r\nS0 0 0\nR0 0 4\nR0 0 4097\n";
        assert_eq!(printed(input), "ok\nok\n17\nok\nok\nok\nok\nok 0bfa0d\n7\n");
    }
}
