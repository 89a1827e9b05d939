//! The lines of a call log (docs/CALLLOG.md): what a line says, and the line of a call.

use crate::call::{Action, Call, Step};
use crate::store::SPAN;

/// The version of the format.
pub const VERSION: u64 = 1;
/// The most bytes of a line, without its end.
pub const LONGEST: usize = 8237;
/// The most bytes of a line that has a Write's bytes as they are.
const LONGEST_TEXT: usize = 128;
/// The most bytes of a Write on a line. A longer Write is refused as its first bytes are.
const MOST_WRITTEN: usize = SPAN + 1;
/// The longest buffer for an answer that a call is made with. A longer one makes no difference.
const MOST_ROOM: u64 = SPAN as u64 + 1;
/// The buffer of a Read whose line names none.
const TRACE_ROOM: u64 = SPAN as u64;
/// The most numbers of a line.
const MOST_NUMBERS: usize = 18;
/// How many numbers of Fresh's list and of an order's list are recorded: enough to be refused for.
const FRESH_RECORDED: usize = 17;
const ORDER_RECORDED: usize = 15;
const MOST_DIGITS: usize = 20;

/// What a line says.
#[derive(Clone, Debug, PartialEq, Eq)]
pub enum Line<'a> {
    /// A comment, or an empty line.
    Comment,
    Version(u64),
    Asks(Asked),
    /// The answer that the call before had.
    Answered(&'a [u8]),
    /// It has another form.
    Other,
}

/// A call as a line has it: of the buffer for an answer it has the length.
#[derive(Clone, Debug, PartialEq, Eq)]
pub enum Asked {
    Fresh(Vec<u8>),
    Begin(u64),
    Commit { transaction: u64, minute: u64 },
    Abort(u64),
    Pointer { transaction: u64, descriptor: u64 },
    Seek { transaction: u64, descriptor: u64, to: u64 },
    Write { transaction: u64, descriptor: u64, data: Vec<u8> },
    Read { transaction: u64, descriptor: u64, count: u64, room: u64 },
    Places { transaction: u64, file: u64, room: u64 },
    Window { file: u64, start: u64, end: u64 },
    Undo,
    Order { minute: u64, budget: u64, list: Vec<u8> },
}

// Reading.

/// What a line says. It comes without its end.
pub fn parse(line: &[u8]) -> Line<'_> {
    if line.len() > LONGEST {
        return Line::Other;
    }
    match line {
        [] | [b'#', ..] => Line::Comment,
        [b'=', b' ', answer @ ..] => Line::Answered(answer),
        [b'V', rest @ ..] => match numbers(rest).as_deref() {
            Some([version]) => Line::Version(*version),
            _ => Line::Other,
        },
        [letter, rest @ ..] => asked(*letter, rest, line.len()).map_or(Line::Other, Line::Asks),
    }
}

fn asked(letter: u8, rest: &[u8], length: usize) -> Option<Asked> {
    match letter {
        b'W' if length <= LONGEST_TEXT => written(rest, text),
        b'X' => written(rest, hexadecimal),
        b'W' => None,
        _ => of_numbers(letter, &numbers(rest)?),
    }
}

/// The call of a letter and its numbers.
fn of_numbers(letter: u8, numbers: &[u64]) -> Option<Asked> {
    Some(match (letter, numbers) {
        (b'F', _) => Asked::Fresh(octets(numbers)?),
        (b'B', &[t]) => Asked::Begin(t),
        (b'C', &[t]) => Asked::Commit { transaction: t, minute: 0 },
        (b'C', &[t, minute]) => Asked::Commit { transaction: t, minute },
        (b'A', &[t]) => Asked::Abort(t),
        (b'P', &[t, d]) => Asked::Pointer { transaction: t, descriptor: d },
        (b'S', &[t, d, to]) => Asked::Seek { transaction: t, descriptor: d, to },
        (b'R', &[t, d, count]) => Asked::Read { transaction: t, descriptor: d, count, room: TRACE_ROOM },
        (b'R', &[t, d, count, room]) => Asked::Read { transaction: t, descriptor: d, count, room },
        (b'L', &[t, file, room]) => Asked::Places { transaction: t, file, room },
        (b'H', &[file, start, end]) => Asked::Window { file, start, end },
        (b'U', &[]) => Asked::Undo,
        (b'O', &[minute, budget, ..]) => Asked::Order { minute, budget, list: octets(&numbers[2..])? },
        _ => return None,
    })
}

/// A Write: transaction and descriptor, and its bytes from what follows them.
fn written(rest: &[u8], bytes: fn(&[u8]) -> Option<Vec<u8>>) -> Option<Asked> {
    let (transaction, rest) = number(rest)?;
    let (descriptor, rest) = number(rest.strip_prefix(b" ")?)?;
    Some(Asked::Write { transaction, descriptor, data: bytes(rest)? })
}

/// One space, and the bytes as they are.
fn text(rest: &[u8]) -> Option<Vec<u8>> {
    rest.strip_prefix(b" ").map(<[u8]>::to_vec)
}

/// Nothing, or one space and hexadecimal pairs.
fn hexadecimal(rest: &[u8]) -> Option<Vec<u8>> {
    if rest.is_empty() {
        return Some(Vec::new());
    }
    let digits = rest.strip_prefix(b" ")?;
    if digits.len() % 2 != 0 || digits.len() > 2 * MOST_WRITTEN {
        return None;
    }
    digits.chunks(2).map(|pair| Some(16 * worth(pair[0])? + worth(pair[1])?)).collect()
}

/// What a hexadecimal digit is worth; capital letters are none.
fn worth(digit: u8) -> Option<u8> {
    match digit {
        b'0'..=b'9' => Some(digit - b'0'),
        b'a'..=b'f' => Some(digit - b'a' + 10),
        _ => None,
    }
}

/// The numbers of a whole line: none, or one directly and each further one after one space.
fn numbers(rest: &[u8]) -> Option<Vec<u64>> {
    let mut numbers = Vec::new();
    let mut rest = rest;
    while !rest.is_empty() {
        if !numbers.is_empty() {
            rest = rest.strip_prefix(b" ")?;
        }
        let (value, behind) = number(rest)?;
        numbers.push(value);
        rest = behind;
    }
    (numbers.len() <= MOST_NUMBERS).then_some(numbers)
}

/// A number of 1 to 20 digits below 2^64, and what follows it.
fn number(bytes: &[u8]) -> Option<(u64, &[u8])> {
    let count = bytes.iter().take_while(|byte| byte.is_ascii_digit()).count();
    if count > MOST_DIGITS {
        return None;
    }
    let (digits, rest) = bytes.split_at(count);
    let value = std::str::from_utf8(digits).ok()?.parse().ok()?;
    Some((value, rest))
}

fn octets(numbers: &[u64]) -> Option<Vec<u8>> {
    numbers.iter().map(|&number| u8::try_from(number).ok()).collect()
}

// Recording.

impl Asked {
    /// The call as it is recorded; none for a dispatcher, which is recorded as the calls that it makes.
    pub fn of(call: &Call) -> Option<Asked> {
        Some(match call {
            Call::Fresh { files } => Asked::Fresh(files.iter().take(FRESH_RECORDED).copied().collect()),
            Call::Begin(t) => Asked::Begin(*t as u64),
            Call::Step(t, step) => Asked::of_step(*t as u64, step),
            Call::Places { transaction, file, buffer } => {
                Asked::Places { transaction: *transaction as u64, file: *file as u64, room: buffer.len() as u64 }
            }
            Call::Commit { transaction, minute } => {
                Asked::Commit { transaction: *transaction as u64, minute: *minute as u64 }
            }
            Call::Abort(t) => Asked::Abort(*t as u64),
            Call::Window { file, start, end } => {
                Asked::Window { file: *file as u64, start: *start as u64, end: *end as u64 }
            }
            Call::Undo => Asked::Undo,
            Call::Dispatch(_) => return None,
            Call::Best { list, minute, budget } => Asked::of_order(list, *minute, *budget)?,
        })
    }

    fn of_step(transaction: u64, step: &Step) -> Asked {
        let descriptor = step.descriptor as u64;
        match &step.action {
            Action::Seek { to } => Asked::Seek { transaction, descriptor, to: *to as u64 },
            Action::Write { data } => {
                let data = data[..data.len().min(MOST_WRITTEN)].to_vec();
                Asked::Write { transaction, descriptor, data }
            }
            Action::GetFilePointer => Asked::Pointer { transaction, descriptor },
            Action::Read { count, buffer } => {
                Asked::Read { transaction, descriptor, count: *count as u64, room: buffer.len() as u64 }
            }
        }
    }

    /// None where a number of the list is no octet: no caller can hand one over.
    fn of_order(list: &[usize], minute: usize, budget: usize) -> Option<Asked> {
        let recorded = list.iter().take(ORDER_RECORDED);
        let list = recorded.map(|&t| u8::try_from(t).ok()).collect::<Option<_>>()?;
        Some(Asked::Order { minute: minute as u64, budget: budget as u64, list })
    }

    /// The line, without its end.
    pub fn line(&self) -> Vec<u8> {
        match self {
            Asked::Fresh(files) => lettered('F', &widened(files)),
            Asked::Begin(t) => lettered('B', &[*t]),
            Asked::Commit { transaction, minute } => lettered('C', &[*transaction, *minute]),
            Asked::Abort(t) => lettered('A', &[*t]),
            Asked::Pointer { transaction, descriptor } => lettered('P', &[*transaction, *descriptor]),
            Asked::Seek { transaction, descriptor, to } => lettered('S', &[*transaction, *descriptor, *to]),
            Asked::Write { transaction, descriptor, data } => write_line(*transaction, *descriptor, data),
            Asked::Read { transaction, descriptor, count, room } => {
                lettered('R', &[*transaction, *descriptor, *count, *room])
            }
            Asked::Places { transaction, file, room } => lettered('L', &[*transaction, *file, *room]),
            Asked::Window { file, start, end } => lettered('H', &[*file, *start, *end]),
            Asked::Undo => lettered('U', &[]),
            Asked::Order { minute, budget, list } => lettered('O', &[vec![*minute, *budget], widened(list)].concat()),
        }
    }
}

fn widened(octets: &[u8]) -> Vec<u64> {
    octets.iter().map(|&octet| octet.into()).collect()
}

/// A letter and its numbers, with one space between them.
fn lettered(letter: char, numbers: &[u64]) -> Vec<u8> {
    let numbers: Vec<String> = numbers.iter().map(u64::to_string).collect();
    format!("{letter}{}", numbers.join(" ")).into_bytes()
}

/// The bytes as they are where all are printable and the line is short enough; else as hexadecimal pairs.
fn write_line(transaction: u64, descriptor: u64, data: &[u8]) -> Vec<u8> {
    let printable = data.iter().all(|byte| (b' '..=b'~').contains(byte));
    let text = [&lettered('W', &[transaction, descriptor]), b" ".as_slice(), data].concat();
    if printable && text.len() <= LONGEST_TEXT {
        return text;
    }
    [&lettered('X', &[transaction, descriptor]), b" ".as_slice(), &pairs(data)].concat()
}

/// The bytes as hexadecimal pairs.
pub fn pairs(bytes: &[u8]) -> Vec<u8> {
    let digits = b"0123456789abcdef";
    bytes.iter().flat_map(|byte| [digits[usize::from(byte >> 4)], digits[usize::from(byte & 15)]]).collect()
}

// Performing.

impl Asked {
    /// The call that replays the line, with zeros in the buffer for its answer.
    pub fn call(&self) -> Call {
        match self {
            Asked::Fresh(files) => Call::Fresh { files: files.clone() },
            Asked::Begin(t) => Call::Begin(*t as usize),
            Asked::Commit { transaction, minute } => {
                Call::Commit { transaction: *transaction as usize, minute: *minute as usize }
            }
            Asked::Abort(t) => Call::Abort(*t as usize),
            Asked::Pointer { transaction, descriptor } => step(*transaction, *descriptor, Action::GetFilePointer),
            Asked::Seek { transaction, descriptor, to } => {
                step(*transaction, *descriptor, Action::Seek { to: *to as usize })
            }
            Asked::Write { transaction, descriptor, data } => {
                step(*transaction, *descriptor, Action::Write { data: data.clone() })
            }
            Asked::Read { transaction, descriptor, count, room } => {
                step(*transaction, *descriptor, reading(*count, *room))
            }
            Asked::Places { transaction, file, room } => {
                Call::Places { transaction: *transaction as usize, file: *file as usize, buffer: zeros(*room) }
            }
            Asked::Window { file, start, end } => {
                Call::Window { file: *file as usize, start: *start as usize, end: *end as usize }
            }
            Asked::Undo => Call::Undo,
            Asked::Order { minute, budget, list } => Call::Best {
                list: list.iter().map(|&t| t.into()).collect(),
                minute: *minute as usize,
                budget: *budget as usize,
            },
        }
    }
}

fn step(transaction: u64, descriptor: u64, action: Action) -> Call {
    Call::Step(transaction as usize, Step { descriptor: descriptor as usize, action })
}

fn zeros(room: u64) -> Vec<u8> {
    vec![0; room.min(MOST_ROOM) as usize]
}

/// A Read into at most 4,097 bytes. A file has fewer, so that more bytes wanted make no difference; more than the buffer has
/// stay more.
fn reading(count: u64, room: u64) -> Action {
    let buffer = zeros(room);
    let most = buffer.len() as u64;
    let count = if count > room { most + 1 } else { count.min(most) };
    Action::Read { count: count as usize, buffer }
}

#[cfg(test)]
mod tests {
    use super::*;

    fn asks(line: &str) -> Option<Asked> {
        match parse(line.as_bytes()) {
            Line::Asks(asked) => Some(asked),
            _ => None,
        }
    }

    fn write(transaction: u64, descriptor: u64, data: &[u8]) -> Asked {
        Asked::Write { transaction, descriptor, data: data.to_vec() }
    }

    #[test]
    fn each_form() {
        let usual = [0, 1, 2, 3, 4, 5, 6, 7, 0, 1, 2, 3, 4, 5, 6, 7];
        let calls = [
            ("F0 1 2 3 4 5 6 7 0 1 2 3 4 5 6 7", Asked::Fresh(usual.to_vec())),
            ("F", Asked::Fresh(vec![])),
            ("B0", Asked::Begin(0)),
            ("C0 600", Asked::Commit { transaction: 0, minute: 600 }),
            ("A7", Asked::Abort(7)),
            ("P0 3", Asked::Pointer { transaction: 0, descriptor: 3 }),
            ("S0 3 17", Asked::Seek { transaction: 0, descriptor: 3, to: 17 }),
            ("W0 3 hi", write(0, 3, b"hi")),
            ("W0 3 ", write(0, 3, b"")),
            ("X0 3 68690a", write(0, 3, b"hi\n")),
            ("R0 3 5 64", Asked::Read { transaction: 0, descriptor: 3, count: 5, room: 64 }),
            ("L0 2 64", Asked::Places { transaction: 0, file: 2, room: 64 }),
            ("H2 480 1320", Asked::Window { file: 2, start: 480, end: 1320 }),
            ("U", Asked::Undo),
            ("O600 40320 2 0 1", Asked::Order { minute: 600, budget: 40320, list: vec![2, 0, 1] }),
            ("O600 40320", Asked::Order { minute: 600, budget: 40320, list: vec![] }),
        ];
        for (line, asked) in calls {
            assert_eq!(asks(line).as_ref(), Some(&asked), "{line}");
            assert_eq!(String::from_utf8(asked.line()).as_deref(), Ok(line));
        }
    }

    #[test]
    fn forms_that_are_not_recorded() {
        assert_eq!(asks("C0"), asks("C0 0"));
        assert_eq!(asks("R0 3 5"), asks("R0 3 5 4096"));
        assert_eq!(asks("X0 3"), Some(write(0, 3, b"")));
        assert_eq!(asks("B00000000000000000007"), Some(Asked::Begin(7)));
        assert_eq!(asks("B18446744073709551615"), Some(Asked::Begin(u64::MAX)));
        assert_eq!((parse(b"V1"), parse(b"V007")), (Line::Version(1), Line::Version(7)));
        assert_eq!((parse(b""), parse(b"#\xff")), (Line::Comment, Line::Comment));
        assert_eq!((parse(b"= ok 2"), parse(b"= ")), (Line::Answered(b"ok 2"), Line::Answered(b"")));
    }

    #[test]
    fn other_forms() {
        let lines = "B|B |Bx|B-1|b0|B0 |B0 0|B 0|B18446744073709551616|B000000000000000000007|C|C0 |C0 1 2|A|P0|P0 3 |\
            P0  3|S0 3|R0 3|R0 3 5 64 1|L0 2|L0 2 64 1|H2 480|U0|U |O600|O|O1 2 256|F256|F 0|W0 3|W0|X0|X0 3 6|X0 3 6A|\
            X0 3 6g|X0 3  68|X0 3 68 |=|=ok|V|V1 1|Vx|V |?|\r|B0\r";
        for line in lines.split('|') {
            assert_eq!(parse(line.as_bytes()), Line::Other, "{line}");
        }
    }

    #[test]
    fn longest_lists_and_lines() {
        let numbers = |count: usize| vec!["7"; count].join(" ");
        assert_eq!(asks(&format!("F{}", numbers(18))), Some(Asked::Fresh(vec![7; 18])));
        assert_eq!(asks(&format!("F{}", numbers(19))), None);
        assert_eq!(asks(&format!("O{}", numbers(18))), Some(Asked::Order { minute: 7, budget: 7, list: vec![7; 16] }));
        assert_eq!(asks(&format!("O{}", numbers(19))), None);
        let text = |length: usize| format!("W0 3 {}", "x".repeat(length));
        assert_eq!((asks(&text(123)), asks(&text(124))), (Some(write(0, 3, &[b'x'; 123])), None));
        let pairs = |count: usize| format!("X0 3 {}", "00".repeat(count));
        assert_eq!((asks(&pairs(4097)), asks(&pairs(4098))), (Some(write(0, 3, &[0; 4097])), None));
        let comment = |length: usize| "#".repeat(length).into_bytes();
        assert_eq!((parse(&comment(LONGEST)), parse(&comment(LONGEST + 1))), (Line::Comment, Line::Other));
        assert_eq!(write(u64::MAX, u64::MAX, &[0; 4097]).line().len(), LONGEST);
    }

    #[test]
    fn text_where_it_is_printable_and_short() {
        let line = |data: &[u8]| String::from_utf8(write(0, 3, data).line()).expect("letters");
        assert_eq!((line(b" ~"), line(b"")), ("W0 3  ~".to_string(), "W0 3 ".to_string()));
        assert_eq!(
            (line(b"\x1f"), line(b"\x7f"), line(b"a\n")),
            ("X0 3 1f".into(), "X0 3 7f".into(), "X0 3 610a".into())
        );
        assert_eq!(line(&[b'x'; 123]).len(), 128);
        assert_eq!(line(&[b'x'; 124]), format!("X0 3 {}", "78".repeat(124)));
    }

    #[test]
    fn what_is_cut() {
        let longer = Call::Fresh { files: vec![1; 20] };
        assert_eq!(Asked::of(&longer), Some(Asked::Fresh(vec![1; 17])));
        let longer = Call::Best { list: vec![1; 20], minute: 0, budget: 1 };
        assert_eq!(Asked::of(&longer), Some(Asked::Order { minute: 0, budget: 1, list: vec![1; 15] }));
        let longer = step(0, 3, Action::Write { data: vec![0; 5000] });
        assert_eq!(Asked::of(&longer), Some(write(0, 3, &[0; 4097])));
    }

    #[test]
    fn rooms() {
        let read = |count, room| match reading(count, room) {
            Action::Read { count, buffer } => (count, buffer.len()),
            _ => unreachable!("it is a Read"),
        };
        assert_eq!((read(5, 64), read(64, 64), read(65, 64)), ((5, 64), (64, 64), (65, 64)));
        assert_eq!((read(4097, 5000), read(5000, 5000), read(5001, 5000)), ((4097, 4097), (4097, 4097), (4098, 4097)));
        assert_eq!((read(u64::MAX, u64::MAX), read(u64::MAX, 0)), ((4097, 4097), (1, 0)));
    }
}
