//! A call in words, as it stands in its row.

use twin::calllog::Asked;

use crate::account::{Account, Answer, Meaning};
use crate::text::shown;

/// The most characters of a Write's or a Read's bytes, of a line that is no call, and of a line in a note.
const DATA: usize = 24;
const ASIDE: usize = 96;
const SOURCE: usize = 160;

pub fn words(account: &Account) -> String {
    match &account.meaning {
        Meaning::Call(asked) => call(account, asked, account.answer.as_ref()),
        Meaning::Bad { .. } if account.line.is_empty() => "an empty line".to_string(),
        Meaning::Bad { .. } | Meaning::Recorded { .. } | Meaning::Version(_) => cut(account.shown(), ASIDE),
        Meaning::Comment => cut(account.shown(), ASIDE),
    }
}

/// The line itself, for its note.
pub fn source(account: &Account) -> String {
    cut(account.shown(), SOURCE)
}

/// The answer, for the note. The bytes of a Read are shown as text.
pub fn answer(account: &Account) -> String {
    match &account.answer {
        None => String::new(),
        Some(Answer::Bytes(bytes)) => format!("ok: {}", data(bytes, SOURCE)),
        Some(answer) => answer.named(),
    }
}

fn call(account: &Account, asked: &Asked, answer: Option<&Answer>) -> String {
    let words = match asked {
        Asked::Fresh(_) => "Fresh store".to_string(),
        Asked::Begin(_) => "Begin".to_string(),
        Asked::Commit { minute, .. } if account.line.contains(&b' ') => format!("Commit at {}", clock(*minute)),
        Asked::Commit { .. } => "Commit".to_string(),
        Asked::Abort(_) => "Abort".to_string(),
        Asked::Pointer { descriptor, .. } => pointer(*descriptor, answer),
        Asked::Seek { descriptor, to, .. } => format!("Seek {descriptor} to {to}"),
        Asked::Write { descriptor, data: bytes, .. } => format!("Write {descriptor}: {}", data(bytes, DATA)),
        Asked::Read { descriptor, count, .. } => read(*descriptor, *count, answer),
        Asked::Places { file, .. } => places(*file, answer),
        Asked::Window { file, start, end } => format!("Window of file {file}: {} to {}", clock(*start), clock(*end)),
        Asked::Undo => undo(account),
        Asked::Order { minute, list, .. } => order(*minute, list, answer),
    };
    match crate::account::named_transaction(asked) {
        Some(number) if account.transaction().is_none() => format!("{words} of transaction {number}"),
        _ => words,
    }
}

fn pointer(descriptor: u64, answer: Option<&Answer>) -> String {
    match answer {
        Some(Answer::Offset(offset)) => format!("offset of {descriptor}: {offset}"),
        _ => format!("offset of {descriptor}"),
    }
}

fn read(descriptor: u64, count: u64, answer: Option<&Answer>) -> String {
    match answer {
        Some(Answer::Bytes(bytes)) if bytes.is_empty() => format!("Read {descriptor}, 0 of {count}"),
        Some(Answer::Bytes(bytes)) => format!("Read {descriptor}, {} of {count}: {}", bytes.len(), data(bytes, DATA)),
        _ => format!("Read {descriptor}, {count}"),
    }
}

fn places(file: u64, answer: Option<&Answer>) -> String {
    let Some(Answer::Places(pairs)) = answer else { return format!("Places of file {file}") };
    let stretch = |&(offset, length): &(u16, u16)| match length {
        1 => offset.to_string(),
        _ => format!("{offset} to {}", u32::from(offset) + u32::from(length) - 1),
    };
    let stretches: Vec<String> = pairs.iter().map(stretch).collect();
    let listed = if stretches.is_empty() { "none".to_string() } else { stretches.join(", ") };
    cut(format!("Places of file {file}: {listed}"), ASIDE)
}

/// Which grant an undo took back.
fn undo(account: &Account) -> String {
    match super::gather::undone(account) {
        Some(commit) => format!("Undo takes back the grant {}", commit.after("of line")),
        None => "Undo".to_string(),
    }
}

fn order(minute: u64, list: &[u8], answer: Option<&Answer>) -> String {
    let asked = format!("Best order of {} at {}", numbers(list), clock(minute));
    match answer {
        Some(Answer::Order { grants, order, .. }) => format!("{asked}: {} ({grants} granted)", numbers(order)),
        _ => asked,
    }
}

fn numbers(list: &[u8]) -> String {
    if list.is_empty() {
        return "none".to_string();
    }
    list.iter().map(u8::to_string).collect::<Vec<String>>().join(", ")
}

/// A minute of the day as the clock shows it, with its number; a greater one as it is.
fn clock(minute: u64) -> String {
    if minute < 1440 {
        return format!("{:02}:{:02}", minute / 60, minute % 60);
    }
    format!("minute {minute}")
}

fn data(bytes: &[u8], most: usize) -> String {
    let part = &bytes[..bytes.len().min(most + 1)];
    if bytes.is_empty() {
        return "no byte".to_string();
    }
    cut(shown(part), most)
}

/// A printable text, its end replaced where it is too long.
fn cut(text: String, most: usize) -> String {
    if text.len() <= most {
        return text;
    }
    let kept: String = text.chars().take(most - 1).collect();
    kept + "…"
}

#[cfg(test)]
mod tests {
    use super::*;

    #[test]
    fn minutes() {
        let shown = [0, 842, 1439, 1440].map(clock);
        assert_eq!(shown, ["00:00", "14:02", "23:59", "minute 1440"]);
    }

    #[test]
    fn bytes() {
        assert_eq!(data(b"", 24), "no byte");
        assert_eq!(data(b"Hello", 24), "Hello");
        assert_eq!(data(&[b'x'; 25], 24), format!("{}…", "x".repeat(23)));
        assert_eq!(data(b"<b>\x1b", 24), "<b>\\x1b");
    }
}
