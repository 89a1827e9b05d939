//! A line of the input as it is printed: its number, the line, the answer, and notes under it.

use tools::text::{push_number, push_shown};
use tools::{refusals, Account, Answer};

/// The widths of the columns of the line's number and of the line.
const NUMBER_WIDTH: usize = 6;
const LINE_WIDTH: usize = 24;
const INDENT: &[u8] = b"        ";

/// A note, indented, on a line of its own.
pub fn push_note(out: &mut Vec<u8>, text: &str) {
    out.extend_from_slice(INDENT);
    out.extend_from_slice(text.as_bytes());
    out.push(b'\n');
}

/// With `text` a Read's bytes also stand there as text.
pub fn push_row(out: &mut Vec<u8>, account: &Account, text: bool) {
    push_number(out, account.number, NUMBER_WIDTH);
    out.extend_from_slice(b"  ");
    let start = out.len();
    push_shown(out, &account.line);
    if account.is_cut() {
        out.extend_from_slice(b"...");
    }
    if let Some(answer) = &account.answer {
        let width = (out.len() - start).max(LINE_WIDTH) + 1;
        out.resize(start + width, b' ');
        push_answer(out, answer, text);
    }
    while out.last() == Some(&b' ') {
        out.pop();
    }
    out.push(b'\n');
}

fn push_answer(out: &mut Vec<u8>, answer: &Answer, text: bool) {
    answer.push(out);
    match answer {
        Answer::Refused(refusal) => {
            out.push(b' ');
            out.extend_from_slice(refusals::name(*refusal).as_bytes());
        }
        Answer::Bytes(bytes) if text && !bytes.is_empty() => {
            out.push(b' ');
            push_shown(out, bytes);
        }
        _ => {}
    }
}

/// Bytes of a file or of a Write in rows of 64, each with its place.
pub fn push_bytes(out: &mut Vec<u8>, bytes: &[u8]) {
    const ROW: usize = 64;
    for (row, part) in bytes.chunks(ROW).enumerate() {
        push_number(out, (ROW * row) as u64, 12);
        out.extend_from_slice(b"  ");
        push_shown(out, part);
        out.push(b'\n');
    }
}
