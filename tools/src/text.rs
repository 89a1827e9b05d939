//! How bytes of the input are shown: those from 32 to 126 as they are, all others as `\xNN`. A backslash is
//! doubled, and a space at the end is `\x20`.

use std::fmt;

/// Bytes of the input, to be shown.
#[derive(Clone, Copy)]
pub struct Shown<'a>(pub &'a [u8]);

const DIGITS: &[u8; 16] = b"0123456789abcdef";

impl fmt::Display for Shown<'_> {
    fn fmt(&self, f: &mut fmt::Formatter) -> fmt::Result {
        let mut shown = Vec::with_capacity(self.0.len());
        push_shown(&mut shown, self.0);
        f.write_str(std::str::from_utf8(&shown).expect("bytes from 32 to 126"))
    }
}

/// How a byte is shown: the first so many of four.
type Form = ([u8; 4], usize);

const FORMS: [Form; 256] = {
    let mut forms = [([0; 4], 0); 256];
    let mut byte = 0;
    while byte < 256 {
        forms[byte] = form(byte as u8);
        byte += 1;
    }
    forms
};

const fn form(byte: u8) -> Form {
    match byte {
        b'\\' => (*b"\\\\  ", 2),
        b' '..=b'~' => ([byte, 0, 0, 0], 1),
        _ => escaped(byte),
    }
}

const fn escaped(byte: u8) -> Form {
    ([b'\\', b'x', DIGITS[(byte >> 4) as usize], DIGITS[(byte & 15) as usize]], 4)
}

pub fn push_shown(out: &mut Vec<u8>, bytes: &[u8]) {
    let (front, last) = match bytes.split_last() {
        Some((b' ', front)) => (front, Some(escaped(b' '))),
        _ => (bytes, None),
    };
    out.reserve(4 * bytes.len() + 4);
    front.iter().for_each(|&byte| push_form(out, FORMS[usize::from(byte)]));
    last.into_iter().for_each(|form| push_form(out, form));
}

/// Four bytes are copied faster than some of four.
fn push_form(out: &mut Vec<u8>, (bytes, length): Form) {
    let start = out.len();
    out.extend_from_slice(&bytes);
    out.truncate(start + length);
}

/// The bytes as hexadecimal pairs.
pub fn push_pairs(out: &mut Vec<u8>, bytes: &[u8]) {
    bytes.iter().for_each(|&byte| push_pair(out, byte));
}

fn push_pair(out: &mut Vec<u8>, byte: u8) {
    out.extend([DIGITS[usize::from(byte >> 4)], DIGITS[usize::from(byte & 15)]]);
}

/// The number in decimal, with spaces before it up to the width.
pub fn push_number(out: &mut Vec<u8>, number: u64, width: usize) {
    let mut text = [b' '; 20];
    let mut at = text.len();
    let mut rest = number;
    loop {
        at -= 1;
        text[at] = b'0' + (rest % 10) as u8;
        rest /= 10;
        if rest == 0 {
            break;
        }
    }
    out.extend_from_slice(&text[at.min(text.len() - width)..]);
}

/// The bytes as they are shown.
pub fn shown(bytes: &[u8]) -> String {
    Shown(bytes).to_string()
}

/// Bytes as a sentence has them, in quotes, and cut where there are many.
pub fn quoted(bytes: &[u8]) -> String {
    const LONGEST: usize = 40;
    let cut = if bytes.len() > LONGEST { "..." } else { "" };
    format!("'{}{cut}'", Shown(&bytes[..bytes.len().min(LONGEST)]))
}

/// A count with its noun: `1 byte`, `2 bytes`.
pub fn counted(count: impl Into<u64>, noun: &str) -> String {
    match count.into() {
        1 => format!("1 {noun}"),
        count => format!("{count} {noun}s"),
    }
}

#[cfg(test)]
mod tests {
    use super::*;

    #[test]
    fn bytes_are_shown() {
        assert_eq!(shown(b"W0 3 a b"), "W0 3 a b");
        assert_eq!(shown(b"\x00\x1b[2J\x7f\xff\r"), "\\x00\\x1b[2J\\x7f\\xff\\x0d");
        assert_eq!(shown(b"\\x41"), "\\\\x41");
        assert_eq!(shown(b"a  "), "a \\x20");
        assert_eq!(shown(b" "), "\\x20");
        assert_eq!(shown(b""), "");
    }

    #[test]
    fn numbers_are_set_to_the_right() {
        for (number, width) in [(0, 0), (7, 6), (123_456, 6), (1_234_567, 6), (u64::MAX, 6), (u64::MAX, 20)] {
            let mut out = Vec::new();
            push_number(&mut out, number, width);
            assert_eq!(String::from_utf8(out).expect("digits"), format!("{number:width$}"));
        }
    }

    #[test]
    fn every_byte_is_shown_by_printable_ones() {
        for byte in 0..=255u8 {
            assert!(shown(&[byte]).bytes().all(|shown| (33..127).contains(&shown)));
        }
    }
}
