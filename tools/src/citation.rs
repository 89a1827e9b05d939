//! A line as a note cites it: its number and its first bytes.

use std::fmt;

use crate::text::Shown;

/// How many bytes of a line are cited. A citation has 32 bytes with them.
const CITED: usize = 23;
/// Stands for a length above `CITED`.
const CUT: u8 = CITED as u8 + 1;

#[derive(Clone, Copy, PartialEq, Eq)]
pub struct Citation {
    /// From 1; 0 where it was before line 1, in a saved block.
    pub line: u64,
    length: u8,
    bytes: [u8; CITED],
}

impl Citation {
    /// What a saved block holds came about before line 1.
    pub const BEFORE: Citation = Citation { line: 0, length: 0, bytes: [0; CITED] };

    pub fn new(line: u64, bytes: &[u8]) -> Citation {
        let cited = bytes.len().min(CITED);
        let mut citation = Citation { line, length: bytes.len().min(CUT.into()) as u8, ..Citation::BEFORE };
        citation.bytes[..cited].copy_from_slice(&bytes[..cited]);
        citation
    }

    /// Its first bytes, and whether there are more.
    pub fn bytes(&self) -> (&[u8], bool) {
        (&self.bytes[..usize::from(self.length).min(CITED)], self.length == CUT)
    }

    /// `at 9 (R0 1 5)`, or `before line 1`.
    pub fn after(self, preposition: &'static str) -> Placed {
        Placed { preposition, citation: self }
    }
}

impl fmt::Display for Citation {
    fn fmt(&self, f: &mut fmt::Formatter) -> fmt::Result {
        let (bytes, cut) = self.bytes();
        write!(f, "{} ({}{})", self.line, Shown(bytes), if cut { "..." } else { "" })
    }
}

impl fmt::Debug for Citation {
    fn fmt(&self, f: &mut fmt::Formatter) -> fmt::Result {
        fmt::Display::fmt(self, f)
    }
}

/// A citation with its preposition.
#[derive(Clone, Copy)]
pub struct Placed {
    preposition: &'static str,
    citation: Citation,
}

impl fmt::Display for Placed {
    fn fmt(&self, f: &mut fmt::Formatter) -> fmt::Result {
        match self.citation.line {
            0 => f.write_str("before line 1"),
            _ => write!(f, "{} {}", self.preposition, self.citation),
        }
    }
}

#[cfg(test)]
mod tests {
    use super::*;

    #[test]
    fn lines_are_cited() {
        assert_eq!(Citation::new(9, b"R0 1 5").after("at").to_string(), "at 9 (R0 1 5)");
        assert_eq!(Citation::new(12, b"W0 1 \x1b").to_string(), "12 (W0 1 \\x1b)");
        assert_eq!(Citation::new(1, &[b'x'; 23]).to_string(), format!("1 ({})", "x".repeat(23)));
        assert_eq!(Citation::new(1, &[b'x'; 24]).to_string(), format!("1 ({}...)", "x".repeat(23)));
        assert_eq!(Citation::BEFORE.after("at").to_string(), "before line 1");
        assert_eq!(std::mem::size_of::<Citation>(), 32);
    }
}
