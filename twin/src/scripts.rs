//! The scripts of a generated dispatcher, as numbers: each call of each script is a plain function of a few of the numbers
//! drawn for the whole.

#![allow(clippy::manual_is_multiple_of)] // plain arithmetic is wanted here

use crate::generator::{self, GET_FILE_POINTER, READ, SEEK, WRITE};

/// The number of no script.
pub const NO_SCRIPT: u64 = 16;

#[derive(Clone, Copy, Debug)]
pub struct Scripts {
    /// How many there are, in some dispatchers too many.
    pub count: u64,
    /// The length of the data buffer. Byte i is that of a Write.
    pub data: u64,
    /// Which script has 17 calls, and which has Writes that end a byte past the data.
    pub long: u64,
    pub past: u64,
    pub base: u64,
    pub stride: u64,
}

/// A call of a script. A Seek goes to `number`; a Write has `length` bytes from place `number` of the data; a Read wants
/// `number` bytes.
#[derive(Clone, Copy, Debug)]
pub struct ScriptCall {
    pub kind: u64,
    pub descriptor: u64,
    pub number: u64,
    pub length: u64,
}

impl Scripts {
    /// A number for place n, as if drawn.
    fn drawn(&self, n: u64) -> u64 {
        generator::step(1 + (self.base + n * self.stride) % 2147483646)
    }

    /// How many calls script k has: mostly up to 6, sometimes up to 16 or none.
    pub fn calls(&self, k: u64) -> u64 {
        let q = self.drawn(512 + k);
        if k == self.long {
            17
        } else if q % 8 == 0 {
            0
        } else if q % 8 == 1 {
            1 + q / 8 % 16
        } else {
            1 + q / 8 % 6
        }
    }

    /// Call j of script k.
    pub fn call(&self, k: u64, j: u64) -> ScriptCall {
        let q = self.drawn(32 * k + j);
        let rest = q / 1024;
        let descriptor = if q / 8 % 32 == 0 { 16 + rest % 2 } else { q / 256 % 2 + 8 * (q / 512 % 2) };
        let (kind, number, length) = match q % 8 {
            0 | 1 => (SEEK, seek_to(rest), 0),
            2..=4 => self.write(k, rest),
            5 => (GET_FILE_POINTER, 0, 0),
            _ => (READ, read_count(rest), 0),
        };
        ScriptCall { kind, descriptor, number, length }
    }

    /// A Write of up to 4 bytes, cut at the end of the data.
    fn write(&self, k: u64, rest: u64) -> (u64, u64, u64) {
        let start = rest % (self.data + 1);
        let wanted = rest / 64 % 5;
        let length = if wanted < self.data - start { wanted } else { self.data - start };
        (WRITE, if k == self.past { self.data + 1 - length } else { start }, length)
    }
}

/// Near the start, now and then near the end.
fn seek_to(rest: u64) -> u64 {
    if rest % 16 == 0 {
        4090 + rest / 16 % 10
    } else {
        rest / 16 % 12
    }
}

/// A few bytes, now and then more than the usual buffer has.
fn read_count(rest: u64) -> u64 {
    if rest % 16 == 0 {
        14 + rest / 16 % 6
    } else {
        rest / 16 % 8
    }
}
