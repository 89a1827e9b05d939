//! Generated traces: calls with good and bad numbers, and now and then a line of another form.

use std::io::{self, Write};

/// The recurrence of the stream of calls (generator.rs), from a seed.
pub struct Draws(u64);

impl Draws {
    pub fn new(seed: u64) -> Draws {
        Draws(1 + seed % 2147483646)
    }

    pub fn below(&mut self, n: u64) -> u64 {
        self.0 = 48271 * self.0 % 2147483647;
        self.0 % n
    }
}

/// Which transactions are open, as far as the lines let guess.
type Open = [bool; 8];

/// Writes a trace of so many lines. The last has no line end.
pub fn write(out: &mut impl Write, seed: u64, lines: u64) -> io::Result<()> {
    let mut draws = Draws::new(seed);
    let mut open: Open = [false; 8];
    for made in 0..lines {
        if made > 0 {
            out.write_all(b"\n")?;
        }
        let mut line = call(&mut draws, &mut open, made / 256 % 4 == 3);
        if draws.below(32) == 0 {
            spoil(&mut draws, &mut line);
        }
        out.write_all(&line)?;
    }
    out.flush()
}

/// A crowded stretch of a trace is mostly Writes, until logs are full.
fn call(draws: &mut Draws, open: &mut Open, crowded: bool) -> Vec<u8> {
    let numbers = if draws.below(40) == 0 { 10 } else { 4 };
    let t = draws.below(numbers);
    let kind = draws.below(100);
    let closed = open.get(t as usize) == Some(&false);
    let letter = match kind {
        0..=1 => 'B',
        _ if closed && kind < 95 => 'B',
        2..=84 if crowded => 'W',
        85..=94 if crowded => 'S',
        95..=98 if crowded => 'R',
        2..=29 => 'W',
        30..=49 => 'S',
        50..=64 => 'P',
        65..=84 => 'R',
        85..=96 => 'C',
        _ => 'A',
    };
    if let Some(slot) = open.get_mut(t as usize) {
        *slot = match letter {
            'B' => true,
            'C' | 'A' => false,
            _ => *slot,
        };
    }
    let mut line = format!("{letter}{t}").into_bytes();
    if "WSPR".contains(letter) {
        let d = if draws.below(40) == 0 { draws.below(20) } else { 8 * draws.below(2) + draws.below(2) };
        line.extend(format!(" {d}").into_bytes());
    }
    match letter {
        'S' => line.extend(format!(" {}", place(draws)).into_bytes()),
        'R' => line.extend(format!(" {}", size(draws, 4098)).into_bytes()),
        'W' => {
            line.push(b' ');
            let length = if crowded { draws.below(124) } else { size(draws, 124) };
            line.extend((0..length).map(|_| byte(draws)));
        }
        _ => {}
    }
    line
}

fn place(draws: &mut Draws) -> u64 {
    match draws.below(16) {
        0..=7 => draws.below(16),
        8..=11 => draws.below(4096),
        12..=14 => 4088 + draws.below(12),
        _ => draws.below(100_000),
    }
}

/// Mostly small, now and then up to `most`.
fn size(draws: &mut Draws, most: u64) -> u64 {
    match draws.below(32) {
        0 => draws.below(most),
        1..=4 => 0,
        _ => draws.below(12),
    }
}

/// Any byte but a line end.
pub fn byte(draws: &mut Draws) -> u8 {
    match draws.below(256) as u8 {
        10 => 13,
        byte => byte,
    }
}

/// One small change, after which a line may have another form.
pub fn spoil(draws: &mut Draws, line: &mut Vec<u8>) {
    let at = draws.below(line.len() as u64 + 1) as usize;
    match draws.below(8) {
        0 => line.insert(at, b' '),
        1 => line.insert(at, b'0' + draws.below(10) as u8),
        2 => line.insert(at, byte(draws)),
        3 => line.truncate(at),
        4 => line.push(b'\r'),
        5 => line.splice(at..at, std::iter::repeat_n(b'0', 1 + draws.below(5) as usize)).for_each(drop),
        6 => line.resize(line.len() + draws.below(140) as usize, b' '),
        _ => {
            let letter = byte(draws);
            if let Some(first) = line.get_mut(at) {
                *first = letter;
            }
        }
    }
}
