//! Generated call logs: lists of all calls with their answers, and lines that are nearly right.

use std::io::{self, Write};

use crate::call::{Action, Call, Step};
use crate::calllog::{self, Asked, Line, LONGEST, VERSION};
use crate::generator::Generator;
use crate::recorder::Recorder;
use crate::replay;
use crate::state::State;
use crate::traces::{byte, spoil, Draws};

/// Numbers around the bounds of 16, 32 and 64 bits.
const WIDE: [u64; 8] =
    [65535, 65536, 1 << 32, (1 << 32) + 3, 1 << 63, 10_000_000_000_000_000_000, u64::MAX - 1, u64::MAX];

/// The calls of a seed, one after another.
struct Calls {
    generator: Generator,
    draws: Draws,
}

impl Calls {
    fn new(seed: u64) -> Calls {
        Calls { generator: Generator::seeded(seed), draws: Draws::new(seed) }
    }

    /// The generator's next call, some of them with longer buffers and lists, with text or with wide numbers.
    fn next(&mut self) -> Call {
        let draws = &mut self.draws;
        let mut call = self.generator.next_call().call();
        match &mut call {
            Call::Step(_, Step { action: Action::Write { data }, .. }) => vary_bytes(draws, data),
            Call::Step(_, Step { action: Action::Read { buffer, .. }, .. }) => vary_room(draws, buffer),
            Call::Fresh { files } if draws.below(8) == 0 => files.resize(draws.below(21) as usize, 7),
            Call::Best { list, .. } if draws.below(16) == 0 => {
                list.resize(draws.below(21) as usize, draws.below(256) as usize)
            }
            _ => {}
        }
        if draws.below(24) == 0 {
            widen(draws, &mut call);
        }
        call
    }
}

/// A third are printable; some are around the longest line of text, or longer than a file.
fn vary_bytes(draws: &mut Draws, data: &mut Vec<u8>) {
    let length = match draws.below(32) {
        0..=2 => 116 + draws.below(14) as usize,
        3 => 4090 + draws.below(1000) as usize,
        _ => data.len(),
    };
    if length != data.len() || draws.below(3) == 0 {
        *data = (0..length).map(|_| 32 + draws.below(95) as u8).collect();
    }
    if draws.below(8) == 0 && !data.is_empty() {
        let at = draws.below(data.len() as u64) as usize;
        data[at] = byte(draws);
    }
}

fn vary_room(draws: &mut Draws, buffer: &mut Vec<u8>) {
    let room = match draws.below(16) {
        0 => draws.below(8) as usize,
        1 => 4094 + draws.below(6) as usize,
        2 => draws.below(9000) as usize,
        _ => return,
    };
    buffer.resize(room, 1);
}

/// Gives the call a wide number.
fn widen(draws: &mut Draws, call: &mut Call) {
    let wide = WIDE[draws.below(8) as usize] as usize;
    let second = draws.below(2) == 0;
    match call {
        Call::Begin(t) | Call::Abort(t) => *t = wide,
        Call::Commit { minute, .. } if second => *minute = wide,
        Call::Commit { transaction, .. } | Call::Places { transaction, .. } => *transaction = wide,
        Call::Step(
            _,
            Step { action: Action::Seek { to: number }, .. } | Step { action: Action::Read { count: number, .. }, .. },
        ) if second => *number = wide,
        Call::Step(_, step) if second => step.descriptor = wide,
        Call::Step(t, _) => *t = wide,
        Call::Window { end, .. } if second => *end = wide,
        Call::Window { file, .. } => *file = wide,
        Call::Best { minute, .. } if second => *minute = wide,
        Call::Best { budget, .. } => *budget = wide,
        Call::Fresh { .. } | Call::Undo | Call::Dispatch(_) => {}
    }
}

/// Writes a log of so many calls and answers what they leave. A dispatcher counts as one call.
pub fn write(out: &mut impl Write, seed: u64, calls: u64) -> io::Result<State> {
    write_from(replay::fresh(), out, seed, calls)
}

pub fn write_from(state: State, out: &mut impl Write, seed: u64, calls: u64) -> io::Result<State> {
    let mut made = Calls::new(seed);
    let mut recorder = Recorder::new(state, out)?;
    for number in 0..calls {
        match made.draws.below(64) {
            0 => recorder.comment("")?,
            1 => recorder.comment(&format!("# call {number}"))?,
            _ => {}
        }
        recorder.record(&made.next())?;
    }
    let Recorder { state, .. } = recorder;
    out.flush()?;
    Ok(state)
}

/// Writes so many lines, most of them nearly right. None of them ends the run.
pub fn write_lines(out: &mut impl Write, seed: u64, lines: u64) -> io::Result<()> {
    let mut made = Calls::new(seed);
    for _ in 0..lines {
        let mut line = any_line(&mut made);
        if matches!(calllog::parse(&line), Line::Version(version) if version != VERSION) {
            line = b"V01".to_vec();
        }
        line.push(b'\n');
        out.write_all(&line)?;
    }
    out.flush()
}

fn any_line(made: &mut Calls) -> Vec<u8> {
    let kind = made.draws.below(100);
    let draws = &mut made.draws;
    match kind {
        0..=3 => (0..draws.below(12)).map(|_| byte(draws)).collect(),
        4..=11 => spelled(draws),
        12..=15 => answer(draws),
        16 => long(draws),
        17 => [b"".as_slice(), b"#", b"V1", b"=", b"= ", b"V", b"U ", b"\r"][draws.below(8) as usize].to_vec(),
        18..=49 => near(made),
        _ => recorded(made),
    }
}

fn recorded(made: &mut Calls) -> Vec<u8> {
    loop {
        if let Some(asked) = Asked::of(&made.next()) {
            return asked.line();
        }
    }
}

/// A call's line with one small change or a few.
fn near(made: &mut Calls) -> Vec<u8> {
    let mut line = recorded(made);
    let draws = &mut made.draws;
    for _ in 0..1 + draws.below(2) {
        match draws.below(8) {
            0 => line.extend(b" 0"),
            1 => line.make_ascii_uppercase(),
            2 => line[0] = b"BCAPSWXRLHUOFV=#"[draws.below(16) as usize],
            3 => drop(line.pop()),
            4 => line.extend(format!(" {}", numeral(draws)).bytes()),
            _ => spoil(draws, &mut line),
        }
        if line.is_empty() {
            break;
        }
    }
    line
}

/// A letter and numbers of all lengths.
fn spelled(draws: &mut Draws) -> Vec<u8> {
    let mut line = vec![b"BCAPSWXRLHUOFV"[draws.below(14) as usize]];
    let most = if draws.below(4) == 0 { 21 } else { 5 };
    for k in 0..draws.below(most) {
        if k > 0 {
            line.push(if draws.below(64) == 0 { b'\t' } else { b' ' });
        }
        line.extend(numeral(draws).bytes());
    }
    line
}

fn numeral(draws: &mut Draws) -> String {
    match draws.below(16) {
        0 => WIDE[draws.below(8) as usize].to_string(),
        1 => "18446744073709551616".to_string(),
        2 => (0..1 + draws.below(22)).map(|_| char::from(b'0' + draws.below(10) as u8)).collect(),
        3 => "0".repeat(17 + draws.below(5) as usize),
        4 => draws.below(600).to_string(),
        _ => draws.below(17).to_string(),
    }
}

/// The answer of a call, perhaps of the one before.
fn answer(draws: &mut Draws) -> Vec<u8> {
    let answer = match draws.below(8) {
        0 => format!("ok {}", draws.below(4)),
        1 => draws.below(28).to_string(),
        2 => "ok 00".to_string(),
        3 => "17".to_string(),
        4 => "ok ".to_string(),
        _ => "ok".to_string(),
    };
    let sign = if draws.below(16) == 0 { "=" } else { "= " };
    format!("{sign}{answer}").into_bytes()
}

/// A line around the longest, of text or of any kind.
fn long(draws: &mut Draws) -> Vec<u8> {
    let front: &[u8] = [b"W0 0 ".as_slice(), b"X0 0 ", b"#", b"= ok ", b"R0 0 1"][draws.below(5) as usize];
    let longest = if draws.below(4) > 0 { 128 } else { LONGEST };
    let length = longest - 3 + draws.below(6) as usize;
    let mut line = front.to_vec();
    line.resize(length, b'0');
    line
}
