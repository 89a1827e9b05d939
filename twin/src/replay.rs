//! The replay of a call log (docs/CALLLOG.md): its calls made on a store, a line printed for each, and its answers compared.

use std::io::{self, BufRead, Write};

use crate::call::{Answer, Best, Call, Refusal, Reply};
use crate::calllog::{self, Line, LONGEST, VERSION};
use crate::state::State;
use crate::store::{DESCRIPTORS, FILES};
use crate::trace::next_line;

/// How many lines of a kind there were, and the number of the first, from 1.
#[derive(Clone, Copy, Debug, Default, PartialEq, Eq)]
pub struct Found {
    pub count: u64,
    pub first: u64,
}

/// What there is to say at the end.
#[derive(Clone, Debug, Default, PartialEq, Eq)]
pub struct Report {
    /// Lines of another form, and lines too long.
    pub others: Found,
    /// Does one of another form, not one too long, end in byte 13?
    pub returned: bool,
    /// Answers in the log that are not those of the replay.
    pub differences: Found,
    /// The line that ended the run, and the version that it names.
    pub unknown_version: Option<(u64, u64)>,
}

pub struct Replay {
    pub state: State,
    pub report: Report,
    /// The lines read so far.
    lines: u64,
    /// The answer to the last line that has one, without its line end.
    answer: Vec<u8>,
}

impl Found {
    fn add(&mut self, line: u64) {
        if self.count == 0 {
            self.first = line;
        }
        self.count += 1;
    }
}

impl Report {
    /// Is there nothing to say?
    pub fn is_silent(&self) -> bool {
        *self == Report::default()
    }

    /// A sentence for each thing that there is to say.
    pub fn write(&self, program: &str, out: &mut impl Write) -> io::Result<()> {
        if let Some((line, version)) = self.unknown_version {
            writeln!(out, "{program}: line {line}: version {version} is not known, the run ends here")?;
        }
        let Found { count, first } = self.others;
        if count > 0 {
            writeln!(out, "{program}: {count} lines of another form (17), the first is line {first}")?;
        }
        if self.returned {
            writeln!(out, "{program}: lines of another form (17) end in byte 13: a line ends in byte 10 alone")?;
        }
        let Found { count, first } = self.differences;
        if count > 0 {
            writeln!(out, "{program}: {count} answers differ from those in the log, the first at line {first}")?;
        }
        Ok(())
    }
}

/// A fresh store, descriptor d in file d mod 8.
pub fn fresh() -> State {
    let mut state = State::new();
    let files = (0..DESCRIPTORS).map(|d| (d % FILES) as u8).collect();
    state.apply(&Call::Fresh { files });
    state
}

/// Replays a log on a store.
pub fn run(state: State, input: &mut impl BufRead, out: &mut impl Write) -> io::Result<Replay> {
    let mut replay = Replay::new(state);
    let mut line = Vec::with_capacity(LONGEST + 1);
    while next_line(input, &mut line, LONGEST)? && replay.take(&line, out)? {}
    out.flush()?;
    Ok(replay)
}

impl Replay {
    pub fn new(state: State) -> Replay {
        Replay { state, report: Report::default(), lines: 0, answer: Vec::new() }
    }

    /// Does what a line says. Does the run go on?
    pub fn take(&mut self, line: &[u8], out: &mut impl Write) -> io::Result<bool> {
        self.lines += 1;
        match calllog::parse(line) {
            Line::Comment | Line::Version(VERSION) => {}
            Line::Version(version) => {
                self.report.unknown_version = Some((self.lines, version));
                return Ok(false);
            }
            Line::Answered(answer) => {
                if answer.is_empty() || answer != self.answer {
                    self.report.differences.add(self.lines);
                }
            }
            Line::Asks(asked) => {
                let reply = self.state.apply(&asked.call());
                self.print(printed(&reply), out)?;
            }
            Line::Other => {
                self.report.others.add(self.lines);
                self.report.returned |= line.len() <= LONGEST && line.ends_with(b"\r");
                self.print(Refusal::BadLine.number().to_string().into_bytes(), out)?;
            }
        }
        Ok(true)
    }

    fn print(&mut self, answer: Vec<u8>, out: &mut impl Write) -> io::Result<()> {
        self.answer = answer;
        out.write_all(&self.answer)?;
        out.write_all(b"\n")
    }
}

/// The line that is printed for a reply, without its end.
pub fn printed(reply: &Reply) -> Vec<u8> {
    match reply.outcome {
        Ok(Answer::Done) => ok(&[]),
        Ok(Answer::Offset(offset)) => ok(&[offset]),
        Ok(Answer::Granted(octet)) => ok(&[octet.into()]),
        Ok(Answer::Given(0)) => ok(&[]),
        Ok(Answer::Given(count)) => [b"ok ".as_slice(), &calllog::pairs(&reply.buffer[..usize::from(count)])].concat(),
        Ok(Answer::Pairs(count)) => ok(&listed(&reply.buffer[..4 * usize::from(count)])),
        Ok(Answer::Best(best)) => ok(&proposed(&best)),
        Ok(Answer::Ran(_)) => unreachable!("no line asks for a dispatcher"),
        Err(refusal) => refusal.number().to_string().into_bytes(),
    }
}

/// The two letters, and each number after a space.
fn ok(numbers: &[u16]) -> Vec<u8> {
    let numbers: String = numbers.iter().map(|number| format!(" {number}")).collect();
    format!("ok{numbers}").into_bytes()
}

/// Offsets and lengths, 16 bits each, high byte first.
fn listed(pairs: &[u8]) -> Vec<u16> {
    pairs.chunks(2).map(|number| u16::from_be_bytes([number[0], number[1]])).collect()
}

fn proposed(best: &Best) -> Vec<u16> {
    let order = best.order().iter().map(|&t| t.into());
    [best.grants, best.gap, best.tried].into_iter().chain(order).collect()
}

#[cfg(test)]
mod tests {
    use super::*;

    fn replayed(log: &[u8]) -> (String, String) {
        let mut out = Vec::new();
        let mut said = Vec::new();
        let replay =
            run(fresh(), &mut io::BufReader::with_capacity(7, log), &mut out).expect("memory is read and written");
        replay.report.write("twin", &mut said).expect("memory is written");
        let text = |bytes| String::from_utf8(bytes).expect("letters and digits");
        (text(out), text(said))
    }

    fn printed_for(log: &[u8]) -> String {
        replayed(log).0
    }

    #[test]
    fn every_answer() {
        let log = b"V1\n# a day\n\nB0\nS0 0 5\nW0 0 hi\nL0 0 64\nS0 0 5\nR0 0 4 4\nP0 0\nO0 2 0\nC0 600\nU\nH2 480 1320\nA0\n";
        let answers = "ok\nok\nok\nok 5 2\nok\nok 6869\nok 7\nok 1 0 1 0\nok 0\nok\nok\n4\n";
        assert_eq!(replayed(log), (answers.to_string(), String::new()));
    }

    #[test]
    fn lists_of_numbers() {
        let log = b"B0\nB1\nS0 0 9\nW0 0 x\nS0 0 0\nW0 0 y\nL0 0 8\nL0 0 7\nL0 1 0\nO0 1 1 0\nO0 2 1 0\nO0 0\n";
        assert_eq!(printed_for(log), "ok\nok\nok\nok\nok\nok\nok 0 1 9 1\n16\nok\nok 2 0 1 1 0\nok 2 0 2 1 0\n26\n");
    }

    #[test]
    fn a_list_for_fresh() {
        assert_eq!(
            printed_for(b"F0 0 0 0 0 0 0 0 0 0 0 0 0 0 0 7\nF0 0 0 0 0 0 0 0 0 0 0 0 0 0 0 8\nF0\nF256\n"),
            "ok\n14\n1\n17\n"
        );
    }

    #[test]
    fn answers_that_differ() {
        let log = b"= ok\nB0\n= ok\n# between\n= ok\n= ok \n= \nB0\n= ok\n= 5\nb0\n= 17\n";
        let said = "twin: 1 lines of another form (17), the first is line 11\n\
            twin: 4 answers differ from those in the log, the first at line 1\n";
        assert_eq!(replayed(log), ("ok\n5\n17\n".to_string(), said.to_string()));
    }

    #[test]
    fn versions() {
        assert_eq!(replayed(b"V1\nB0\nV01\nB1"), ("ok\nok\n".to_string(), String::new()));
        let said = "twin: line 2: version 2 is not known, the run ends here\n";
        assert_eq!(replayed(b"B0\nV2\nB1\n?\n"), ("ok\n".to_string(), said.to_string()));
    }

    #[test]
    fn buffers_longer_than_a_file() {
        let log = b"B0\nW0 0 hi\nS0 0 0\nR0 0 18446744073709551615 18446744073709551615\nR0 0 5001 5000\nL0 0 18446744073709551615\n";
        assert_eq!(printed_for(log), "ok\nok\nok\nok 6869\n7\nok 0 2\n");
    }
}
