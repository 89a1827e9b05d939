//! Lists of calls with the replies that they must get, from a file, run on store and plain machine side by side.
//!
//! A line is a call, ` -> ` and its reply, in words with one space between. A list starts with `fresh`, on buffers that are
//! all 0. An indented line at its end names a part of the state and says what is in it. Bytes are hexadecimal pairs, and `hh*n` is n bytes hh;
//! pieces are joined by `.`, and stand apart in an indented line; `-` is none. A word may be several numbers, with commas
//! between. A commit without a minute is one at minute 0. A dispatcher's scripts are one word (see `scripts`), `-` a script
//! without calls and `none` no script.

use crate::call::{Action, Answer, Call, Dispatch, Reply, Script, ScriptAction, ScriptStep, Step};
use crate::pair::Pair;

/// How a file went: the lists and the calls in it, and the first disagreement of each list that has one.
#[derive(Debug, Default)]
pub struct Report {
    pub lists: usize,
    pub calls: usize,
    pub disagreements: Vec<String>,
}

/// A word of a reply, or what an indented line has to say.
#[derive(Clone, Debug, PartialEq, Eq)]
enum Word {
    Name(&'static str),
    Number(u64),
    Numbers(Vec<u64>),
    Bytes(Vec<u8>),
}

pub fn run(text: &str) -> Report {
    let mut report = Report::default();
    let mut pair = Pair::new();
    let mut agrees = true;
    let mut ended = true;
    for (line, number) in text.lines().zip(1..) {
        if line.starts_with("fresh ") && ended {
            pair.check_at_rest();
            pair = Pair::new();
            report.lists += 1;
            agrees = true;
        }
        ended = line.starts_with(' ');
        report.calls += usize::from(!line.starts_with(' '));
        if !agrees {
            continue;
        }
        if let Err(said) = take(&mut pair, line) {
            agrees = false;
            report.disagreements.push(format!("line {number}: `{}`: {said}", short(line)));
        }
    }
    pair.check_at_rest();
    report
}

/// Makes the call of a line, or looks at the part of the state that it names; says what differs.
fn take(pair: &mut Pair, line: &str) -> Result<(), String> {
    if let Some(line) = line.strip_prefix(' ') {
        let mut words = line.split_whitespace();
        let part = part(pair, words.next().unwrap_or_default()).ok_or("this part is not known")?;
        let joint = if matches!(part, Word::Numbers(_)) { "," } else { "." };
        let expected = words.collect::<Vec<_>>().join(joint);
        return part.check(&expected);
    }
    let (call, expected) = line.split_once(" -> ").ok_or("no reply stands here")?;
    let call: Vec<&str> = call.split(' ').collect();
    let reply = reply(pair, &call).ok_or("this call is not known")?;
    let expected: Vec<&str> = expected.split(' ').collect();
    if reply.len() != expected.len() {
        return Err(format!("answered {reply:?}"));
    }
    reply.iter().zip(expected).try_for_each(|(word, expected)| word.check(expected))
}

/// Makes the call; none where there is no such call.
fn reply(pair: &mut Pair, words: &[&str]) -> Option<Vec<Word>> {
    let call = match words {
        ["fresh", files @ ..] => {
            Call::Fresh { files: files.iter().map(|file| file.parse().ok()).collect::<Option<_>>()? }
        }
        ["begin", t] => Call::Begin(number(t)?),
        ["abort", t] => Call::Abort(number(t)?),
        ["commit", t] => Call::Commit { transaction: number(t)?, minute: 0 },
        ["commit", t, minute] => Call::Commit { transaction: number(t)?, minute: number(minute)? },
        ["seek", t, d, to] => step(t, d, Action::Seek { to: number(to)? })?,
        ["write", t, d, data] => step(t, d, Action::Write { data: bytes(data)? })?,
        ["pointer", t, d] => step(t, d, Action::GetFilePointer)?,
        ["read", t, d, count, buffer] => step(t, d, Action::Read { count: number(count)?, buffer: bytes(buffer)? })?,
        ["places", t, file, buffer] => {
            Call::Places { transaction: number(t)?, file: number(file)?, buffer: bytes(buffer)? }
        }
        ["window", file, start, end] => Call::Window { file: number(file)?, start: number(start)?, end: number(end)? },
        ["undo"] => Call::Undo,
        ["dispatch", scripts, data, buffer, minute] => Call::Dispatch(Dispatch {
            scripts: self::scripts(scripts)?,
            data: bytes(data)?,
            buffer: bytes(buffer)?,
            minute: number(minute)?,
        }),
        ["best", list, minute, budget] => {
            let list = numbers(list)?.into_iter().map(|number| number as usize).collect();
            Call::Best { list, minute: number(minute)?, budget: number(budget)? }
        }
        _ => return None,
    };
    Some(said(pair.call(&call, None)))
}

fn step(t: &str, d: &str, action: Action) -> Option<Call> {
    Some(Call::Step(number(t)?, Step { descriptor: number(d)?, action }))
}

/// Scripts are parted by `|`, their calls by `,`, and the words of a call by `:`.
fn scripts(word: &str) -> Option<Vec<Script>> {
    if word == "none" {
        return Some(Vec::new());
    }
    word.split('|').map(script).collect()
}

fn script(word: &str) -> Option<Script> {
    if word == "-" {
        return Some(Vec::new());
    }
    word.split(',').map(script_step).collect()
}

fn script_step(word: &str) -> Option<ScriptStep> {
    let words: Vec<&str> = word.split(':').collect();
    let (descriptor, action) = match words[..] {
        ["seek", d, to] => (d, ScriptAction::Seek { to: number(to)? }),
        ["write", d, start, length] => (d, ScriptAction::Write { start: number(start)?, length: number(length)? }),
        ["pointer", d] => (d, ScriptAction::GetFilePointer),
        ["read", d, count] => (d, ScriptAction::Read { count: number(count)? }),
        _ => return None,
    };
    Some(ScriptStep { descriptor: number(descriptor)?, action })
}

fn said(reply: Reply) -> Vec<Word> {
    match reply.outcome {
        Ok(Answer::Done) => vec![Word::Name("done")],
        Ok(Answer::Offset(offset)) => vec![Word::Name("offset"), Word::Number(offset.into())],
        Ok(Answer::Given(count)) => vec![Word::Name("given"), Word::Number(count.into()), Word::Bytes(reply.buffer)],
        Ok(Answer::Granted(count)) => vec![Word::Name("granted"), Word::Number(count.into())],
        Ok(Answer::Pairs(count)) => vec![Word::Name("pairs"), Word::Number(count.into()), Word::Bytes(reply.buffer)],
        Ok(Answer::Ran(ran)) => vec![
            Word::Name("ran"),
            Word::Numbers(ran.results()),
            Word::Name("commits"),
            Word::Number(ran.commits.into()),
            Word::Name("reader"),
            Word::Bytes(reply.buffer),
        ],
        Ok(Answer::Best(best)) => vec![
            Word::Name("order"),
            Word::Numbers(best.order().iter().map(|&t| t.into()).collect()),
            Word::Name("grants"),
            Word::Number(best.grants.into()),
            Word::Name("gap"),
            Word::Number(best.gap.into()),
            Word::Name("tried"),
            Word::Number(best.tried.into()),
        ],
        Err(refusal) => vec![Word::Name("refused"), Word::Number(refusal.number() as u64)],
    }
}

/// A part of the state, as indented lines name them; none where there is no such part.
fn part(pair: &Pair, name: &str) -> Option<Word> {
    match name {
        "files" => Some(Word::Bytes(pair.state.buffers.files.clone())),
        "offsets" => Some(Word::Numbers(pair.state.store.offsets.map(u64::from).to_vec())),
        "undo" => Some(Word::Bytes(pair.state.buffers.undo.clone())),
        "lengths" => Some(Word::Numbers(pair.state.store.lengths.map(u64::from).to_vec())),
        _ => None,
    }
}

impl Word {
    fn check(&self, expected: &str) -> Result<(), String> {
        let same = match self {
            Word::Name(name) => *name == expected,
            Word::Number(number) => expected.parse() == Ok(*number),
            Word::Numbers(list) => numbers(expected).as_ref() == Some(list),
            Word::Bytes(list) => bytes(expected).as_ref() == Some(list),
        };
        if same {
            Ok(())
        } else {
            Err(format!("here {}", short(&format!("{self:?}"))))
        }
    }
}

fn number(word: &str) -> Option<usize> {
    word.parse().ok()
}

fn numbers(word: &str) -> Option<Vec<u64>> {
    if word == "-" {
        return Some(Vec::new());
    }
    word.split(',').map(|number| number.parse().ok()).collect()
}

fn bytes(word: &str) -> Option<Vec<u8>> {
    let mut all = Vec::new();
    if word == "-" {
        return Some(all);
    }
    for piece in word.split('.') {
        let (pairs, times) = piece.split_once('*').unwrap_or((piece, "1"));
        let octets = pairs.as_bytes().chunks(2).map(octet).collect::<Option<Vec<u8>>>()?;
        all.extend(octets.repeat(number(times)?));
    }
    Some(all)
}

fn octet(pair: &[u8]) -> Option<u8> {
    u8::from_str_radix(std::str::from_utf8(pair).ok()?, 16).ok().filter(|_| pair.len() == 2)
}

/// The first hundred characters.
fn short(text: &str) -> String {
    text.chars().take(100).collect()
}

#[cfg(test)]
mod tests {
    use super::*;

    const LIST: &str = "\
fresh 0 1 2 3 4 5 6 7 0 1 2 3 4 5 6 7 -> done
begin 0 -> done
write 0 0 4142.43*2 -> done
read 0 8 3 2e*4 -> given 3 414243.2e
commit 0 -> granted 0
commit 18446744073709551615 -> refused 3
  files 4142 43*2 00*32764
  offsets 4 0 0 0 0 0 0 0 3 0 0 0 0 0 0 0
  lengths 4 0 0 0 0 0 0 0
";

    #[test]
    fn a_list_that_agrees() {
        let report = run(LIST);
        assert_eq!((report.lists, report.calls, report.disagreements.len()), (1, 6, 0), "{report:?}");
    }

    #[test]
    fn a_disagreement_is_told_once_a_list() {
        let wrong = LIST.replace("granted 0", "granted 1");
        let report = run(&format!("{wrong}{LIST}{}", LIST.replace("files 41", "files 40")));
        assert_eq!((report.lists, report.disagreements.len()), (3, 2), "{report:?}");
    }

    #[test]
    fn what_is_not_known_disagrees() {
        for line in ["redo -> done", "commit 0", "  windows 0", "  lengths 0"] {
            let report = run(&LIST.replace("commit 0 -> granted 0", line));
            assert_eq!(report.disagreements.len(), 1, "{line}");
        }
    }

    #[test]
    fn bytes_and_numbers() {
        assert_eq!(bytes("00.2e*3"), Some(vec![0, 46, 46, 46]));
        assert_eq!(bytes("-"), Some(vec![]));
        assert_eq!((bytes("4"), bytes("4g"), bytes("41*x"), bytes("")), (None, None, None, Some(vec![])));
        assert_eq!((numbers("2,0,1"), numbers("-")), (Some(vec![2, 0, 1]), Some(vec![])));
    }
}
