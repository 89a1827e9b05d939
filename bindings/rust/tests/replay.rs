//! The sample trace, and the vectors of LUZHANEM_VECTORS where that is set.

use luzhanem::{Refusal, ScriptCall, State, Store};
use std::fmt::Write as _;

/// A Read of n bytes into a buffer of `room`: refusal 7 is answered here, since a slice has its length.
fn read<'a>(s: &mut Store, t: usize, d: usize, n: usize, out: &'a mut [u8]) -> Result<&'a [u8], Refusal> {
    if n > out.len() {
        if d <= 15 && s.state(t) == Ok(State::Open) {
            return Err(Refusal::ReaderTooShort);
        }
        return s.read(t, d, &mut out[..0]);
    }
    s.read(t, d, &mut out[..n])
}

fn number(word: &[u8]) -> Option<usize> {
    if word.is_empty() || word.len() > 5 || !word.iter().all(u8::is_ascii_digit) {
        return None;
    }
    std::str::from_utf8(word).ok()?.parse().ok()
}

fn line(s: &mut Store, line: &[u8]) -> Option<Result<String, Refusal>> {
    if line.len() > 128 || line.len() < 2 || !line[1].is_ascii_digit() {
        return None;
    }
    let (kind, t, rest) = (line[0], usize::from(line[1] - b'0'), &line[2..]);
    let words: Vec<&[u8]> = match kind {
        b'W' => rest.splitn(3, |&b| b == b' ').collect(),
        _ => rest.split(|&b| b == b' ').collect(),
    };
    if !words[0].is_empty() {
        return None;
    }
    let ok = |_| "ok".to_string();
    Some(match (kind, words.len()) {
        (b'B', 1) => s.begin(t).map(ok),
        (b'A', 1) => s.abort(t).map(ok),
        (b'C', 1) => s.commit(t, 0).map(|o| format!("ok {}", o.0)),
        (b'P', 2) => s.get_file_pointer(t, number(words[1])?).map(|n| format!("ok {n}")),
        (b'S', 3) => s.seek(t, number(words[1])?, number(words[2])?).map(ok),
        (b'W', 3) => s.write(t, number(words[1])?, words[2]).map(ok),
        (b'R', 3) => {
            let mut out = [0; 4096];
            read(s, t, number(words[1])?, number(words[2])?, &mut out).map(|b| {
                let mut text = "ok".to_string();
                for (i, x) in b.iter().enumerate() {
                    let _ = write!(text, "{}{x:02x}", if i == 0 { " " } else { "" });
                }
                text
            })
        }
        _ => return None,
    })
}

fn trace(input: &[u8]) -> String {
    let mut s = Store::new();
    let mut out = String::new();
    let input = input.strip_suffix(b"\n").unwrap_or(input);
    for l in input.split(|&b| b == b'\n') {
        let _ = match line(&mut s, l) {
            None => writeln!(out, "17"),
            Some(Ok(text)) => writeln!(out, "{text}"),
            Some(Err(r)) => writeln!(out, "{}", r.number()),
        };
    }
    out
}

#[test]
fn the_sample_trace_prints_what_it_should() {
    let samples = concat!(env!("CARGO_MANIFEST_DIR"), "/../../samples/afternoon");
    let input = std::fs::read(format!("{samples}.trace")).unwrap();
    assert_eq!(trace(&input), std::fs::read_to_string(format!("{samples}.txt")).unwrap());
}

fn octets(text: &str) -> Vec<u8> {
    let mut out = Vec::new();
    for piece in text.split('.').filter(|&p| p != "-") {
        let (hex, times) = piece.split_once('*').unwrap_or((piece, "1"));
        let pair = |i: usize| u8::from_str_radix(&hex[i..i + 2], 16).unwrap();
        let bytes: Vec<u8> = (0..hex.len()).step_by(2).map(pair).collect();
        out.extend(bytes.repeat(times.parse().unwrap()));
    }
    out
}

fn joined(pieces: &[&str]) -> Vec<u8> {
    pieces.iter().flat_map(|piece| octets(piece)).collect()
}

#[derive(Debug, PartialEq)]
enum Reply {
    Says(String),
    Gives(String, Vec<u8>),
}

fn reply_of(text: &str) -> Reply {
    let words: Vec<&str> = text.split(' ').collect();
    match words[0] {
        "given" | "pairs" | "ran" => {
            let (last, front) = words.split_last().unwrap();
            Reply::Gives(front.join(" "), octets(last))
        }
        _ => Reply::Says(text.to_string()),
    }
}

fn scripts(text: &str) -> Vec<Vec<ScriptCall>> {
    if text == "none" {
        return Vec::new();
    }
    let call = |c: &str| {
        let w: Vec<&str> = c.split(':').collect();
        let n = |i: usize| w[i].parse::<usize>().unwrap();
        match w[0] {
            "seek" => ScriptCall::Seek { descriptor: n(1), offset: n(2) },
            "write" => ScriptCall::Write { descriptor: n(1), start: n(2), count: n(3) },
            "pointer" => ScriptCall::GetFilePointer { descriptor: n(1) },
            _ => ScriptCall::Read { descriptor: n(1), count: n(2) },
        }
    };
    text.split('|').map(|s| if s == "-" { Vec::new() } else { s.split(',').map(call).collect() }).collect()
}

fn performed(s: &mut Store, w: &[&str]) -> Result<Reply, Refusal> {
    let n = |i: usize| w[i].parse::<usize>().unwrap();
    let done = |_| Reply::Says("done".to_string());
    match w[0] {
        "fresh" => {
            *s = Store::new();
            s.fresh(std::array::from_fn(|d| n(d + 1) as u8)).map(done)
        }
        "begin" => s.begin(n(1)).map(done),
        "abort" => s.abort(n(1)).map(done),
        "seek" => s.seek(n(1), n(2), n(3)).map(done),
        "pointer" => s.get_file_pointer(n(1), n(2)).map(|o| Reply::Says(format!("offset {o}"))),
        "write" => s.write(n(1), n(2), &octets(w[3])).map(done),
        "read" => {
            let mut b = octets(w[4]);
            let m = read(s, n(1), n(2), n(3), &mut b)?.len();
            Ok(Reply::Gives(format!("given {m}"), b))
        }
        "commit" => s.commit(n(1), n(2)).map(|o| Reply::Says(format!("granted {}", o.0))),
        "window" => s.set_window(n(1), n(2), n(3)).map(done),
        "undo" => s.undo().map(done),
        "places" => {
            let mut b = octets(w[3]);
            let p = s.places(n(1), n(2))?;
            if 4 * p.len() > b.len() {
                return Err(Refusal::ListTooLong);
            }
            for (i, x) in p.iter().flat_map(|&(o, l)| [o, l]).enumerate() {
                b[2 * i..2 * i + 2].copy_from_slice(&x.to_be_bytes());
            }
            Ok(Reply::Gives(format!("pairs {}", p.len()), b))
        }
        "dispatch" => {
            let list = scripts(w[1]);
            let list: Vec<&[ScriptCall]> = list.iter().map(Vec::as_slice).collect();
            let mut reader = octets(w[3]);
            let d = s.dispatch(&list, &octets(w[2]), &mut reader, n(4))?;
            let ends: Vec<String> = d.ended.iter().map(|e| e.map_or(0, Refusal::number).to_string()).collect();
            let ends = if ends.is_empty() { "-".to_string() } else { ends.join(",") };
            Ok(Reply::Gives(format!("ran {ends} commits {} reader", d.commits), reader))
        }
        "best" => {
            let octet = |x: &str| x.parse::<usize>().unwrap().min(255) as u8;
            let list: Vec<u8> = if w[1] == "-" { Vec::new() } else { w[1].split(',').map(octet).collect() };
            let o = s.best_order(&list, n(2), n(3))?;
            let order: Vec<String> = o.order.iter().map(u8::to_string).collect();
            let order = order.join(",");
            Ok(Reply::Says(format!("order {order} grants {} gap {} tried {}", o.grants, o.gap, o.tried)))
        }
        other => panic!("{other}"),
    }
}

#[test]
fn the_vectors_get_their_replies() {
    let Some(dir) = std::env::var_os("LUZHANEM_VECTORS") else {
        eprintln!("LUZHANEM_VECTORS names no folder: the vectors were left out");
        return;
    };
    let dir = std::path::PathBuf::from(dir);
    for level in ["11", "13", "10", "14"] {
        let text = std::fs::read_to_string(dir.join(format!("calls/level-{level}.txt"))).unwrap();
        let mut s = Store::new();
        for (i, l) in text.lines().enumerate() {
            if let Some(left) = l.strip_prefix("  ") {
                let w: Vec<&str> = left.split(' ').collect();
                let n = |i: usize| w[i + 1].parse::<usize>().unwrap();
                match w[0] {
                    "offsets" => (0..16).for_each(|d| assert_eq!(s.offset(d), Ok(n(d)), "{level}:{}", i + 1)),
                    "lengths" => (0..8).for_each(|f| assert_eq!(s.file(f).unwrap().len(), n(f), "{level}:{}", i + 1)),
                    "files" => assert_eq!(s.save().unwrap()[552..33320], joined(&w[1..]), "{level}:{}", i + 1),
                    "undo" => assert_eq!(s.save().unwrap()[33320..], joined(&w[1..]), "{level}:{}", i + 1),
                    other => panic!("{other}"),
                }
                continue;
            }
            let Some((call, want)) = l.split_once(" -> ") else { continue };
            let words: Vec<&str> = call.split(' ').collect();
            let have = performed(&mut s, &words).unwrap_or_else(|r| Reply::Says(format!("refused {}", r.number())));
            assert_eq!(have, reply_of(want), "{level}:{}: {call}", i + 1);
        }
    }
    for k in 0..8 {
        let input = std::fs::read(dir.join(format!("traces/t{k}.stdin"))).unwrap();
        assert_eq!(trace(&input), std::fs::read_to_string(dir.join(format!("traces/t{k}.stdout8"))).unwrap());
    }
}
