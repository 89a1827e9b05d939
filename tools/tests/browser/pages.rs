//! The pages that are looked at, and what the replay says of their lines.

use std::path::{Path, PathBuf};
use std::process::Command;

use tools::{RawLine, Replay, Source};
use twin::traces;

/// A page, and the lines that its keys lead to.
pub struct Page {
    pub name: &'static str,
    pub file: PathBuf,
    pub title: String,
    pub lines: u64,
    /// The refused lines, ascending.
    pub refused: Vec<u64>,
    /// A line and the line that Enter leads to, ascending.
    pub causes: Vec<(u64, u64)>,
    /// Commit and sighting of each arrow, with the transaction made stale.
    pub arrows: Vec<(u64, u64, usize)>,
}

impl Page {
    pub fn url(&self) -> String {
        format!("file://{}", self.file.display())
    }

    pub fn at(&self, line: u64) -> String {
        format!("{}#L{line}", self.url())
    }
}

pub fn folder(name: &str) -> PathBuf {
    let folder = Path::new(env!("CARGO_TARGET_TMPDIR")).join(name);
    std::fs::create_dir_all(&folder).expect("a folder for the tests");
    folder
}

pub fn sample() -> Page {
    drawn("sample", include_bytes!("../../../samples/afternoon.trace"), "An afternoon")
}

/// The first 19 lines of the sample, for the picture in docs/.
pub fn first_lines() -> Page {
    let sample = include_str!("../../../samples/afternoon.trace");
    let lines: String = sample.lines().take(19).map(|line| format!("{line}\n")).collect();
    drawn("first-lines", lines.as_bytes(), "An afternoon, lines 1 to 19")
}

pub fn log() -> Page {
    drawn("log", include_bytes!("../../../samples/evening.log"), "An evening")
}

pub fn busy() -> Page {
    drawn("busy", &generated(7, 400, 8), "Four hundred lines")
}

pub fn long() -> Page {
    drawn("long", &generated(11, 10_000, 4), "Ten thousand lines")
}

/// Lines as `twin --make-trace` writes them, on so many transactions.
fn generated(seed: u64, lines: u64, transactions: u64) -> Vec<u8> {
    let mut trace = Vec::new();
    traces::write(&mut trace, seed, lines).expect("memory is written");
    if transactions > 4 {
        spread(&mut trace);
    }
    trace
}

/// Every other stretch of 50 lines is made by transactions 4 to 7.
fn spread(trace: &mut [u8]) {
    for (number, line) in trace.split_mut(|&byte| byte == b'\n').enumerate() {
        if number / 50 % 2 == 1 && line.len() > 1 && (b'0'..=b'3').contains(&line[1]) {
            line[1] += 4;
        }
    }
}

pub const HOSTILE_TITLE: &str = "</title><script>document.title='taken'</script>&amp; \"'<b>";

/// What a page must not take for more than text, in Writes, in Reads and in lines of another form.
pub fn hostile() -> Page {
    let texts = [
        "</script><script>document.title='taken'</script>",
        "<img src=x onerror=\"document.title='taken'\">",
        "\"'><a href=\"javascript:document.title='taken'\">x</a>",
        "</style><style>*{display:none}</style><!-- ]]>",
        "\u{0}\u{1b}[2J\u{7f}",
        "\u{202e}turned\u{2066}\u{200f}",
    ];
    let mut trace = String::from("B0\nS0 0 0\nB1\n");
    for text in texts {
        let length = text.len();
        trace += &format!("W0 0 {text}\n{text}\nS0 0 0\nR0 0 {length}\nR0 0 99999 {text}\nA9{text}\n");
    }
    trace += "C0\nC0\nS1 0 0\nR1 0 60\nB2\nS2 0 0\nW2 0 <img src=x onerror=alert(1)>\nC2\nR1 0 1\nC1\n";
    drawn("hostile", trace.as_bytes(), HOSTILE_TITLE)
}

fn drawn(name: &'static str, input: &[u8], title: &str) -> Page {
    let folder = folder("pages");
    let (source, file) = (folder.join(format!("{name}.input")), folder.join(format!("{name}.html")));
    std::fs::write(&source, input).expect("the input is written");
    let status = Command::new(env!("CARGO_BIN_EXE_timeline"))
        .args(["--title", title, "-o"])
        .args([&file, &source])
        .status()
        .expect("timeline runs");
    assert!(status.success());
    let mut page = Page {
        name,
        file,
        title: title.to_string(),
        lines: 0,
        refused: Vec::new(),
        causes: Vec::new(),
        arrows: Vec::new(),
    };
    replay(input, &mut page);
    page
}

fn replay(input: &[u8], page: &mut Page) {
    let mut source = Source::new(input, false, None).expect("memory is read");
    let mut replay = Replay::new(source.format());
    let mut line = RawLine::default();
    while source.next(&mut line).expect("memory is read") {
        let account = replay.take(&line);
        let number = account.number;
        page.lines = number;
        if account.refusal().is_some() {
            page.refused.push(number);
        }
        if let Some(stale) = &account.stale {
            page.causes.push((number, stale.since.line));
        }
        for made in &account.made_stale {
            page.arrows.extend(made.reasons.iter().map(|reason| (number, reason.seen.line, made.transaction)));
        }
        let seen = account.made_stale.iter().flat_map(|made| made.reasons.iter().map(|reason| reason.seen.line));
        page.causes.extend(seen.min().map(|first| (number, first)));
    }
    page.arrows.sort_unstable();
    page.arrows.dedup();
}
