//! The program `timeline`: from its arguments to its exit status.

use std::ffi::{OsStr, OsString};
use std::io::{self, BufRead, Write};
use std::path::Path;
use std::process::ExitCode;

use super::gather::Gatherer;
use super::head::grouped;
use super::html;
use super::model::Page;
use super::options::{self, Options, Task, USAGE};
use super::output;
use crate::ending::Ending;
use crate::lines::{RawLine, Source};
use crate::program::{self, Failure, Input};
use crate::replay::Replay;
use crate::summary::Summary;

const PROGRAM: &str = "timeline";
/// The most lines of a page.
const MOST_LINES: usize = 10_000;

pub fn run(arguments: impl Iterator<Item = OsString>) -> ExitCode {
    program::exit(PROGRAM, USAGE, perform(arguments))
}

fn perform(arguments: impl Iterator<Item = OsString>) -> Result<ExitCode, Failure> {
    match options::parse(arguments)? {
        Task::Draw(options) => draw(&options)?,
        Task::Help => write(None, USAGE, 0)?,
        Task::Version => write(None, concat!("timeline ", env!("CARGO_PKG_VERSION"), "\n"), 0)?,
    }
    Ok(ExitCode::SUCCESS)
}

fn draw(options: &Options) -> Result<(), Failure> {
    let input = Input::open(options.file.as_deref())?;
    let (page, ending) = gather(options, input)?;
    write(options.output.as_deref(), &html::page(&page), page.counts.lines)?;
    ending.say(PROGRAM);
    Ok(())
}

fn write(file: Option<&OsStr>, text: &str, lines: u64) -> Result<(), Failure> {
    let Some(file) = file else {
        let mut out = program::output()?;
        let written: io::Result<()> = out.write_all(text.as_bytes()).and_then(|()| out.flush());
        return written.map_err(|error| Failure::writing("standard output", lines, &error));
    };
    let written = output::write(Path::new(file), text.as_bytes());
    written.map_err(|error| Failure::writing(&program::name_of(file), lines, &error))
}

/// Replays the whole input from line 1, and keeps what the page shows.
fn gather(options: &Options, input: Input) -> Result<(Page, Ending), Failure> {
    let Input { name, reader } = input;
    let mut source = Source::new(reader, options.crlf, options.asked_format())
        .map_err(|error| Failure::reading(&name, 0, &error))?;
    let mut replay = match &options.block {
        Some(block) => program::replay_from_block(block)?,
        None => Replay::new(source.format()),
    };
    let mut taken = Taken::new(options, &replay);
    taken.take_all(&name, &mut source, &mut replay)?;
    check_part(options, &name, replay.lines())?;
    Ok((taken.gatherer.page(title(options), taken.summary), taken.ending))
}

/// What is kept of the lines.
struct Taken {
    gatherer: Gatherer,
    summary: Summary,
    ending: Ending,
}

impl Taken {
    fn new(options: &Options, replay: &Replay) -> Taken {
        let mut gatherer = Gatherer::new(options.first, options.last.unwrap_or(u64::MAX));
        gatherer.take_block(replay.history());
        let open = replay.history().courses.iter().filter(|course| course.begun.is_some()).count();
        Taken { gatherer, summary: Summary::new(open as u64), ending: Ending::default() }
    }

    fn take_all<R: BufRead>(&mut self, name: &str, source: &mut Source<R>, replay: &mut Replay) -> Result<(), Failure> {
        let mut line = RawLine::default();
        while source.next(&mut line).map_err(|error| Failure::reading(name, replay.lines(), &error))? {
            let account = replay.take(&line);
            self.summary.add(&account);
            self.ending.add(&account);
            self.gatherer.take(&account);
            if self.gatherer.rows() > MOST_LINES {
                return Err(too_long(name));
            }
            if account.ends_run() {
                break;
            }
        }
        Ok(())
    }
}

/// Is the line that the options name there?
fn check_part(options: &Options, name: &str, lines: u64) -> Result<(), Failure> {
    let wanted = options.around.unwrap_or(options.first);
    if wanted == 1 || wanted <= lines {
        return Ok(());
    }
    Err(Failure::Failed(format!("{name} has no line {wanted}, it has {lines}")))
}

fn title(options: &Options) -> String {
    let file = options.file.as_deref().filter(|&file| file != "-").and_then(|file| Path::new(file).file_name());
    match (&options.title, file) {
        (Some(title), _) => title.clone(),
        (None, Some(file)) => file.to_string_lossy().into_owned(),
        (None, None) => "A trace".to_string(),
    }
}

fn too_long(name: &str) -> Failure {
    let most = grouped(MOST_LINES as u64);
    Failure::Failed(format!(
        "{name} is too long, a page has at most {most} lines: choose a part by --from and --to, or by --around (200 lines \
         before and after a line)"
    ))
}
