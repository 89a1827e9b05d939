//! Replays a trace or a log of calls and says why each refusal came. Tested, not proved: the answers are held to
//! those of the proved `trace`, the reasons to the plain machine of the twin.

mod answers;
mod counts;
mod named;
mod options;
mod rows;
mod run;
mod snapshot;

use std::io::{self, Write};
use std::process::ExitCode;

use options::{Task, USAGE};
use tools::program::{self, Failure};

const PROGRAM: &str = "explain";

fn main() -> ExitCode {
    program::exit(PROGRAM, USAGE, perform())
}

fn perform() -> Result<ExitCode, Failure> {
    match options::parse(std::env::args_os().skip(1))? {
        Task::Help => print(USAGE),
        Task::Version => print(&format!("{PROGRAM} {}\n", env!("CARGO_PKG_VERSION"))),
        Task::Explain(options) => run::explain(&options),
    }
}

fn print(text: &str) -> Result<ExitCode, Failure> {
    let mut out = program::output()?;
    let written: io::Result<()> = out.write_all(text.as_bytes()).and_then(|()| out.flush());
    written.map_err(|error| Failure::writing("standard output", 0, &error))?;
    Ok(ExitCode::SUCCESS)
}
