//! Draws a trace, or a log of calls, as one HTML page. Tested, not proved: what it says is what `explain` says.

use std::process::ExitCode;

fn main() -> ExitCode {
    tools::timeline::run(std::env::args_os().skip(1))
}
