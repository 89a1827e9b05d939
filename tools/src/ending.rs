//! What there is to say at the end, on standard error.

use crate::account::{Account, Meaning};
use crate::program;
use crate::text::{counted, quoted};

/// How many lines of a kind there were, and the first.
#[derive(Clone, Copy, Default)]
struct Found {
    count: u64,
    first: u64,
}

impl Found {
    fn add(&mut self, line: u64) {
        if self.count == 0 {
            self.first = line;
        }
        self.count += 1;
    }
}

#[derive(Default)]
pub struct Ending {
    /// Answers of a log that the replay does not give, and what there is to say of the first.
    differences: Found,
    first_difference: String,
    /// Lines that would be good without the byte 13 at their end.
    returns: Found,
    /// The line that ended the run, and its note.
    unknown_version: Option<String>,
}

impl Ending {
    pub fn add(&mut self, account: &Account) {
        match account.meaning {
            Meaning::Bad { return_only: true } => self.returns.add(account.number),
            Meaning::Recorded { agrees: false } => {
                if self.differences.count == 0 {
                    let recorded = account.line.strip_prefix(b"= ").unwrap_or_default();
                    self.first_difference = format!("the log has {}, {}", quoted(recorded), notes(account));
                }
                self.differences.add(account.number);
            }
            Meaning::Version(_) if account.ends_run() => {
                self.unknown_version = Some(format!("line {}: {}", account.number, notes(account)));
            }
            _ => {}
        }
    }

    pub fn say(&self, program: &str) {
        if let Some(sentence) = &self.unknown_version {
            program::say(program, sentence);
        }
        let Found { count, first } = self.differences;
        if count > 0 {
            let others = match count - 1 {
                0 => String::new(),
                others => format!("; {} too", counted(others, "later answer")),
            };
            program::say(program, &format!("line {first} differs: {}{others}", self.first_difference));
        }
        let Found { count, first } = self.returns;
        if count > 0 {
            let lines = counted(count, "line");
            let sentence =
                format!("{lines} would be good without byte 13 at the end, first line {first}: --crlf takes");
            program::say(program, &(sentence + " it for a part of the line's end"));
        }
    }
}

fn notes(account: &Account) -> String {
    let texts: Vec<String> = account.notes().into_iter().map(|note| note.text).collect();
    texts.join("; ")
}
