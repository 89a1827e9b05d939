//! The core of `explain` and `timeline`: a trace (F-5) or a log of calls (docs/CALLLOG.md) is replayed line by line
//! on the twin's store, and each line gets an [`Account`]: what it says, what was answered, and why.
//!
//! ```no_run
//! # fn main() -> std::io::Result<()> {
//! use tools::{RawLine, Replay, Source};
//! // Byte 13 is a byte like any other, and the first line tells whether it is a trace or a log.
//! let mut source = Source::new(std::io::stdin().lock(), false, None)?;
//! let mut replay = Replay::new(source.format());
//! let mut line = RawLine::default();
//! while source.next(&mut line)? {
//!     let account = replay.take(&line);
//!     for note in account.notes() {
//!         println!("{}: {}, which names the lines {:?}", account.number, note.text, note.names);
//!     }
//!     // The version line of another format is the last that is read.
//!     if account.ends_run() {
//!         break;
//!     }
//! }
//! # Ok(())
//! # }
//! ```
//!
//! Memory is bounded: the tables hold a line for each byte, offset and length that an open transaction has sighted,
//! and for each of its writes, however long the input is. The modules, from the input to the account:
//!
//! - [`lines`]: cuts the input into lines. [`bad_line`]: why a line has another form (17).
//! - [`replay`]: makes a line's call on the twin's store and builds its account.
//! - [`history`]: which line began, ended and staled each transaction, set each window and offset. It has the tables
//!   [`sightings`] (the read set: who saw what, and where first) and [`settings`] (the write set: what a grant set,
//!   by which line); [`things`] makes the reasons for 13 and 18 of the two.
//! - [`account`]: what is known of a line. [`notes`]: the notes for the other refusals, and for the calls of a log.
//! - [`summary`]: counts over all lines.
//! - [`text`], [`citation`], [`refusals`]: how bytes, lines and refusals are written.
//! - [`program`]: inputs by name, standard output, sentences and exit statuses, for both programs. [`ending`]: what
//!   they say at the end. [`timeline`]: the page of the second program.

pub mod account;
pub mod bad_line;
pub mod citation;
pub mod ending;
pub mod history;
pub mod lines;
pub mod notes;
pub mod program;
pub mod refusals;
pub mod replay;
pub mod settings;
pub mod sightings;
pub mod summary;
pub mod text;
pub mod things;
pub mod timeline;

pub use account::{Account, Answer, Change, End, MadeStale, Meaning, Note, Stale};
pub use citation::Citation;
pub use lines::{Format, RawLine, Source};
pub use replay::Replay;
pub use summary::Summary;
pub use things::{Reason, Thing};
pub use twin::calllog::Asked;
