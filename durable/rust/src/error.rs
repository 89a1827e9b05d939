//! What can go wrong.

use crate::ffi;
use luzhanem::Refusal;
use std::ffi::CStr;
use std::fmt;
use std::os::raw::c_int;

/// Why a call failed. The text is the layer's sentence, with the database's own words where it has some.
#[derive(Clone, Debug, PartialEq, Eq)]
pub enum Error {
    /// The store refused: what was asked for is not granted.
    Refused(Refusal),
    /// Granted in memory and not known to be on disk; the next sync tries again.
    NotSaved(String),
    /// Another open has taken the channel over; nothing more is written from here.
    Fenced(String),
    /// The database cannot be opened, read or written.
    Unreachable(String),
    /// The database has no channel of this name.
    NoChannel(String),
    /// The channel was written in another format, by another version.
    Format(String),
    /// A part of the channel is missing, or has another size or checksum.
    Damaged(String),
    /// The URL or the name of the channel is not valid.
    BadArgument(String),
    /// There is no memory for it.
    NoMemory(String),
}

impl fmt::Display for Error {
    fn fmt(&self, f: &mut fmt::Formatter<'_>) -> fmt::Result {
        match self {
            Error::Refused(refusal) => refusal.fmt(f),
            Error::NotSaved(words)
            | Error::Fenced(words)
            | Error::Unreachable(words)
            | Error::NoChannel(words)
            | Error::Format(words)
            | Error::Damaged(words)
            | Error::BadArgument(words)
            | Error::NoMemory(words) => f.write_str(words),
        }
    }
}

impl std::error::Error for Error {}

impl From<Refusal> for Error {
    fn from(refusal: Refusal) -> Error {
        Error::Refused(refusal)
    }
}

/// The answer of a call that this thread has just made.
pub(crate) fn answered(answer: c_int) -> Result<c_int, Error> {
    if answer >= 0 {
        return Ok(answer);
    }
    if let Some(&refusal) = Refusal::ALL.iter().find(|refusal| -c_int::from(refusal.number()) == answer) {
        return Err(Error::Refused(refusal));
    }
    // SAFETY: the text ends in a 0, and is valid until this thread's next call.
    let words = unsafe { CStr::from_ptr(ffi::luzhanem_durable_error()) }.to_string_lossy().into_owned();
    Err(match answer {
        -101 => Error::NotSaved(words),
        -102 => Error::Fenced(words),
        -104 => Error::NoChannel(words),
        -105 => Error::Format(words),
        -106 => Error::Damaged(words),
        -107 => Error::BadArgument(words),
        -108 => Error::NoMemory(words),
        _ => Error::Unreachable(words),
    })
}
