//! The refusals of luzhanem.h.

use crate::ffi;
use std::ffi::CStr;
use std::fmt;

/// Why a call was refused. The values are the numbers of docs/RULES.md; luzhanem.h says what to do after each.
#[derive(Clone, Copy, Debug, PartialEq, Eq, Hash)]
#[repr(u8)]
pub enum Refusal {
    BufferLength = 1,
    RecordRange,
    NoSuchTransaction,
    NotOpen,
    AlreadyOpen,
    NoSuchTarget,
    ReaderTooShort,
    SeekPastEnd,
    WritePastEnd,
    RecordsFull,
    LogFull,
    AppendPastEnd,
    /// Commit: the transaction has ended. Begin it again.
    Stale,
    NoSuchFile,
    NoPlaceYet,
    ListTooLong,
    BadLine,
    /// Read or GetFilePointer: nothing more is shown to it. Commit or abort it, then begin it again.
    StaleReader,
    NotAtRest,
    ScriptRange,
    FileClosed,
    NoSuchMinute,
    StillOpen,
    NoGrant,
    NotReady,
    BadList,
    BadBudget,
}

use Refusal::*;

impl Refusal {
    /// All of them, in the order of their numbers.
    #[rustfmt::skip]
    pub const ALL: [Refusal; 27] = [
        BufferLength, RecordRange, NoSuchTransaction, NotOpen, AlreadyOpen, NoSuchTarget, ReaderTooShort, SeekPastEnd,
        WritePastEnd, RecordsFull, LogFull, AppendPastEnd, Stale, NoSuchFile, NoPlaceYet, ListTooLong, BadLine,
        StaleReader, NotAtRest, ScriptRange, FileClosed, NoSuchMinute, StillOpen, NoGrant, NotReady, BadList, BadBudget,
    ];

    /// Its number in docs/RULES.md.
    pub fn number(self) -> u8 {
        self as u8
    }

    /// Its name in luzhanem.h: `STALE`.
    pub fn name(self) -> &'static str {
        // SAFETY: the function reads nothing but its argument.
        text(unsafe { ffi::luzhanem_errname(-i32::from(self.number())) })
    }
}

impl fmt::Display for Refusal {
    fn fmt(&self, f: &mut fmt::Formatter<'_>) -> fmt::Result {
        // SAFETY: the function reads nothing but its argument.
        let sentence = text(unsafe { ffi::luzhanem_strerror(-i32::from(self.number())) });
        write!(f, "{sentence} ({})", self.number())
    }
}

impl std::error::Error for Refusal {}

/// A static text of the library.
pub(crate) fn text(p: *const std::os::raw::c_char) -> &'static str {
    // SAFETY: the library's texts are static and end in a 0.
    unsafe { CStr::from_ptr(p) }.to_str().unwrap_or("")
}

/// What a call answered.
#[inline]
pub(crate) fn answered(r: i32) -> Result<usize, Refusal> {
    if r >= 0 {
        return Ok(r as usize);
    }
    Err(Refusal::ALL[(-r) as usize - 1])
}

/// The same of a call without a result.
#[inline]
pub(crate) fn done(r: i32) -> Result<(), Refusal> {
    answered(r).map(|_| ())
}
