//! A transactional file store for a playout server: 8 files of up to 4,096 bytes, 16 shared descriptors and 8
//! transactions, in memory, under optimistic concurrency control. The store is proved; this crate, which gives it a
//! safe interface, is tested.
//!
//! ```
//! use luzhanem::{Refusal, Store};
//!
//! let mut s = Store::new(); // descriptor d belongs to file d mod 8
//! s.begin(0)?;
//! s.write(0, 3, b"14:02 jingle\n")?; // an append through descriptor 3
//! match s.commit(0, 14 * 60 + 2) {
//!     Ok(made_stale) => assert!(made_stale.is_empty()),
//!     Err(Refusal::Stale) => { /* it has ended: begin it again */ }
//!     Err(other) => return Err(other),
//! }
//! assert_eq!(s.file(3)?, b"14:02 jingle\n");
//! # Ok::<(), Refusal>(())
//! ```
//!
//! A refused call has changed nothing; [`Refusal::Stale`] alone ends its transaction, as [`Store::abort`] does. A
//! [`Store`] is `Send`: for several threads put it into a `Mutex`, and hold that for the length of a call. luzhanem.h
//! describes each call, and what to do after each refusal.

mod ffi;
mod recording;
mod refusal;

pub use recording::{to_writer, Sink};
pub use refusal::Refusal;

use recording::Recorder;
use refusal::{answered, done, text};
use std::fmt;
use std::io;

/// A set of transactions.
#[derive(Clone, Copy, Debug, PartialEq, Eq, Default)]
pub struct Transactions(pub u8);

impl Transactions {
    pub fn is_empty(self) -> bool {
        self.0 == 0
    }

    pub fn contains(self, t: usize) -> bool {
        t < 8 && self.0 >> t & 1 == 1
    }

    pub fn iter(self) -> impl Iterator<Item = usize> {
        (0..8).filter(move |&t| self.contains(t))
    }
}

/// A call of a script; `Write` names its part of the data.
#[derive(Clone, Copy, Debug, PartialEq, Eq)]
pub enum ScriptCall {
    Seek { descriptor: usize, offset: usize },
    Write { descriptor: usize, start: usize, count: usize },
    GetFilePointer { descriptor: usize },
    Read { descriptor: usize, count: usize },
}

/// What the dispatcher answers: how many commits it made, and of each script the refusal that ended it, if one did.
#[derive(Clone, Debug, PartialEq, Eq)]
pub struct Dispatched {
    pub commits: usize,
    pub ended: Vec<Option<Refusal>>,
}

/// An order to commit in; no order has more grants than `grants + gap`.
#[derive(Clone, Debug, PartialEq, Eq)]
pub struct Order {
    pub order: Vec<u8>,
    pub grants: usize,
    pub gap: usize,
    pub tried: usize,
}

/// How a transaction stands.
#[derive(Clone, Copy, Debug, PartialEq, Eq)]
pub enum State {
    Closed,
    Open,
    Stale,
}

/// The size of an image, in bytes.
pub const IMAGE_BYTES: usize = std::mem::size_of::<ffi::Image>();

/// The version of the library that is linked.
pub fn version() -> &'static str {
    // SAFETY: the function takes nothing.
    text(unsafe { ffi::luzhanem_version() })
}

/// The number of the library's layout: a block fits one layout only.
pub fn layout() -> usize {
    // SAFETY: the function takes nothing.
    unsafe { ffi::luzhanem_layout() as usize }
}

/// A store in memory of its own.
pub struct Store {
    block: Box<ffi::Block>,
    recorder: Option<Box<Recorder>>,
}

impl Default for Store {
    fn default() -> Self {
        Store::new()
    }
}

/// A clone has what is open too. It is not recorded.
impl Clone for Store {
    fn clone(&self) -> Store {
        Store { block: self.block.clone(), recorder: None }
    }
}

impl fmt::Debug for Store {
    fn fmt(&self, f: &mut fmt::Formatter<'_>) -> fmt::Result {
        f.debug_struct("Store").field("recording", &self.recorder.is_some()).finish_non_exhaustive()
    }
}

/// Makes a call; if the store records, with the line before it and the line of its answer after it.
///
/// SAFETY of each use: the block is this store's own and whole and nobody else has a part of it, a slice is passed
/// with its own length, a line goes to a buffer with its own length, and the library keeps no pointer.
macro_rules! call {
    ($store:ident, $function:ident($($argument:expr),*), $line:ident($($recorded:expr),*), $answer:ident) => {
        call!($store, $function($($argument),*), $line($($recorded),*), $answer())
    };
    (
        $store:ident, $function:ident($($argument:expr),*),
        $line:ident($($recorded:expr),*), $answer:ident($($given:expr),*)
    ) => {
        if let Some(recorder) = &mut $store.recorder {
            recorder.line(move |out, room| unsafe { ffi::$line(out, room, $($recorded),*) });
            let answer = unsafe { ffi::$function(&mut *$store.block, $($argument),*) };
            recorder.line(move |out, room| unsafe { ffi::$answer(out, room, answer, $($given),*) });
            answer
        } else {
            unsafe { ffi::$function(&mut *$store.block, $($argument),*) }
        }
    };
}

impl Store {
    /// Descriptor d belongs to file d mod 8.
    pub fn new() -> Store {
        Store { block: fresh_block(), recorder: None }
    }

    /// Descriptor d belongs to file `file_of[d]`.
    pub fn with_files(file_of: [u8; 16]) -> Result<Store, Refusal> {
        let mut s = Store::new();
        s.fresh(file_of)?;
        Ok(s)
    }

    /// A store whose calls are recorded, from the first on, as a log that the program `replay` makes again.
    ///
    /// ```
    /// use luzhanem::{to_writer, Store};
    /// use std::sync::{Arc, Mutex};
    ///
    /// let mut to_file = Store::recorded(to_writer(std::io::sink())); // an open file, for instance
    /// let log = Arc::new(Mutex::new(Vec::new()));
    /// let lines = Arc::clone(&log);
    /// let mut s = Store::recorded(Box::new(move |line| Ok(lines.lock().unwrap().extend_from_slice(line))));
    /// s.begin(0).unwrap();
    /// assert!(log.lock().unwrap().ends_with(b"B0\n= ok\n"));
    /// # to_file.begin(0).unwrap();
    /// ```
    pub fn recorded(sink: Sink) -> Store {
        let mut s = Store::new();
        s.record(sink);
        s.fresh(std::array::from_fn(|d| d as u8 % 8)).expect("every file is below 8");
        s
    }

    /// Records from now on. `replay` starts from [`Store::block`] as it is now, so write that to a file first.
    pub fn record(&mut self, sink: Sink) {
        self.recorder = Some(Box::new(Recorder::new(sink)));
    }

    /// Ends recording, and answers the error at which the sink stopped taking lines, if it did.
    pub fn stop_recording(&mut self) -> io::Result<()> {
        match self.recorder.take().and_then(|recorder| recorder.error) {
            Some(error) => Err(error),
            None => Ok(()),
        }
    }

    /// Whether lines go to a sink; not after the sink has failed.
    pub fn is_recording(&self) -> bool {
        self.recorder.as_ref().is_some_and(|recorder| recorder.error.is_none())
    }

    /// The saved block that the program `replay` starts from: all of the store, with what is open. It fits the same
    /// [`layout`] and byte order only.
    pub fn block(&self) -> &[u8] {
        let p: *const ffi::Block = &*self.block;
        // SAFETY: a block is plain numbers without padding, and is longer.
        unsafe { std::slice::from_raw_parts(p.cast::<u8>(), ffi::BLOCK_BYTES) }
    }

    /// Makes the store fresh, whatever it held.
    pub fn fresh(&mut self, file_of: [u8; 16]) -> Result<(), Refusal> {
        let list = file_of.as_ptr();
        let size = std::mem::size_of::<ffi::Block>();
        done(call!(self, luzhanem_fresh(size, list), luzhanem_line_fresh(list), luzhanem_line_done))
    }

    /// Opens transaction t.
    #[inline]
    pub fn begin(&mut self, t: usize) -> Result<(), Refusal> {
        done(call!(self, luzhanem_begin(t), luzhanem_line_begin(t), luzhanem_line_done))
    }

    /// Ends t, and drops its writes.
    #[inline]
    pub fn abort(&mut self, t: usize) -> Result<(), Refusal> {
        done(call!(self, luzhanem_abort(t), luzhanem_line_abort(t), luzhanem_line_done))
    }

    /// Sets the offset of descriptor d in t.
    #[inline]
    pub fn seek(&mut self, t: usize, d: usize, offset: usize) -> Result<(), Refusal> {
        done(call!(self, luzhanem_seek(t, d, offset), luzhanem_line_seek(t, d, offset), luzhanem_line_done))
    }

    /// Writes at that offset; an append if t has not looked at it.
    #[inline]
    pub fn write(&mut self, t: usize, d: usize, bytes: &[u8]) -> Result<(), Refusal> {
        let (p, n) = (bytes.as_ptr(), bytes.len());
        done(call!(self, luzhanem_write(t, d, p, n), luzhanem_line_write(t, d, p, n), luzhanem_line_done))
    }

    /// The offset of d in t, as t sees it. [`Store::offset`] looks from outside.
    #[inline]
    pub fn get_file_pointer(&mut self, t: usize, d: usize) -> Result<usize, Refusal> {
        answered(call!(
            self,
            luzhanem_get_file_pointer(t, d),
            luzhanem_line_get_file_pointer(t, d),
            luzhanem_line_number
        ))
    }

    /// Reads as many bytes as `out` has, as far as the file goes, own writes first. Answers those that were read.
    #[inline]
    pub fn read<'a>(&mut self, t: usize, d: usize, out: &'a mut [u8]) -> Result<&'a [u8], Refusal> {
        let (p, n) = (out.as_mut_ptr(), out.len());
        let given =
            answered(call!(self, luzhanem_read(t, d, p, n), luzhanem_line_read(t, d, n), luzhanem_line_given(p, n)))?;
        Ok(&out[..given])
    }

    /// Applies what t wrote, at a minute of the day, and ends it. Answers whom it made stale.
    #[inline]
    pub fn commit(&mut self, t: usize, minute: usize) -> Result<Transactions, Refusal> {
        let r = call!(self, luzhanem_commit(t, minute), luzhanem_line_commit(t, minute), luzhanem_line_number);
        answered(r).map(|octet| Transactions(octet as u8))
    }

    /// Where the writes of t on file f will land: offsets and lengths.
    pub fn places(&mut self, t: usize, f: usize) -> Result<Vec<(u16, u16)>, Refusal> {
        let mut list = [ffi::Place::default(); 64];
        let p = list.as_mut_ptr();
        let r = call!(self, luzhanem_places(t, f, p, 64), luzhanem_line_places(t, f, 64), luzhanem_line_listed(p, 64));
        Ok(list[..answered(r)?].iter().map(|place| (place.offset, place.length)).collect())
    }

    /// Bytes may go to file f from minute `start` on, before minute `end`.
    pub fn set_window(&mut self, f: usize, start: usize, end: usize) -> Result<(), Refusal> {
        done(call!(
            self,
            luzhanem_set_window(f, start, end),
            luzhanem_line_set_window(f, start, end),
            luzhanem_line_done
        ))
    }

    /// Undoes the last commit.
    pub fn undo(&mut self) -> Result<(), Refusal> {
        done(call!(self, luzhanem_undo(), luzhanem_line_undo(), luzhanem_line_done))
    }

    /// Runs script k as transaction k, in rounds, until each is committed or has failed. Bytes read go to the front of
    /// `reader`. While the store records, the calls are made one by one, so that each has its line.
    pub fn dispatch(
        &mut self,
        scripts: &[&[ScriptCall]],
        data: &[u8],
        reader: &mut [u8],
        minute: usize,
    ) -> Result<Dispatched, Refusal> {
        let flat = flat(scripts);
        let mut ended = [0; 8];
        let (d, dn, r, rn) = (data.as_ptr(), data.len(), reader.as_mut_ptr(), reader.len());
        let (s, e) = (&mut *self.block, ended.as_mut_ptr());
        // SAFETY: as of every call; the lent recorder lives to the end of the call.
        let commits = answered(match &mut self.recorder {
            None => unsafe { ffi::luzhanem_dispatch(s, &*flat, d, dn, r, rn, minute, e) },
            Some(recorder) => unsafe {
                let mut lent = recorder.lent();
                ffi::luzhanem_dispatch_recorded(s, &*flat, d, dn, r, rn, minute, e, &mut *lent)
            },
        })?;
        let ended = ended[..scripts.len()].iter().map(|&end| answered(end).err()).collect();
        Ok(Dispatched { commits, ended })
    }

    /// An order of these open transactions in which most would be committed, of at most `budget` orders tried.
    pub fn best_order(&mut self, transactions: &[u8], minute: usize, budget: usize) -> Result<Order, Refusal> {
        let mut out = ffi::Order::default();
        let (p, n, o): (_, _, *mut ffi::Order) = (transactions.as_ptr(), transactions.len(), &mut out);
        let grants = answered(call!(
            self,
            luzhanem_best_order(p, n, minute, budget, o),
            luzhanem_line_best_order(p, n, minute, budget),
            luzhanem_line_ordered(o, n)
        ))?;
        Ok(Order { order: out.order[..n].to_vec(), grants, gap: out.gap.into(), tried: out.tried.into() })
    }

    /// The committed offset of descriptor d, from outside every transaction.
    pub fn offset(&self, d: usize) -> Result<usize, Refusal> {
        // SAFETY: the block is whole.
        answered(unsafe { ffi::luzhanem_offset(&*self.block, d) })
    }

    /// The file of descriptor d.
    pub fn file_of(&self, d: usize) -> Result<usize, Refusal> {
        // SAFETY: the block is whole.
        answered(unsafe { ffi::luzhanem_file_of(&*self.block, d) })
    }

    /// What is committed of file f.
    pub fn file(&self, f: usize) -> Result<&[u8], Refusal> {
        // SAFETY: the block is whole.
        let n = answered(unsafe { ffi::luzhanem_length(&*self.block, f) })?;
        if n > 4096 {
            return Err(Refusal::RecordRange);
        }
        // SAFETY: the pointer is to the 4,096 bytes of file f, which are in the block; f is below 8.
        Ok(unsafe { std::slice::from_raw_parts(ffi::luzhanem_file(&*self.block, f), n) })
    }

    /// How transaction t stands.
    pub fn state(&self, t: usize) -> Result<State, Refusal> {
        // SAFETY: the block is whole.
        Ok(match answered(unsafe { ffi::luzhanem_state(&*self.block, t) })? {
            0 => State::Closed,
            1 => State::Open,
            _ => State::Stale,
        })
    }

    /// Whether every number of the store is in its range.
    pub fn check(&self) -> Result<(), Refusal> {
        // SAFETY: the block is whole.
        done(unsafe { ffi::luzhanem_check(&*self.block) })
    }

    /// An image of what is committed, whatever is open: [`IMAGE_BYTES`] in the form of docs/IMAGE.md.
    pub fn save(&self) -> Result<Vec<u8>, Refusal> {
        let mut image = zeroed::<ffi::Image>();
        // SAFETY: block and image are whole.
        done(unsafe { ffi::luzhanem_save(&*self.block, &mut *image) })?;
        let p: *const ffi::Image = &*image;
        // SAFETY: an image is bytes without padding.
        Ok(unsafe { std::slice::from_raw_parts(p.cast::<u8>(), IMAGE_BYTES) }.to_vec())
    }

    /// A store from an image; it answers as the saved one would with every transaction aborted.
    pub fn load(image: &[u8]) -> Result<Store, Refusal> {
        if image.len() != IMAGE_BYTES {
            return Err(Refusal::BufferLength);
        }
        let mut s = Store::new();
        // SAFETY: the slice has the size of an image, which is bytes, so any address is aligned.
        done(unsafe { ffi::luzhanem_load(&mut *s.block, image.as_ptr().cast()) })?;
        Ok(s)
    }

    /// A store from what [`Store::block`] gave, with what was open. Nothing is checked but its length; every call
    /// checks the ranges.
    pub fn from_block(block: &[u8]) -> Result<Store, Refusal> {
        if block.len() != ffi::BLOCK_BYTES {
            return Err(Refusal::BufferLength);
        }
        let mut s = Store::new();
        let p: *mut ffi::Block = &mut *s.block;
        // SAFETY: a block is plain numbers and longer, and any bytes are one.
        unsafe { std::ptr::copy_nonoverlapping(block.as_ptr(), p.cast::<u8>(), block.len()) };
        Ok(s)
    }

    /// Makes the call of a line of a log, given without its end, and answers what that call answers. Recording ends:
    /// the line is in a log already.
    pub fn replay_line(&mut self, line: &[u8]) -> Result<usize, Refusal> {
        self.recorder = None;
        // SAFETY: as of every call.
        answered(unsafe { ffi::luzhanem_replay_line(&mut *self.block, line.as_ptr().cast(), line.len()) })
    }
}

/// A value of plain numbers, all 0, on the heap.
fn zeroed<T>() -> Box<T> {
    let layout = std::alloc::Layout::new::<T>();
    // SAFETY: used for Block, Image and Scripts alone, whose size is not 0 and for which zeros are a value.
    unsafe {
        let p = std::alloc::alloc_zeroed(layout);
        if p.is_null() {
            std::alloc::handle_alloc_error(layout);
        }
        Box::from_raw(p.cast())
    }
}

fn fresh_block() -> Box<ffi::Block> {
    let mut block = zeroed::<ffi::Block>();
    let size = std::mem::size_of::<ffi::Block>();
    // SAFETY: the function takes nothing.
    assert_eq!(unsafe { ffi::luzhanem_size() }, size, "libluzhanem is of another version");
    // SAFETY: the block is whole.
    let r = unsafe { ffi::luzhanem_fresh(&mut *block, size, std::ptr::null()) };
    assert_eq!(r, 0, "libluzhanem is of another version");
    block
}

/// Scripts as C holds them.
fn flat(scripts: &[&[ScriptCall]]) -> Box<ffi::Scripts> {
    let mut out = zeroed::<ffi::Scripts>();
    out.count = scripts.len();
    for (k, script) in scripts.iter().take(8).enumerate() {
        out.counts[k] = script.len();
        for (i, call) in script.iter().take(16).enumerate() {
            let (kind, descriptor, at, count) = match *call {
                ScriptCall::Seek { descriptor, offset } => (0, descriptor, offset, 0),
                ScriptCall::Write { descriptor, start, count } => (1, descriptor, start, count),
                ScriptCall::GetFilePointer { descriptor } => (2, descriptor, 0, 0),
                ScriptCall::Read { descriptor, count } => (3, descriptor, 0, count),
            };
            out.calls[k][i] = ffi::ScriptCall { kind, descriptor, at, count };
        }
    }
    out
}

#[cfg(test)]
mod tests {
    use super::*;

    #[test]
    fn sizes_are_those_of_the_library() {
        // SAFETY: the function takes nothing.
        assert_eq!(std::mem::size_of::<ffi::Block>(), unsafe { ffi::luzhanem_size() });
        assert_eq!(ffi::BLOCK_BYTES, 106_630);
        assert_eq!(IMAGE_BYTES, 37416);
        assert_eq!(std::mem::size_of::<ffi::Scripts>(), 521 * 8);
        assert_eq!(std::mem::size_of::<ffi::Order>(), 12);
        assert_eq!(std::mem::size_of::<ffi::Place>(), 4);
        assert_eq!(version(), env!("CARGO_PKG_VERSION"));
        assert_eq!(layout(), 2);
    }

    #[test]
    fn refusals_have_the_names_and_numbers_of_the_library() {
        for (i, refusal) in Refusal::ALL.into_iter().enumerate() {
            assert_eq!(usize::from(refusal.number()), i + 1);
            let name: String = refusal.name().split('_').map(|w| w[..1].to_string() + &w[1..].to_lowercase()).collect();
            assert_eq!(name, format!("{refusal:?}"));
            assert!(refusal.to_string().ends_with(&format!(" ({})", i + 1)));
        }
        // SAFETY: the function reads nothing but its argument.
        assert_eq!(text(unsafe { ffi::luzhanem_errname(-28) }), "UNKNOWN");
    }
}
