//! Keeps what is committed in a store of `luzhanem` in a database, SQLite or PostgreSQL. Tested, not proved.
//!
//! ```
//! use luzhanem::{Refusal, Store};
//! use luzhanem_durable::{Durable, Error, How};
//!
//! # let file = std::env::temp_dir().join(format!("luzhanem-doc-{}.db", std::process::id()));
//! # let url = format!("sqlite:{}", file.display());
//! let d = Durable::open(&url, "channel one", How { create: true, ..How::default() }, Store::new())?;
//! d.store().begin(0)?;
//! d.store().write(0, 3, b"14:02 jingle\n")?;
//! match d.commit(0, 14 * 60 + 2) {
//!     Ok(made_stale) => assert!(made_stale.is_empty()), // granted, and there after a crash
//!     Err(Error::Refused(Refusal::Stale)) => { /* it has ended: begin it again */ }
//!     Err(Error::NotSaved(_)) => { /* granted in memory, and not known to be on disk: the next sync tries again */ }
//!     Err(other) => return Err(other),
//! }
//! # drop(d);
//! # for end in ["", "-wal", "-shm"] { let _ = std::fs::remove_file(format!("{}{end}", file.display())); }
//! # Ok::<(), Error>(())
//! ```
//!
//! [`Durable::store`] locks the store for calls as before. What changes what is committed, other than
//! [`Durable::commit`], is followed by [`Durable::sync`]: set_window, undo, dispatch. A `Durable` may be shared by threads;
//! those that sync at the same time share one save. luzhanem_durable.h describes each call.

mod error;
mod ffi;

pub use error::Error;

use error::answered;
use luzhanem::{Store, Transactions, IMAGE_BYTES};
use std::cell::UnsafeCell;
use std::ffi::{CStr, CString};
use std::os::raw::{c_char, c_int, c_void};
use std::ptr::NonNull;
use std::sync::{Mutex, MutexGuard, PoisonError};

/// What a sync waits for.
#[derive(Clone, Copy, Debug, Default, PartialEq, Eq)]
pub enum Level {
    /// For the disk: SQLite's synchronous=FULL, PostgreSQL's synchronous_commit=on.
    #[default]
    Full,
    /// Survives the process, and not always the machine.
    Normal,
    /// For no disk.
    Off,
}

/// How a channel is opened. `create` makes the channel, its tables and SQLite's file where they are missing.
#[derive(Clone, Copy, Debug, Default, PartialEq, Eq)]
pub struct How {
    pub create: bool,
    pub level: Level,
}

/// A channel of a database, and how many saves and takeovers it had.
#[derive(Clone, Debug, PartialEq, Eq)]
pub struct Channel {
    pub name: String,
    pub generation: i64,
}

/// The host's store, and the one that C reads. An image goes from the one to the other, so the host may do with its store
/// whatever Rust allows, even put another in its place.
struct Stores {
    store: Mutex<Store>,
    mirror: UnsafeCell<Box<[u16]>>,
}

/// A channel that is ours, and its store.
pub struct Durable {
    handle: NonNull<ffi::Handle>,
    stores: Box<Stores>,
}

// SAFETY: luzhanem_durable_sync may be called by many threads at once, and the other functions once each, by open and drop.
// The mirror is looked into by C alone, in the one save that is under way.
unsafe impl Send for Durable {}
unsafe impl Sync for Durable {}

impl Durable {
    /// Takes the channel over from whoever holds it: from now on their syncs answer [`Error::Fenced`]. A channel that is
    /// new is made from `store`; otherwise the store becomes what is saved, with no transaction open.
    pub fn open(url: &str, channel: &str, how: How, store: Store) -> Result<Durable, Error> {
        let (url, channel) = (text(url)?, text(channel)?);
        let mut mirror = new_block();
        let mut image = store.save()?;
        // SAFETY: block and image are whole.
        answered(unsafe { ffi::luzhanem_load(mirror.as_mut_ptr().cast(), image.as_ptr()) })?;
        let stores = Box::new(Stores { store: Mutex::new(store), mirror: UnsafeCell::new(mirror) });
        let context: *const Stores = &*stores;
        let lock = ffi::Lock { take, give, context: context.cast_mut().cast() };
        let mut handle = std::ptr::null_mut();
        // SAFETY: the texts end in a 0; store and context are on the heap and outlive the handle; the lock is copied.
        answered(unsafe {
            let mirror: *mut ffi::Block = (*stores.mirror.get()).as_mut_ptr().cast();
            ffi::luzhanem_durable_open(&mut handle, url.as_ptr(), channel.as_ptr(), how.flags(), mirror, &lock)
        })?;
        let handle = NonNull::new(handle).expect("an answer of 0 comes with a handle");
        let durable = Durable { handle, stores };
        // SAFETY: block and image are whole; no save is under way.
        answered(unsafe { ffi::luzhanem_save((*durable.stores.mirror.get()).as_ptr().cast(), image.as_mut_ptr()) })?;
        *durable.store() = Store::load(&image)?;
        Ok(durable)
    }

    /// Locks the store for calls. Do not hold this in a call of [`Durable::sync`] or [`Durable::commit`], which lock it too.
    pub fn store(&self) -> MutexGuard<'_, Store> {
        self.stores.store.lock().unwrap_or_else(PoisonError::into_inner)
    }

    /// Commits t, and syncs. [`Error::Refused`]: not granted. Another error: granted in memory, not known to be on disk.
    pub fn commit(&self, t: usize, minute: usize) -> Result<Transactions, Error> {
        let made_stale = self.store().commit(t, minute)?;
        self.sync()?;
        Ok(made_stale)
    }

    /// Returns when all that was committed before the call is on disk and the channel was still ours.
    pub fn sync(&self) -> Result<(), Error> {
        // SAFETY: the handle is open; any thread may call it.
        answered(unsafe { ffi::luzhanem_durable_sync(self.handle.as_ptr()) }).map(|_| ())
    }

    /// Reads a channel without taking it: what is saved, and how many saves and takeovers there were.
    pub fn load(url: &str, channel: &str) -> Result<(Store, i64), Error> {
        let (url, channel) = (text(url)?, text(channel)?);
        let (mut block, mut image, mut generation) = (new_block(), vec![0u8; IMAGE_BYTES], 0);
        // SAFETY: the texts end in a 0; block and image are whole.
        unsafe {
            answered(ffi::luzhanem_durable_load(
                url.as_ptr(),
                channel.as_ptr(),
                block.as_mut_ptr().cast(),
                &mut generation,
            ))?;
            answered(ffi::luzhanem_save(block.as_ptr().cast(), image.as_mut_ptr()))?;
        }
        Ok((Store::load(&image)?, generation))
    }
}

impl Drop for Durable {
    /// Drops the connection. What was not synced is not saved.
    fn drop(&mut self) {
        // SAFETY: nobody else has a reference, so no thread is in a sync.
        unsafe { ffi::luzhanem_durable_close(self.handle.as_ptr()) }
    }
}

impl std::fmt::Debug for Durable {
    fn fmt(&self, f: &mut std::fmt::Formatter<'_>) -> std::fmt::Result {
        f.debug_struct("Durable").finish_non_exhaustive()
    }
}

/// The channels of a database, by name.
pub fn channels(url: &str) -> Result<Vec<Channel>, Error> {
    let url = text(url)?;
    let mut found: Vec<Channel> = Vec::new();
    let context: *mut Vec<Channel> = &mut found;
    // SAFETY: the text ends in a 0, and `visit` gets the list that is here until the call returns.
    answered(unsafe { ffi::luzhanem_durable_list(url.as_ptr(), visit, context.cast()) })?;
    Ok(found)
}

impl How {
    fn flags(self) -> c_int {
        let level = match self.level {
            Level::Full => 0,
            Level::Normal => 2,
            Level::Off => 4,
        };
        level | c_int::from(self.create)
    }
}

fn text(text: &str) -> Result<CString, Error> {
    CString::new(text).map_err(|_| Error::BadArgument("a text with a 0 in it".into()))
}

/// Zeros are a store.
fn new_block() -> Box<[u16]> {
    // SAFETY: the function takes nothing.
    let bytes = unsafe { ffi::luzhanem_size() };
    vec![0; bytes / 2].into_boxed_slice()
}

/// Brings what is committed to the mirror. The host's store is locked for its image alone.
///
/// SAFETY: C calls it in the one save that is under way, with the context that `open` gave.
unsafe extern "C" fn take(context: *mut c_void) {
    let stores = &*context.cast_const().cast::<Stores>();
    let image = stores.store.lock().unwrap_or_else(PoisonError::into_inner).save();
    let mirror: &mut [u16] = &mut **stores.mirror.get();
    match image {
        Ok(image) => assert_eq!(
            ffi::luzhanem_load(mirror.as_mut_ptr().cast(), image.as_ptr()),
            0,
            "an image that was just saved"
        ),
        Err(_) => mirror.fill(u16::MAX), // out of every range: the save answers RECORD_RANGE
    }
}

unsafe extern "C" fn give(_context: *mut c_void) {}

/// SAFETY: C calls it with the context of `channels`, and a name that ends in a 0.
unsafe extern "C" fn visit(context: *mut c_void, channel: *const c_char, generation: i64) {
    let found = &mut *context.cast::<Vec<Channel>>();
    found.push(Channel { name: CStr::from_ptr(channel).to_string_lossy().into_owned(), generation });
}
