//! LMDB on a file in memory (tmpfs), with MDB_NOSYNC and MDB_WRITEMAP: nothing is written to a disk and no page is copied twice. The
//! tasks that only look use read-only transactions, reset and renewed as its manual advises; MDB_NOTLS lets one thread hold several.
//!
//! There is one writer. Its `mdb_txn_begin` would wait for ever here, where the other writer is in the same thread: interleaved, a
//! Begin that finds a writer open is turned away.

use crate::peers::{Folder, Peer, KEYS, RECORD};
use std::ffi::{c_char, c_int, c_uint, c_void, CString};
use std::os::unix::ffi::OsStrExt;
use std::ptr::null_mut;

#[repr(C)]
struct Value {
    size: usize,
    data: *mut c_void,
}

#[link(name = "lmdb")]
extern "C" {
    fn mdb_env_create(env: *mut *mut c_void) -> c_int;
    fn mdb_env_set_mapsize(env: *mut c_void, size: usize) -> c_int;
    fn mdb_env_open(env: *mut c_void, path: *const c_char, flags: c_uint, mode: c_uint) -> c_int;
    fn mdb_env_close(env: *mut c_void);
    fn mdb_txn_begin(env: *mut c_void, parent: *mut c_void, flags: c_uint, txn: *mut *mut c_void) -> c_int;
    fn mdb_txn_commit(txn: *mut c_void) -> c_int;
    fn mdb_txn_abort(txn: *mut c_void);
    fn mdb_txn_reset(txn: *mut c_void);
    fn mdb_txn_renew(txn: *mut c_void) -> c_int;
    fn mdb_dbi_open(txn: *mut c_void, name: *const c_char, flags: c_uint, dbi: *mut c_uint) -> c_int;
    fn mdb_get(txn: *mut c_void, dbi: c_uint, key: *mut Value, data: *mut Value) -> c_int;
    fn mdb_put(txn: *mut c_void, dbi: c_uint, key: *mut Value, data: *mut Value, flags: c_uint) -> c_int;
    fn mdb_version(major: *mut c_int, minor: *mut c_int, patch: *mut c_int) -> *const c_char;
}

const NO_SYNC: c_uint = 0x10000;
const READ_ONLY: c_uint = 0x20000;
const WRITE_MAP: c_uint = 0x80000;
const NO_TLS: c_uint = 0x200000;
const INTEGER_KEY: c_uint = 0x08;
const CREATE: c_uint = 0x40000;

pub struct Lmdb {
    env: *mut c_void,
    dbi: c_uint,
    readers: [*mut c_void; 8],
    writer: Option<usize>,
    txns: [*mut c_void; 8],
    _folder: Folder,
}

pub fn version() -> String {
    let (mut major, mut minor, mut patch) = (0, 0, 0);
    unsafe { mdb_version(&mut major, &mut minor, &mut patch) };
    format!("{major}.{minor}.{patch}")
}

fn done(status: c_int, what: &str) {
    assert_eq!(status, 0, "LMDB: {what}");
}

impl Lmdb {
    pub fn new() -> Lmdb {
        let folder = Folder::new("lmdb");
        let path = CString::new(folder.0.as_os_str().as_bytes()).unwrap();
        let none = null_mut();
        let mut lmdb = Lmdb { env: none, dbi: 0, readers: [none; 8], writer: None, txns: [none; 8], _folder: folder };
        unsafe {
            done(mdb_env_create(&mut lmdb.env), "create");
            done(mdb_env_set_mapsize(lmdb.env, 64 << 20), "map size");
            done(mdb_env_open(lmdb.env, path.as_ptr(), NO_SYNC | WRITE_MAP | NO_TLS, 0o600), "open");
            let mut txn = none;
            done(mdb_txn_begin(lmdb.env, none, 0, &mut txn), "begin");
            done(mdb_dbi_open(txn, std::ptr::null(), INTEGER_KEY | CREATE, &mut lmdb.dbi), "database");
            done(mdb_txn_commit(txn), "commit");
            for reader in &mut lmdb.readers {
                done(mdb_txn_begin(lmdb.env, none, READ_ONLY, reader), "begin a reader");
                mdb_txn_reset(*reader);
            }
        }
        assert!(lmdb.begin(0, false));
        assert!((0..KEYS).all(|key| lmdb.put(0, key, &[0; RECORD])));
        assert!(lmdb.commit(0));
        lmdb
    }
}

impl Peer for Lmdb {
    fn begin(&mut self, task: usize, looks_only: bool) -> bool {
        if looks_only {
            self.txns[task] = self.readers[task];
            return unsafe { mdb_txn_renew(self.readers[task]) } == 0;
        }
        if self.writer.is_some() {
            return false;
        }
        self.writer = Some(task);
        unsafe { mdb_txn_begin(self.env, null_mut(), 0, &mut self.txns[task]) == 0 }
    }

    fn get(&mut self, task: usize, key: u32, value: &mut [u8]) -> bool {
        let mut key = key;
        let mut name = Value { size: 4, data: (&mut key as *mut u32).cast() };
        let mut found = Value { size: 0, data: null_mut() };
        unsafe {
            if mdb_get(self.txns[task], self.dbi, &mut name, &mut found) != 0 || found.size != RECORD {
                return false;
            }
            value.copy_from_slice(std::slice::from_raw_parts(found.data.cast::<u8>(), RECORD));
        }
        true
    }

    fn put(&mut self, task: usize, key: u32, value: &[u8]) -> bool {
        let mut key = key;
        let mut name = Value { size: 4, data: (&mut key as *mut u32).cast() };
        let mut put = Value { size: value.len(), data: value.as_ptr().cast_mut().cast() };
        unsafe { mdb_put(self.txns[task], self.dbi, &mut name, &mut put, 0) == 0 }
    }

    fn commit(&mut self, task: usize) -> bool {
        if self.writer == Some(task) {
            self.writer = None;
            return unsafe { mdb_txn_commit(self.txns[task]) } == 0;
        }
        unsafe { mdb_txn_reset(self.txns[task]) };
        true
    }

    fn abandon(&mut self, task: usize) {
        if self.writer == Some(task) {
            self.writer = None;
            unsafe { mdb_txn_abort(self.txns[task]) };
        } else {
            unsafe { mdb_txn_reset(self.txns[task]) };
        }
    }
}

impl Drop for Lmdb {
    fn drop(&mut self) {
        unsafe {
            self.readers.iter().for_each(|&reader| mdb_txn_abort(reader));
            mdb_env_close(self.env);
        }
    }
}
