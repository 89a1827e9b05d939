//! RocksDB: optimistic transactions on its environment in memory, write-ahead log off. What a task looks at is read by GetForUpdate, so
//! that its Commit is tested against it, as the store's is; eight transactions are open side by side.

use crate::peers::{Peer, KEYS, RECORD};
use std::ffi::{c_char, c_int, c_uchar, c_void};
use std::ptr::null_mut;

#[link(name = "rocksdb")]
extern "C" {
    fn rocksdb_options_create() -> *mut c_void;
    fn rocksdb_options_destroy(options: *mut c_void);
    fn rocksdb_options_set_create_if_missing(options: *mut c_void, on: c_uchar);
    fn rocksdb_options_set_env(options: *mut c_void, env: *mut c_void);
    fn rocksdb_create_mem_env() -> *mut c_void;
    fn rocksdb_env_destroy(env: *mut c_void);
    fn rocksdb_writeoptions_create() -> *mut c_void;
    fn rocksdb_writeoptions_disable_WAL(options: *mut c_void, on: c_int);
    fn rocksdb_readoptions_create() -> *mut c_void;
    fn rocksdb_optimistictransaction_options_create() -> *mut c_void;
    fn rocksdb_optimistictransactiondb_open(
        options: *const c_void,
        name: *const c_char,
        error: *mut *mut c_char,
    ) -> *mut c_void;
    fn rocksdb_optimistictransactiondb_close(db: *mut c_void);
    fn rocksdb_optimistictransaction_begin(
        db: *mut c_void,
        write_options: *const c_void,
        options: *const c_void,
        old: *mut c_void,
    ) -> *mut c_void;
    fn rocksdb_transaction_get_for_update(
        txn: *mut c_void,
        options: *const c_void,
        key: *const c_char,
        key_length: usize,
        length: *mut usize,
        exclusive: c_uchar,
        error: *mut *mut c_char,
    ) -> *mut c_char;
    fn rocksdb_transaction_put(
        txn: *mut c_void,
        key: *const c_char,
        key_length: usize,
        value: *const c_char,
        length: usize,
        error: *mut *mut c_char,
    );
    fn rocksdb_transaction_commit(txn: *mut c_void, error: *mut *mut c_char);
    fn rocksdb_transaction_rollback(txn: *mut c_void, error: *mut *mut c_char);
    fn rocksdb_transaction_destroy(txn: *mut c_void);
    fn rocksdb_free(place: *mut c_void);
}

pub struct RocksDb {
    db: *mut c_void,
    env: *mut c_void,
    options: *mut c_void,
    write_options: *mut c_void,
    read_options: *mut c_void,
    txn_options: *mut c_void,
    txns: [*mut c_void; 8],
}

/// By the name of the library that is loaded: its C functions do not tell.
pub fn version() -> String {
    let maps = std::fs::read_to_string("/proc/self/maps").unwrap_or_default();
    let version = maps.split_whitespace().find_map(|word| word.split_once("librocksdb.so."));
    version.map_or("of unknown version".to_string(), |(_, version)| version.to_string())
}

impl RocksDb {
    pub fn new() -> RocksDb {
        let mut error = null_mut();
        let mut out = unsafe {
            let env = rocksdb_create_mem_env();
            let options = rocksdb_options_create();
            rocksdb_options_set_create_if_missing(options, 1);
            rocksdb_options_set_env(options, env);
            let write_options = rocksdb_writeoptions_create();
            rocksdb_writeoptions_disable_WAL(write_options, 1);
            RocksDb {
                db: rocksdb_optimistictransactiondb_open(options, c"/day".as_ptr(), &mut error),
                env,
                options,
                write_options,
                read_options: rocksdb_readoptions_create(),
                txn_options: rocksdb_optimistictransaction_options_create(),
                txns: [null_mut(); 8],
            }
        };
        assert!(passed(error), "RocksDB opens");
        assert!(out.begin(0, false));
        assert!((0..KEYS).all(|key| out.put(0, key, &[0; RECORD])));
        assert!(out.commit(0));
        out
    }
}

/// An error means: turned away. Its text is given back.
fn passed(error: *mut c_char) -> bool {
    if error.is_null() {
        return true;
    }
    unsafe { rocksdb_free(error.cast()) };
    false
}

impl Peer for RocksDb {
    fn begin(&mut self, task: usize, _: bool) -> bool {
        let old = self.txns[task];
        self.txns[task] =
            unsafe { rocksdb_optimistictransaction_begin(self.db, self.write_options, self.txn_options, old) };
        true
    }

    fn get(&mut self, task: usize, key: u32, value: &mut [u8]) -> bool {
        let key = key.to_be_bytes();
        let (mut error, mut length) = (null_mut(), 0);
        unsafe {
            let found = rocksdb_transaction_get_for_update(
                self.txns[task],
                self.read_options,
                key.as_ptr().cast(),
                key.len(),
                &mut length,
                1,
                &mut error,
            );
            if found.is_null() {
                passed(error);
                return false;
            }
            value.copy_from_slice(std::slice::from_raw_parts(found.cast::<u8>(), length.min(RECORD)));
            rocksdb_free(found.cast());
        }
        passed(error)
    }

    fn put(&mut self, task: usize, key: u32, value: &[u8]) -> bool {
        let key = key.to_be_bytes();
        let mut error = null_mut();
        let (name, bytes) = (key.as_ptr().cast(), value.as_ptr().cast());
        unsafe { rocksdb_transaction_put(self.txns[task], name, key.len(), bytes, value.len(), &mut error) };
        passed(error)
    }

    fn commit(&mut self, task: usize) -> bool {
        let mut error = null_mut();
        unsafe { rocksdb_transaction_commit(self.txns[task], &mut error) };
        if passed(error) {
            return true;
        }
        self.abandon(task);
        false
    }

    fn abandon(&mut self, task: usize) {
        let mut error = null_mut();
        unsafe { rocksdb_transaction_rollback(self.txns[task], &mut error) };
        passed(error);
    }
}

impl Drop for RocksDb {
    fn drop(&mut self) {
        unsafe {
            for txn in self.txns.into_iter().filter(|txn| !txn.is_null()) {
                rocksdb_transaction_destroy(txn);
            }
            rocksdb_optimistictransactiondb_close(self.db);
            rocksdb_options_destroy(self.options);
            rocksdb_env_destroy(self.env);
        }
    }
}
