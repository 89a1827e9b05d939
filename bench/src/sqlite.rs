//! SQLite in memory: prepared statements, one table for each file and one for the log's offset.
//!
//! Serial: one connection to a private database. Interleaved: eight connections to one database with a shared cache, the one way in
//! which several connections reach a database in memory; it locks whole tables.

use crate::peers::{Order, Peer, KEYS, OFFSET, RECORD};
use std::ffi::{c_char, c_int, c_void, CString};
use std::ptr::{null, null_mut};

#[link(name = "sqlite3")]
extern "C" {
    fn sqlite3_open_v2(name: *const c_char, db: *mut *mut c_void, flags: c_int, vfs: *const c_char) -> c_int;
    fn sqlite3_close(db: *mut c_void) -> c_int;
    fn sqlite3_exec(
        db: *mut c_void,
        text: *const c_char,
        callback: *const c_void,
        argument: *mut c_void,
        error: *mut *mut c_char,
    ) -> c_int;
    fn sqlite3_prepare_v2(
        db: *mut c_void,
        text: *const c_char,
        length: c_int,
        statement: *mut *mut c_void,
        rest: *mut *const c_char,
    ) -> c_int;
    fn sqlite3_bind_int(statement: *mut c_void, i: c_int, value: c_int) -> c_int;
    fn sqlite3_bind_blob(
        statement: *mut c_void,
        i: c_int,
        value: *const c_void,
        length: c_int,
        destructor: *const c_void,
    ) -> c_int;
    fn sqlite3_step(statement: *mut c_void) -> c_int;
    fn sqlite3_reset(statement: *mut c_void) -> c_int;
    fn sqlite3_finalize(statement: *mut c_void) -> c_int;
    fn sqlite3_column_blob(statement: *mut c_void, i: c_int) -> *const c_void;
    fn sqlite3_column_bytes(statement: *mut c_void, i: c_int) -> c_int;
    fn sqlite3_libversion() -> *const c_char;
}

const OK: c_int = 0;
const ROW: c_int = 100;
const DONE: c_int = 101;
const READ_WRITE: c_int = 0x2;
const CREATE: c_int = 0x4;
const URI: c_int = 0x40;
const NO_MUTEX: c_int = 0x8000;
const SHARED_CACHE: c_int = 0x20000;
const TABLES: usize = 4;

struct Connection {
    db: *mut c_void,
    begin: *mut c_void,
    commit: *mut c_void,
    rollback: *mut c_void,
    select: [*mut c_void; TABLES],
    update: [*mut c_void; TABLES],
}

pub struct Sqlite {
    connections: Vec<Connection>,
}

pub fn version() -> String {
    unsafe { std::ffi::CStr::from_ptr(sqlite3_libversion()) }.to_string_lossy().into_owned()
}

impl Connection {
    fn open(name: &str, flags: c_int) -> Connection {
        let mut db = null_mut();
        let text = CString::new(name).unwrap();
        let status = unsafe { sqlite3_open_v2(text.as_ptr(), &mut db, READ_WRITE | CREATE | NO_MUTEX | flags, null()) };
        assert_eq!(status, OK, "SQLite opens {name}");
        let nothing = null_mut();
        Connection {
            db,
            begin: nothing,
            commit: nothing,
            rollback: nothing,
            select: [nothing; TABLES],
            update: [nothing; TABLES],
        }
    }

    fn execute(&self, text: &str) {
        let text_c = CString::new(text).unwrap();
        let status = unsafe { sqlite3_exec(self.db, text_c.as_ptr(), null(), null_mut(), null_mut()) };
        assert_eq!(status, OK, "SQLite runs {text}");
    }

    fn prepared(&self, text: &str) -> *mut c_void {
        let mut statement = null_mut();
        let text_c = CString::new(text).unwrap();
        let status = unsafe { sqlite3_prepare_v2(self.db, text_c.as_ptr(), -1, &mut statement, null_mut()) };
        assert_eq!(status, OK, "SQLite prepares {text}");
        statement
    }

    fn prepare(&mut self) {
        self.begin = self.prepared("BEGIN");
        self.commit = self.prepared("COMMIT");
        self.rollback = self.prepared("ROLLBACK");
        for table in 0..TABLES {
            self.select[table] = self.prepared(&format!("SELECT v FROM f{table} WHERE k = ?1"));
            self.update[table] = self.prepared(&format!("UPDATE f{table} SET v = ?2 WHERE k = ?1"));
        }
    }

    fn ends(&self, statement: *mut c_void) -> bool {
        unsafe {
            let status = sqlite3_step(statement);
            sqlite3_reset(statement);
            status == DONE
        }
    }
}

impl Sqlite {
    pub fn new(order: Order) -> Sqlite {
        let connections = match order {
            Order::Serial => vec![Connection::open(":memory:", 0)],
            Order::Interleaved => {
                (0..8).map(|_| Connection::open("file:day?mode=memory&cache=shared", URI | SHARED_CACHE)).collect()
            }
        };
        let first = &connections[0];
        for table in 0..TABLES {
            first.execute(&format!("CREATE TABLE f{table} (k INTEGER PRIMARY KEY, v BLOB)"));
        }
        first.execute("BEGIN");
        for key in 0..KEYS {
            first.execute(&format!("INSERT INTO f{} VALUES ({key}, zeroblob({RECORD}))", table(key)));
        }
        first.execute("COMMIT");
        let mut sqlite = Sqlite { connections };
        sqlite.connections.iter_mut().for_each(Connection::prepare);
        sqlite
    }

    fn of(&self, task: usize) -> &Connection {
        &self.connections[task % self.connections.len()]
    }
}

fn table(key: u32) -> usize {
    (key.min(OFFSET) / 256) as usize
}

impl Peer for Sqlite {
    fn begin(&mut self, task: usize, _: bool) -> bool {
        let connection = self.of(task);
        connection.ends(connection.begin)
    }

    fn get(&mut self, task: usize, key: u32, value: &mut [u8]) -> bool {
        let statement = self.of(task).select[table(key)];
        unsafe {
            sqlite3_bind_int(statement, 1, key as c_int);
            let found = sqlite3_step(statement) == ROW && sqlite3_column_bytes(statement, 0) == RECORD as c_int;
            if found {
                let blob = sqlite3_column_blob(statement, 0).cast::<u8>();
                value.copy_from_slice(std::slice::from_raw_parts(blob, RECORD));
            }
            sqlite3_reset(statement);
            found
        }
    }

    fn put(&mut self, task: usize, key: u32, value: &[u8]) -> bool {
        let connection = self.of(task);
        let statement = connection.update[table(key)];
        unsafe {
            sqlite3_bind_int(statement, 1, key as c_int);
            sqlite3_bind_blob(statement, 2, value.as_ptr().cast(), value.len() as c_int, null());
        }
        connection.ends(statement)
    }

    fn commit(&mut self, task: usize) -> bool {
        let connection = self.of(task);
        let committed = connection.ends(connection.commit);
        if !committed {
            connection.ends(connection.rollback);
        }
        committed
    }

    fn abandon(&mut self, task: usize) {
        let connection = self.of(task);
        connection.ends(connection.rollback);
    }
}

impl Drop for Sqlite {
    fn drop(&mut self) {
        for connection in &self.connections {
            let fixed = [connection.begin, connection.commit, connection.rollback];
            for statement in fixed.into_iter().chain(connection.select).chain(connection.update) {
                unsafe { sqlite3_finalize(statement) };
            }
            unsafe { sqlite3_close(connection.db) };
        }
    }
}
