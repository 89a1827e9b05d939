//! What is called over the C border: the functions of the crates `bench_calls` and `bench_dispatch`, and the store by hand in C. Each
//! takes the record as a pointer to its numbers and a slice as a pointer and a length, and has no precondition beyond that.

use crate::script::BYTES;
use crate::stores::Buffers;
use twin::block::NUMBERS;
use twin::call::ORDERS;
use twin::store::{DESCRIPTORS, FILES, SPAN};


/// Room for the record of the proved store or of the one in C.
const ROOM: usize = 4096;

/// How many offsets and lengths are committed.
pub const COMMITTED: usize = DESCRIPTORS + FILES;

/// A record in numbers.
#[repr(align(64))]
pub struct Numbers([u16; ROOM]);

impl Numbers {
    pub fn all(number: u16) -> Box<Numbers> {
        assert!(NUMBERS <= ROOM && unsafe { c_store_numbers() } <= ROOM, "the record has room");
        Box::new(Numbers([number; ROOM]))
    }
}

/// Runs a script over a record and lent buffers.
pub type Run = unsafe extern "C" fn(
    kept: *mut u16,
    files: *mut u8,
    files_len: usize,
    logs: *mut u8,
    logs_len: usize,
    marks: *mut u8,
    marks_len: usize,
    undo: *mut u8,
    undo_len: usize,
    script: *const u8,
    script_len: usize,
    data: *const u8,
    data_len: usize,
    reader: *mut u8,
    reader_len: usize,
    said: *mut u8,
    said_len: usize,
    rounds: usize,
) -> u64;

macro_rules! runs {
    ($($name:ident),*) => {
        extern "C" {
            $(pub fn $name(
                kept: *mut u16,
                files: *mut u8,
                files_len: usize,
                logs: *mut u8,
                logs_len: usize,
                marks: *mut u8,
                marks_len: usize,
                undo: *mut u8,
                undo_len: usize,
                script: *const u8,
                script_len: usize,
                data: *const u8,
                data_len: usize,
                reader: *mut u8,
                reader_len: usize,
                said: *mut u8,
                said_len: usize,
                rounds: usize,
            ) -> u64;)*
        }
    };
}

runs!(bench_calls_run, c_store_run);

extern "C" {
    fn bench_dispatch_order(
        kept: *const u16,
        files: *const u8,
        files_len: usize,
        logs: *const u8,
        logs_len: usize,
        marks: *const u8,
        marks_len: usize,
        undo: *const u8,
        undo_len: usize,
        list: *const u8,
        list_len: usize,
        budget: usize,
        rounds: usize,
    ) -> u64;

    fn bench_dispatch_run(
        kept: *mut u16,
        files: *mut u8,
        files_len: usize,
        logs: *mut u8,
        logs_len: usize,
        marks: *mut u8,
        marks_len: usize,
        undo: *mut u8,
        undo_len: usize,
        data: *const u8,
        data_len: usize,
        reader: *mut u8,
        reader_len: usize,
        rounds: usize,
    ) -> u64;

    fn bench_calls_lines(
        script: *const u8,
        script_len: usize,
        data: *const u8,
        data_len: usize,
        out: *mut u8,
        out_len: usize,
        room: usize,
        rounds: usize,
    ) -> u64;

    fn bench_calls_committed(kept: *const u16, out: *mut u16, out_len: usize);

    fn c_store_numbers() -> usize;

    fn c_store_committed(kept: *const u16, out: *mut u16);

    fn clock() -> i64;
}

/// The processor time that the process has used, in microseconds.
pub fn processor_time() -> i64 {
    unsafe { clock() }
}

pub fn run(run: Run, kept: &mut Numbers, lent: &mut Buffers, octets: &[u8], rounds: usize) -> u64 {
    unsafe {
        run(
            kept.0.as_mut_ptr(),
            lent.files.as_mut_ptr(),
            lent.files.len(),
            lent.logs.as_mut_ptr(),
            lent.logs.len(),
            lent.marks.as_mut_ptr(),
            lent.marks.len(),
            lent.undo.as_mut_ptr(),
            lent.undo.len(),
            octets.as_ptr(),
            octets.len(),
            lent.data.as_ptr(),
            lent.data.len(),
            lent.reader.as_mut_ptr(),
            lent.reader.len(),
            lent.said.as_mut_ptr(),
            lent.said.len(),
            rounds,
        )
    }
}

/// The best of all orders of the eight transactions, so many times. Answers the sum of the grants.
pub fn order(kept: &Numbers, lent: &Buffers, rounds: usize) -> u64 {
    let list: [u8; 8] = [0, 1, 2, 3, 4, 5, 6, 7];
    unsafe {
        bench_dispatch_order(
            kept.0.as_ptr(),
            lent.files.as_ptr(),
            lent.files.len(),
            lent.logs.as_ptr(),
            lent.logs.len(),
            lent.marks.as_ptr(),
            lent.marks.len(),
            lent.undo.as_ptr(),
            lent.undo.len(),
            list.as_ptr(),
            list.len(),
            ORDERS,
            rounds,
        )
    }
}

/// Eight scripts of four calls dispatched, so many times. Answers the sum of the Commits.
pub fn dispatch(kept: &mut Numbers, lent: &mut Buffers, rounds: usize) -> u64 {
    let data = &lent.data[BYTES..];
    unsafe {
        bench_dispatch_run(
            kept.0.as_mut_ptr(),
            lent.files.as_mut_ptr(),
            lent.files.len(),
            lent.logs.as_mut_ptr(),
            lent.logs.len(),
            lent.marks.as_mut_ptr(),
            lent.marks.len(),
            lent.undo.as_mut_ptr(),
            lent.undo.len(),
            data.as_ptr(),
            data.len(),
            lent.reader.as_mut_ptr(),
            lent.reader.len(),
            rounds,
        )
    }
}

/// The lines that a call log has for the steps, so many times. Answers how many bytes they have.
pub fn lines(octets: &[u8], data: &[u8], rounds: usize) -> u64 {
    let mut out = vec![0; 3 * SPAN];
    unsafe {
        bench_calls_lines(
            octets.as_ptr(),
            octets.len(),
            data.as_ptr(),
            data.len(),
            out.as_mut_ptr(),
            out.len(),
            SPAN,
            rounds,
        )
    }
}

pub fn committed_proved(kept: &Numbers) -> [u16; COMMITTED] {
    let mut out = [0; COMMITTED];
    unsafe { bench_calls_committed(kept.0.as_ptr(), out.as_mut_ptr(), out.len()) };
    out
}

pub fn committed_c(kept: &Numbers) -> [u16; COMMITTED] {
    let mut out = [0; COMMITTED];
    unsafe { c_store_committed(kept.0.as_ptr(), out.as_mut_ptr()) };
    out
}
