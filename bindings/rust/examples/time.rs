//! Nanoseconds a call, from Rattle in a loop and from Rust, on one block of memory; the least of many sweeps. Prints for
//! each row, parted by tabs: calls, transactions open, write records of each, Rattle, Rust. bindings/time runs it.

use luzhanem::{Refusal, Store};
use std::hint::black_box;
use std::time::Instant;

const CALLS: usize = 4000;
const SWEEPS: usize = 64;
const TRIES: usize = 5;

/// Crate loop_calls: record, files, logs, marks, undo; then what its calls get; then how often.
mod loops {
    pub type Part = *mut u8;
    extern "C" {
        pub fn loop_calls_seek(
            k: Part,
            f: Part,
            l: Part,
            m: Part,
            u: Part,
            t: usize,
            d: usize,
            v: usize,
            n: usize,
        ) -> u64;
        pub fn loop_calls_pointer(
            k: Part,
            f: Part,
            l: Part,
            m: Part,
            u: Part,
            t: usize,
            d: usize,
            v: usize,
            n: usize,
        ) -> u64;
        pub fn loop_calls_seek_read(
            k: Part,
            f: Part,
            l: Part,
            m: Part,
            u: Part,
            reader: *mut u8,
            t: usize,
            d: usize,
            v: usize,
            n: usize,
        ) -> u64;
        pub fn loop_calls_begin_commit(
            k: Part,
            f: Part,
            l: Part,
            m: Part,
            u: Part,
            t: usize,
            d: usize,
            v: usize,
            n: usize,
        ) -> u64;
        pub fn loop_calls_begin_write_commit(
            k: Part,
            f: Part,
            l: Part,
            m: Part,
            u: Part,
            bytes: *const u8,
            t: usize,
            d: usize,
            v: usize,
            n: usize,
        ) -> u64;
    }
}

/// A row: its calls from Rattle, and one turn of them from Rust.
#[derive(Clone, Copy, PartialEq)]
enum Row {
    Seek,
    Pointer,
    Read,
    Commit,
    Write,
}

const ROWS: [(Row, &str); 5] = [
    (Row::Seek, "Seek"),
    (Row::Pointer, "GetFilePointer"),
    (Row::Read, "Seek, Read of 16"),
    (Row::Commit, "Begin, Commit"),
    (Row::Write, "Begin, Seek, Write of 16, Commit"),
];

fn from_rattle(row: Row, s: &mut Store, buffer: &mut [u8; 4096]) {
    let k = s.block().as_ptr().cast_mut();
    // SAFETY: the parts of a block as luzhanem.h declares it; nobody else has the store meanwhile.
    unsafe {
        let files = s.block().len() - 3 * 32768 - 4096;
        let (f, l, m, u) = (k.add(files), k.add(files + 32768), k.add(files + 65536), k.add(files + 98304));
        let b = buffer.as_mut_ptr();
        black_box(match row {
            Row::Seek => loops::loop_calls_seek(k, f, l, m, u, 0, 0, 48, CALLS),
            Row::Pointer => loops::loop_calls_pointer(k, f, l, m, u, 0, 0, 0, CALLS),
            Row::Read => loops::loop_calls_seek_read(k, f, l, m, u, b, 0, 0, 16, CALLS),
            Row::Commit => loops::loop_calls_begin_commit(k, f, l, m, u, 7, 0, 0, CALLS),
            Row::Write => loops::loop_calls_begin_write_commit(k, f, l, m, u, b, 7, 0, 0, CALLS),
        });
    }
}

fn from_rust(row: Row, s: &mut Store, buffer: &mut [u8; 4096]) {
    match row {
        Row::Seek => repeat(|| s.seek(0, 0, 48)),
        Row::Pointer => repeat(|| s.get_file_pointer(0, 0).map(drop)),
        Row::Read => repeat(|| {
            s.seek(0, 0, 0)?;
            s.read(0, 0, &mut buffer[..16]).map(drop)
        }),
        Row::Commit => repeat(|| {
            s.begin(7)?;
            s.commit(7, 0).map(drop)
        }),
        Row::Write => repeat(|| {
            s.begin(7)?;
            s.seek(7, 0, 0)?;
            s.write(7, 0, &buffer[..16])?;
            s.commit(7, 0).map(drop)
        }),
    }
}

/// Makes the calls so often; none may be refused.
#[inline(always)]
fn repeat(mut calls: impl FnMut() -> Result<(), Refusal>) {
    for _ in 0..CALLS {
        calls().unwrap();
    }
}

/// A full file 0, and transactions open with so many write records each.
fn prepared(open: usize, records: usize) -> Store {
    let mut s = Store::new();
    s.begin(0).unwrap();
    s.write(0, 0, &[0; 4096]).unwrap();
    s.commit(0, 0).unwrap();
    for t in 0..open {
        s.begin(t).unwrap();
        for _ in 0..records {
            s.write(t, 9, &[0; 16]).unwrap();
        }
    }
    s
}

/// Runs so many frames of 64 bytes deeper: where the stack lies beside the block makes a difference (4 KB aliasing), and
/// the sweeps try all of it.
#[inline(never)]
fn deeper(frames: usize, calls: &mut dyn FnMut()) {
    let frame = black_box([0u8; 64]);
    if frames == 0 {
        calls();
    } else {
        deeper(frames - 1, calls);
    }
    black_box(&frame);
}

fn sweep(least: &mut f64, depth: usize, mut calls: impl FnMut()) {
    deeper(depth, &mut || {
        let start = Instant::now();
        calls();
        *least = least.min(start.elapsed().as_nanos() as f64 / CALLS as f64);
    });
}

fn main() {
    let mut buffer = [0; 4096];
    for (open, records) in [(1, 0), (8, 0), (8, 8)] {
        for (row, name) in ROWS {
            let itself = row == Row::Commit || row == Row::Write; // it opens the last one itself
            let mut s = prepared(open - usize::from(itself), records);

            let (mut rattle, mut rust) = (f64::MAX, f64::MAX);
            for attempt in 0..TRIES {
                if attempt > 0 && rust <= 1.1 * rattle {
                    break;
                }
                for i in 0..SWEEPS {
                    sweep(&mut rattle, i, || from_rattle(row, &mut s, &mut buffer));
                    sweep(&mut rust, i, || from_rust(row, &mut s, &mut buffer));
                }
            }
            println!("{name}\t{open}\t{records}\t{rattle:.1}\t{rust:.1}");
        }
    }
}
