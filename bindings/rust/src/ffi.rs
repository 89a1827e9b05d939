//! The structs and functions of luzhanem.h. Nothing checks that they agree with it but the tests, which call them all.

use std::os::raw::{c_char, c_int, c_void};

#[repr(C)]
#[derive(Clone)]
pub struct Block {
    pub record: [u16; 2115],
    pub files: [u8; 32768],
    pub logs: [u8; 32768],
    pub marks: [u8; 32768],
    pub undo: [u8; 4096],
    pub unused: [u8; 2],
}

/// The front of a block: what the program `replay` reads as a saved block.
pub const BLOCK_BYTES: usize = std::mem::offset_of!(Block, unused);

pub const LINE_BYTES: usize = 8238;

#[repr(C)]
#[derive(Clone)]
pub struct Image {
    pub numbers: [u8; 552],
    pub files: [u8; 32768],
    pub undo: [u8; 4096],
}

#[repr(C)]
#[derive(Clone, Copy, Default)]
pub struct Place {
    pub offset: u16,
    pub length: u16,
}

#[repr(C)]
#[derive(Clone, Copy, Default)]
pub struct ScriptCall {
    pub kind: usize,
    pub descriptor: usize,
    pub at: usize,
    pub count: usize,
}

#[repr(C)]
#[derive(Clone, Default)]
pub struct Scripts {
    pub calls: [[ScriptCall; 16]; 8],
    pub counts: [usize; 8],
    pub count: usize,
}

#[repr(C)]
#[derive(Default)]
pub struct Order {
    pub order: [u8; 8],
    pub gap: u16,
    pub tried: u16,
}

#[repr(C)]
pub struct Recorder {
    pub put: unsafe extern "C" fn(context: *mut c_void, line: *const c_char, n: usize),
    pub context: *mut c_void,
    pub line: [u8; LINE_BYTES],
}

extern "C" {
    pub fn luzhanem_strerror(answer: c_int) -> *const c_char;
    pub fn luzhanem_errname(answer: c_int) -> *const c_char;
    pub fn luzhanem_version() -> *const c_char;
    pub fn luzhanem_size() -> usize;
    pub fn luzhanem_layout() -> c_int;
    pub fn luzhanem_fresh(s: *mut Block, size: usize, file_of: *const u8) -> c_int;
    pub fn luzhanem_begin(s: *mut Block, t: usize) -> c_int;
    pub fn luzhanem_abort(s: *mut Block, t: usize) -> c_int;
    pub fn luzhanem_seek(s: *mut Block, t: usize, d: usize, offset: usize) -> c_int;
    pub fn luzhanem_write(s: *mut Block, t: usize, d: usize, bytes: *const u8, n: usize) -> c_int;
    pub fn luzhanem_get_file_pointer(s: *mut Block, t: usize, d: usize) -> c_int;
    pub fn luzhanem_read(s: *mut Block, t: usize, d: usize, out: *mut u8, n: usize) -> c_int;
    pub fn luzhanem_commit(s: *mut Block, t: usize, minute: usize) -> c_int;
    pub fn luzhanem_places(s: *const Block, t: usize, f: usize, out: *mut Place, room: usize) -> c_int;
    pub fn luzhanem_set_window(s: *mut Block, f: usize, start: usize, end: usize) -> c_int;
    pub fn luzhanem_undo(s: *mut Block) -> c_int;
    pub fn luzhanem_dispatch(
        s: *mut Block,
        scripts: *const Scripts,
        data: *const u8,
        data_bytes: usize,
        reader: *mut u8,
        reader_bytes: usize,
        minute: usize,
        ended: *mut c_int,
    ) -> c_int;
    pub fn luzhanem_dispatch_recorded(
        s: *mut Block,
        scripts: *const Scripts,
        data: *const u8,
        data_bytes: usize,
        reader: *mut u8,
        reader_bytes: usize,
        minute: usize,
        ended: *mut c_int,
        recorder: *mut Recorder,
    ) -> c_int;
    pub fn luzhanem_best_order(
        s: *const Block,
        transactions: *const u8,
        n: usize,
        minute: usize,
        budget: usize,
        out: *mut Order,
    ) -> c_int;
    pub fn luzhanem_offset(s: *const Block, d: usize) -> c_int;
    pub fn luzhanem_file_of(s: *const Block, d: usize) -> c_int;
    pub fn luzhanem_length(s: *const Block, f: usize) -> c_int;
    pub fn luzhanem_file(s: *const Block, f: usize) -> *const u8;
    pub fn luzhanem_state(s: *const Block, t: usize) -> c_int;
    pub fn luzhanem_check(s: *const Block) -> c_int;
    pub fn luzhanem_save(s: *const Block, out: *mut Image) -> c_int;
    pub fn luzhanem_load(s: *mut Block, image: *const Image) -> c_int;
    pub fn luzhanem_replay_line(s: *mut Block, line: *const c_char, n: usize) -> c_int;

    pub fn luzhanem_line_fresh(out: *mut u8, room: usize, file_of: *const u8) -> c_int;
    pub fn luzhanem_line_begin(out: *mut u8, room: usize, t: usize) -> c_int;
    pub fn luzhanem_line_abort(out: *mut u8, room: usize, t: usize) -> c_int;
    pub fn luzhanem_line_seek(out: *mut u8, room: usize, t: usize, d: usize, offset: usize) -> c_int;
    pub fn luzhanem_line_write(out: *mut u8, room: usize, t: usize, d: usize, bytes: *const u8, n: usize) -> c_int;
    pub fn luzhanem_line_get_file_pointer(out: *mut u8, room: usize, t: usize, d: usize) -> c_int;
    pub fn luzhanem_line_read(out: *mut u8, room: usize, t: usize, d: usize, n: usize) -> c_int;
    pub fn luzhanem_line_commit(out: *mut u8, room: usize, t: usize, minute: usize) -> c_int;
    pub fn luzhanem_line_places(out: *mut u8, room: usize, t: usize, f: usize, places_room: usize) -> c_int;
    pub fn luzhanem_line_set_window(out: *mut u8, room: usize, f: usize, start: usize, end: usize) -> c_int;
    pub fn luzhanem_line_undo(out: *mut u8, room: usize) -> c_int;
    pub fn luzhanem_line_best_order(
        out: *mut u8,
        room: usize,
        transactions: *const u8,
        n: usize,
        minute: usize,
        budget: usize,
    ) -> c_int;
    pub fn luzhanem_line_done(out: *mut u8, room: usize, answer: c_int) -> c_int;
    pub fn luzhanem_line_number(out: *mut u8, room: usize, answer: c_int) -> c_int;
    pub fn luzhanem_line_given(out: *mut u8, room: usize, answer: c_int, bytes: *const u8, n: usize) -> c_int;
    pub fn luzhanem_line_listed(
        out: *mut u8,
        room: usize,
        answer: c_int,
        places: *const Place,
        places_room: usize,
    ) -> c_int;
    pub fn luzhanem_line_ordered(out: *mut u8, room: usize, answer: c_int, order: *const Order, n: usize) -> c_int;
}
