//! The functions of luzhanem_durable.h, and of luzhanem.h those that move an image. Nothing checks that they agree with the
//! headers but the tests, which call them all.

use std::os::raw::{c_char, c_int, c_void};

/// A luzhanem_store that only C looks into: as many bytes as luzhanem_size answers, at an even address.
pub enum Block {}

#[repr(C)]
pub struct Lock {
    pub take: unsafe extern "C" fn(context: *mut c_void),
    pub give: unsafe extern "C" fn(context: *mut c_void),
    pub context: *mut c_void,
}

/// A luzhanem_durable that only C looks into.
pub enum Handle {}

pub type Visit = unsafe extern "C" fn(context: *mut c_void, channel: *const c_char, generation: i64);

extern "C" {
    pub fn luzhanem_size() -> usize;
    pub fn luzhanem_save(s: *const Block, image: *mut u8) -> c_int;
    pub fn luzhanem_load(s: *mut Block, image: *const u8) -> c_int;

    pub fn luzhanem_durable_open(
        d: *mut *mut Handle,
        url: *const c_char,
        channel: *const c_char,
        how: c_int,
        s: *mut Block,
        lock: *const Lock,
    ) -> c_int;
    pub fn luzhanem_durable_sync(d: *mut Handle) -> c_int;
    pub fn luzhanem_durable_close(d: *mut Handle);
    pub fn luzhanem_durable_load(
        url: *const c_char,
        channel: *const c_char,
        s: *mut Block,
        generation: *mut i64,
    ) -> c_int;
    pub fn luzhanem_durable_list(url: *const c_char, visit: Visit, context: *mut c_void) -> c_int;
    pub fn luzhanem_durable_error() -> *const c_char;
}
