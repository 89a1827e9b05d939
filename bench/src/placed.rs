//! Bytes at a chosen place of a page. What a copy costs depends on how far apart its two ends lie modulo 4,096: where the target starts a
//! few bytes behind the source, glibc's memcpy takes more than twice its time. Two buffers from one allocator lie just so. Every buffer
//! here has a place of its own.

use std::ops::{Deref, DerefMut};

const PAGE: usize = 4096;

pub struct Placed {
    room: Vec<u8>,
    start: usize,
    length: usize,
}

impl Placed {
    /// So many zeros, from the place `at` of a page on.
    pub fn zeros(length: usize, at: usize) -> Placed {
        let room = vec![0; length + 2 * PAGE];
        let start = room.as_ptr().align_offset(PAGE) + at % PAGE;
        Placed { room, start, length }
    }

    pub fn bytes(bytes: &[u8], at: usize) -> Placed {
        let mut placed = Placed::zeros(bytes.len(), at);
        placed.copy_from_slice(bytes);
        placed
    }
}

impl Deref for Placed {
    type Target = [u8];

    fn deref(&self) -> &[u8] {
        &self.room[self.start..self.start + self.length]
    }
}

impl DerefMut for Placed {
    fn deref_mut(&mut self) -> &mut [u8] {
        &mut self.room[self.start..self.start + self.length]
    }
}
