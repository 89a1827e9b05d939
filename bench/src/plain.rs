//! What a user takes instead: the bytes in a plain array behind a mutex, without logs, without Abort and without isolation but the
//! mutex's. A transaction's calls come back to back, under one lock from Begin to Commit.

use crate::peers::{Peer, KEYS, RECORD};
use std::sync::{Mutex, MutexGuard};

type Bytes = [u8; KEYS as usize * RECORD];

static BYTES: Mutex<Bytes> = Mutex::new([0; KEYS as usize * RECORD]);

#[derive(Default)]
pub struct Plain {
    held: Option<MutexGuard<'static, Bytes>>,
}

impl Plain {
    fn record(&mut self, key: u32) -> &mut [u8] {
        let bytes = self.held.as_mut().expect("a Begin came before");
        &mut bytes[key as usize * RECORD..][..RECORD]
    }
}

impl Peer for Plain {
    fn begin(&mut self, _: usize, _: bool) -> bool {
        self.held = BYTES.lock().ok();
        self.held.is_some()
    }

    fn get(&mut self, _: usize, key: u32, value: &mut [u8]) -> bool {
        value.copy_from_slice(self.record(key));
        true
    }

    fn put(&mut self, _: usize, key: u32, value: &[u8]) -> bool {
        self.record(key).copy_from_slice(value);
        true
    }

    fn commit(&mut self, _: usize) -> bool {
        self.held = None;
        true
    }

    fn abandon(&mut self, _: usize) {
        self.held = None;
    }
}
