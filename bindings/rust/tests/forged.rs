//! Forged records beside the twin: numbers of good records are changed, to the ends of their ranges, beyond them, or to any
//! number. Both find the same records in range, and on those a call answers and leaves the same. LUZHANEM_FORGED says how many
//! records, 300,000 otherwise; LUZHANEM_SEED another list of them.

use luzhanem as _;
use std::os::raw::{c_int, c_void};
use twin::block::{self, NUMBERS};
use twin::call::{Action, Answer, Call, Step};
use twin::logs;
use twin::state::State;
use twin::store::{Buffers, DESCRIPTORS, TRANSACTIONS};

extern "C" {
    fn luzhanem_check(s: *const c_void) -> c_int;
    fn luzhanem_begin(s: *mut c_void, t: usize) -> c_int;
    fn luzhanem_abort(s: *mut c_void, t: usize) -> c_int;
    fn luzhanem_seek(s: *mut c_void, t: usize, d: usize, offset: usize) -> c_int;
    fn luzhanem_get_file_pointer(s: *mut c_void, t: usize, d: usize) -> c_int;
}

/// Where ranges end, in the numbers as the record has them.
const EDGES: [u16; 24] =
    [0, 1, 2, 3, 7, 8, 15, 16, 31, 32, 63, 64, 65, 1439, 1440, 4095, 4096, 4097, 4098, 4099, 65533, 65534, 65535, 0];
/// Both numbers of a standing, mostly in range.
const FIRSTS: [u16; 8] = [0, 1, 2, 0, 301, 4096, 4097, 4098];
const SECONDS: [u16; 8] = [0, 1, 2, 1, 3, 42, 4098, 4099];
const FLAGS: [u16; 8] = [0, 1, 1, 1, 1, 1, 2, 65535];

/// Numbers drawn at random, the same in every run (xorshift).
struct Drawn(u64);

impl Drawn {
    fn below(&mut self, n: usize) -> usize {
        self.0 ^= self.0 << 13;
        self.0 ^= self.0 >> 7;
        self.0 ^= self.0 << 17;
        ((self.0 >> 8) % n as u64) as usize
    }
}

/// A record in front of buffers that are all 0, as luzhanem.h has them.
struct Memory(Vec<u64>);

impl Memory {
    fn new() -> Memory {
        Memory(vec![0; (block::LENGTH + 2).div_ceil(8)])
    }

    fn record(&mut self) -> &mut [u16] {
        // SAFETY: the numbers are within the vector, which is aligned for them, and any bytes are numbers.
        unsafe { std::slice::from_raw_parts_mut(self.0.as_mut_ptr().cast(), NUMBERS) }
    }

    fn is_in_range(&self) -> bool {
        // SAFETY: the memory has the size of a store.
        match unsafe { luzhanem_check(self.0.as_ptr().cast()) } {
            0 => true,
            answer => {
                assert_eq!(answer, -2);
                false
            }
        }
    }

    fn make(&mut self, call: &Call) -> c_int {
        let s = self.0.as_mut_ptr().cast();
        // SAFETY: the memory has the size of a store.
        unsafe {
            match *call {
                Call::Begin(t) => luzhanem_begin(s, t),
                Call::Abort(t) => luzhanem_abort(s, t),
                Call::Step(t, Step { descriptor, action: Action::Seek { to } }) => luzhanem_seek(s, t, descriptor, to),
                Call::Step(t, Step { descriptor, .. }) => luzhanem_get_file_pointer(s, t, descriptor),
                _ => unreachable!("no other call is drawn"),
            }
        }
    }
}

fn forge(record: &mut [u16], drawn: &mut Drawn) {
    for _ in 0..1 + drawn.below(4) {
        let (t, d) = (drawn.below(TRANSACTIONS), drawn.below(DESCRIPTORS));
        match drawn.below(8) {
            0..=4 => {
                record[block::FIRSTS + TRANSACTIONS * d + t] = FIRSTS[drawn.below(8)];
                record[block::SECONDS + TRANSACTIONS * d + t] = SECONDS[drawn.below(8)];
            }
            5 => {
                record[block::BEGUN + t] = FLAGS[drawn.below(8)];
                record[block::STALE + t] = FLAGS[drawn.below(8)];
                record[block::HELD] = FLAGS[drawn.below(8)];
            }
            6 => record[drawn.below(NUMBERS)] = EDGES[drawn.below(24)],
            _ => record[drawn.below(NUMBERS)] = drawn.below(65536) as u16,
        }
    }
}

/// A call that reads and changes the record alone: the buffers, all 0, stay so.
fn any_call(drawn: &mut Drawn) -> Call {
    let (t, descriptor) = (drawn.below(TRANSACTIONS), drawn.below(DESCRIPTORS));
    match drawn.below(8) {
        0 => Call::Begin(t),
        1 => Call::Abort(t),
        2 | 3 => Call::Step(t, Step { descriptor, action: Action::Seek { to: drawn.below(4100) } }),
        _ => Call::Step(t, Step { descriptor, action: Action::GetFilePointer }),
    }
}

#[test]
fn forged_records() {
    let count = std::env::var("LUZHANEM_FORGED").map_or(300_000, |count| count.parse().expect("a number of records"));
    let seed: u64 = std::env::var("LUZHANEM_SEED").map_or(0, |seed| seed.parse().expect("a number"));
    let mut drawn = Drawn(88172645463325252 ^ seed << 20);
    let good: Vec<Vec<u16>> = (0..64)
        .map(|seed| {
            let state = logs::write(&mut std::io::sink(), seed, 300).expect("nothing is written");
            let bytes = block::encode(&state);
            bytes[..2 * NUMBERS].chunks(2).map(|pair| u16::from_le_bytes([pair[0], pair[1]])).collect()
        })
        .collect();
    let mut memory = Memory::new();
    let mut twin = State { store: block::store(&good[0]), buffers: Buffers::zeros() };
    let [mut in_range, mut left_over, mut accepted] = [0u64; 3];
    for i in 0..count {
        let record = memory.record();
        record.copy_from_slice(&good[drawn.below(good.len())]);
        forge(record, &mut drawn);
        twin.store = block::store(record);
        let met = (0..TRANSACTIONS * DESCRIPTORS).any(|at| {
            record[block::FIRSTS + at] == 0
                && record[block::SECONDS + at] == 1
                && record[block::BEGUN + at % TRANSACTIONS] == 1
        });
        assert_eq!(memory.is_in_range(), twin.store.in_range(), "record {i}");
        if !twin.store.in_range() {
            continue;
        }
        in_range += 1;
        left_over += u64::from(met);
        let call = any_call(&mut drawn);
        let answer = match twin.apply(&call).outcome {
            Err(refusal) => -(refusal.number() as c_int),
            Ok(Answer::Offset(offset)) => offset.into(),
            Ok(_) => 0,
        };
        assert_eq!(memory.make(&call), answer, "record {i}: {call:?}");
        assert_eq!(block::store(memory.record()), twin.store, "record {i}: {call:?}");
        accepted += u64::from(answer >= 0);
    }
    println!("{count} forged records: {in_range} in range, {left_over} of them with 0 and 1 for a standing, {accepted} calls accepted");
    assert!(in_range > count / 8 && in_range < count - count / 8);
    assert!(left_over > count / 100 && accepted > count / 16);
}
