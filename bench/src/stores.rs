//! The three stores under one script: the proved one, through the archives of the crates `bench_calls` and `bench_dispatch`; the twin;
//! and the one by hand in C.

use crate::ffi::{self, Numbers, COMMITTED};
use crate::placed::Placed;
use crate::script::{self, Script, Step};
use std::time::Instant;
use twin::call::{Refusal, ScriptAction, ScriptStep, ORDERS};
use twin::store::{Lent, Store, BUFFER, DESCRIPTORS, SPAN};

#[derive(Clone, Copy, PartialEq, Debug)]
pub enum Which {
    Proved,
    Twin,
    C,
}

pub const ALL: [Which; 3] = [Which::Proved, Which::Twin, Which::C];

impl Which {
    pub fn name(self) -> &'static str {
        match self {
            Which::Proved => "proved store",
            Which::Twin => "twin",
            Which::C => "store by hand in C",
        }
    }

    pub fn named(word: &str) -> Which {
        match word {
            "proved" => Which::Proved,
            "twin" => Which::Twin,
            "c" => Which::C,
            _ => panic!("proved, twin or c"),
        }
    }
}

/// What a store is lent beside its record.
pub struct Buffers {
    pub files: Placed,
    pub logs: Placed,
    pub marks: Placed,
    pub undo: Placed,
    pub data: Placed,
    pub reader: Placed,
    /// The code of each step's outcome in the last pass; see `call`.
    pub said: Vec<u8>,
}

impl Buffers {
    /// Descriptor d belongs to file d mod 8, save that 2 to 5 belong to file 2.
    pub fn new(said: usize) -> Buffers {
        let mut data: Vec<u8> = (0..DESCRIPTORS as u8).map(|d| if (2..6).contains(&d) { 2 } else { d % 8 }).collect();
        data.extend((0..8192u32).map(|i| (i * 7 + 1) as u8));
        Buffers {
            files: Placed::zeros(BUFFER, 0),
            logs: Placed::zeros(BUFFER, 640),
            marks: Placed::zeros(BUFFER, 1280),
            undo: Placed::zeros(SPAN, 1920),
            data: Placed::bytes(&data, 2560),
            reader: Placed::zeros(SPAN, 3200),
            said: vec![0; said],
        }
    }

    fn bytes(&self) -> [&[u8]; 7] {
        [&self.files, &self.logs, &self.marks, &self.undo, &self.data, &self.reader, &self.said]
    }

    /// The store buffers for the twin, and data, reader and said.
    fn lend(&mut self) -> (Lent<'_>, &[u8], &mut [u8], &mut [u8]) {
        let Buffers { files, logs, marks, undo, data, reader, said } = self;
        (Lent { files, logs, marks, undo }, data, reader, said)
    }
}

impl PartialEq for Buffers {
    fn eq(&self, other: &Buffers) -> bool {
        self.bytes() == other.bytes()
    }
}

enum Record {
    Proved(Box<Numbers>),
    Twin(Box<Store>),
    C(Box<Numbers>),
}

/// A store: its record, what it is lent, and the sum of the numbers that its calls have answered.
pub struct Stored {
    record: Record,
    pub lent: Buffers,
    pub sum: u64,
}

pub const GRANTED: u8 = 3;
pub const STALE: u8 = 23;

impl Stored {
    pub fn new(which: Which, said: usize) -> Stored {
        let record = match which {
            Which::Proved => Record::Proved(Numbers::all(0)),
            Which::Twin => Record::Twin(Box::new(Store::new([0; DESCRIPTORS]))),
            Which::C => Record::C(Numbers::all(0)),
        };
        Stored { record, lent: Buffers::new(said), sum: 0 }
    }

    /// Runs `setup` once, then `body` so many rounds. Answers the nanoseconds that it took.
    pub fn run(&mut self, setup: &Script, body: &Script, rounds: usize) -> f64 {
        let start = Instant::now();
        self.pass(&setup.octets, 1);
        self.pass(&body.octets, rounds);
        start.elapsed().as_nanos() as f64
    }

    /// Runs the steps so many rounds.
    #[inline]
    pub fn pass(&mut self, octets: &[u8], rounds: usize) {
        let sum = match &mut self.record {
            Record::Proved(kept) => ffi::run(ffi::bench_calls_run, kept, &mut self.lent, octets, rounds),
            Record::Twin(store) => pass_twin(store, &mut self.lent, octets, rounds),
            Record::C(kept) => ffi::run(ffi::c_store_run, kept, &mut self.lent, octets, rounds),
        };
        self.sum = self.sum.wrapping_add(sum);
    }

    /// Runs the steps as often as `stamps` is long, a call each, and puts the processor time in microseconds before each into it.
    pub fn pass_stamped(&mut self, octets: &[u8], stamps: &mut [i64]) {
        for stamp in stamps {
            *stamp = ffi::processor_time();
            self.pass(octets, 1);
        }
    }

    /// The sixteen committed offsets and the eight lengths.
    pub fn committed(&self) -> [u16; COMMITTED] {
        match &self.record {
            Record::Proved(kept) => ffi::committed_proved(kept),
            Record::C(kept) => ffi::committed_c(kept),
            Record::Twin(store) => {
                let mut out = [0; COMMITTED];
                out[..DESCRIPTORS].copy_from_slice(&store.offsets);
                out[DESCRIPTORS..].copy_from_slice(&store.lengths);
                out
            }
        }
    }

    /// Sets every number of a record that lies in numbers to 65,535.
    pub fn spoil(&mut self) {
        if let Record::Proved(kept) | Record::C(kept) = &mut self.record {
            *kept = Numbers::all(u16::MAX);
        }
    }

    /// Asks so many times for the best order of all eight transactions, each time with a budget of all orders. Answers the nanoseconds
    /// that it took, and the sum of the grants. The store in C has none.
    pub fn best_order(&mut self, rounds: usize) -> (f64, u64) {
        let start = Instant::now();
        let sum = match &mut self.record {
            Record::Proved(kept) => ffi::order(kept, &self.lent, rounds),
            Record::Twin(store) => best_order_twin(store, &mut self.lent, rounds),
            Record::C(_) => 0,
        };
        (start.elapsed().as_nanos() as f64, sum)
    }

    /// Has eight scripts of four calls dispatched so many times. Answers the nanoseconds that it took, and the sum of the Commits. The
    /// store in C has no dispatcher.
    pub fn dispatch(&mut self, rounds: usize) -> (f64, u64) {
        let start = Instant::now();
        let sum = match &mut self.record {
            Record::Proved(kept) => ffi::dispatch(kept, &mut self.lent, rounds),
            Record::Twin(store) => dispatch_twin(store, &mut self.lent, rounds),
            Record::C(_) => 0,
        };
        (start.elapsed().as_nanos() as f64, sum)
    }
}

impl PartialEq for Stored {
    fn eq(&self, other: &Stored) -> bool {
        self.lent == other.lent && self.sum == other.sum && self.committed() == other.committed()
    }
}

fn best_order_twin(store: &Store, buffers: &mut Buffers, rounds: usize) -> u64 {
    let (lent, ..) = buffers.lend();
    let list = [0, 1, 2, 3, 4, 5, 6, 7];
    (0..rounds).map(|_| store.best(&lent, &list, 0, ORDERS).expect("an order").grants as u64).sum()
}

fn dispatch_twin(store: &mut Store, buffers: &mut Buffers, rounds: usize) -> u64 {
    let (mut lent, data, reader, _) = buffers.lend();
    let data = &data[script::BYTES..];
    let scripts: Vec<Vec<ScriptStep>> = (0..8).map(task).collect();
    let commits = |_| u64::from(store.dispatch(&mut lent, &scripts, data, reader, 0).expect("all run").commits);
    (0..rounds).map(commits).sum()
}

/// The four calls of script k, as in the crate `bench_dispatch`.
fn task(k: usize) -> Vec<ScriptStep> {
    let actions = [
        ScriptAction::Seek { to: 0 },
        ScriptAction::Write { start: 0, length: 16 },
        ScriptAction::Seek { to: 0 },
        ScriptAction::Read { count: 16 },
    ];
    actions.into_iter().map(|action| ScriptStep { descriptor: k, action }).collect()
}

#[inline(never)]
fn pass_twin(store: &mut Store, buffers: &mut Buffers, octets: &[u8], rounds: usize) -> u64 {
    let (mut lent, data, reader, said) = buffers.lend();
    let mut sum = 0u64;
    for _ in 0..rounds {
        for (i, step) in octets.chunks_exact(8).enumerate() {
            let (code, number) = call(store, &mut lent, Step::at(step), data, reader);
            sum = sum.wrapping_add(number);
            if i < said.len() {
                said[i] = code;
            }
        }
    }
    sum
}

/// A call of the twin: its outcome's code (0 done, 1 an offset, 2 a count of bytes, 3 granted, 4 a count of pairs, 10 more than a
/// refusal's number in the table), and the number that it answers.
fn call(store: &mut Store, lent: &mut Lent, c: Step, data: &[u8], reader: &mut [u8]) -> (u8, u64) {
    let bytes = data.get(c.from..c.from + c.n).unwrap_or(data);
    match c.kind {
        script::FRESH => answer(0, store.fresh(lent, bytes).map(|()| 0)),
        script::BEGIN => answer(0, store.begin(lent, c.t).map(|()| 0)),
        script::SEEK => answer(0, store.seek(lent, c.t, c.d, c.n).map(|()| 0)),
        script::WRITE => answer(0, store.write(lent, c.t, c.d, bytes).map(|()| 0)),
        script::POINTER => answer(1, store.get_file_pointer(lent, c.t, c.d).map(u64::from)),
        script::READ => answer(2, store.read(lent, c.t, c.d, c.n, reader).map(u64::from)),
        script::COMMIT => answer(GRANTED, store.commit(lent, c.t, c.n).map(u64::from)),
        script::TAKE_BACK => answer(0, store.undo(lent).map(|()| 0)),
        script::PLACES => answer(4, store.places(lent, c.t, c.d, reader).map(u64::from)),
        script::SET_WINDOW => answer(0, store.set_window(lent, c.d, c.n, c.from).map(|()| 0)),
        _ => answer(0, store.abort(lent, c.t).map(|()| 0)),
    }
}

fn answer(code: u8, outcome: Result<u64, Refusal>) -> (u8, u64) {
    match outcome {
        Ok(number) => (code, number),
        Err(refusal) => (10 + refusal.number() as u8, 0),
    }
}
