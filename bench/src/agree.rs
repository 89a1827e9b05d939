//! Before anything is timed: the three stores make the same calls, drawn from a fixed recurrence, and after each call they must have
//! answered the same and hold the same files, logs, marks, old bytes, offsets and lengths.

use crate::report::progress;
use crate::script::{self, Script};
use crate::stores::{Stored, Which, ALL};

const CALLS: usize = 300;

/// A generator of numbers (xorshift).
struct Numbers(u64);

impl Numbers {
    fn below(&mut self, n: usize) -> usize {
        self.0 ^= self.0 << 13;
        self.0 ^= self.0 >> 7;
        self.0 ^= self.0 << 17;
        (self.0 % n as u64) as usize
    }

    /// Mostly below n, now and then a little more than is allowed.
    fn mostly(&mut self, n: usize, allowed: usize) -> usize {
        if self.below(40) == 0 {
            self.below(allowed + 2)
        } else {
            self.below(n)
        }
    }
}

/// Calls on some transactions and descriptors, with offsets near the start, anywhere or near the end.
fn calls(numbers: &mut Numbers) -> Script {
    let (transactions, descriptors) = (1 + numbers.below(8), 1 + numbers.below(16));
    let near = numbers.below(3);
    let mut script = Script::default().fresh();
    for _ in 0..CALLS {
        let (t, d) = (numbers.mostly(transactions, 8), numbers.mostly(descriptors, 16));
        let to = match near {
            0 => numbers.below(40),
            1 => numbers.below(4200),
            _ => 4090 + numbers.below(10),
        };
        let count = match numbers.below(6) {
            0 => 0,
            1 => numbers.below(1500),
            _ => numbers.below(24),
        };
        call(&mut script, numbers, [t, d, to, count]);
    }
    script
}

fn call(script: &mut Script, numbers: &mut Numbers, [t, d, to, count]: [usize; 4]) {
    match numbers.below(28) {
        0..=4 => script.push(script::BEGIN, t, 0, 0, 0),
        5..=7 => script.push(script::SEEK, t, d, to, 0),
        8..=13 => script.push(script::WRITE, t, d, count, script::BYTES + numbers.below(3000)),
        14..=15 => script.push(script::POINTER, t, d, 0, 0),
        16..=19 => script.push(script::READ, t, d, if count == 7 { 4097 } else { 2 * count }, 0),
        20..=22 => script.push(script::COMMIT, t, 0, numbers.mostly(2, 1440), 0),
        23 => script.push(script::TAKE_BACK, 0, 0, 0, 0),
        24..=25 => script.push(script::PLACES, t, d % 9, 0, 0),
        26 if numbers.below(6) == 0 => script.push(script::SET_WINDOW, 0, d % 9, to % 1442, numbers.below(1442)),
        26 => script.push(script::SET_WINDOW, 0, d % 8, 0, 0),
        _ => script.push(script::ABORT, t, 0, 0, 0),
    }
}

/// Nobody trusts a record of which every number is 65,535.
fn refuse_a_spoilt_record() {
    for which in [Which::Proved, Which::C] {
        let mut stored = Stored::new(which, 1);
        stored.pass(&Script::default().fresh().octets, 1);
        stored.spoil();
        stored.pass(&Script::default().begin(0).octets, 1);
        assert_eq!(stored.lent.said, [12], "{}: a spoilt record is refused with 2", which.name());
    }
}

/// Runs so many scripts of 300 calls, and answers how many different answers and refusals were met.
pub fn check(scripts: usize) -> usize {
    refuse_a_spoilt_record();
    let mut numbers = Numbers(88172645463325252);
    let mut met = [false; 64];
    for i in 0..scripts {
        let script = calls(&mut numbers);
        let [mut proved, mut twin, mut c] = ALL.map(|which| Stored::new(which, 1));
        for (k, step) in script.octets.chunks_exact(8).enumerate() {
            for stored in [&mut proved, &mut twin, &mut c] {
                stored.pass(step, 1);
            }
            assert!(proved == twin, "script {i}, call {k}: the proved store differs from the twin");
            assert!(c == twin, "script {i}, call {k}: the store in C differs from the twin");
            met[usize::from(twin.lent.said[0])] = true;
        }
        progress("calls compared on all three stores, scripts", i + 1, scripts);
    }
    met.into_iter().filter(|&met| met).count()
}
