//! The day on air: the three stores, the proved one with the lock that the guide asks for, and what else a user can take.

use crate::calls::least;
use crate::day::{self, Tally};
use crate::peers::{self, Order, Peer};
use crate::plain::Plain;
use crate::report::{compared, grouped, head, progress, row, Report};
use crate::script::{Script, Step};
use crate::stores::{Buffers, Stored, Which, ALL, GRANTED, STALE};
use crate::{ffi, Effort};
use std::sync::Mutex;
use std::time::Instant;

/// The day, and what the plain machine says to each of its steps.
struct Day {
    script: Script,
    steps: Vec<Step>,
    machine: Vec<u8>,
}

/// What runs days: `days(n)` runs n and answers the nanoseconds.
struct OnAir<'a> {
    name: String,
    tally: Tally,
    count: usize,
    least: f64,
    days: Box<dyn FnMut(usize) -> f64 + 'a>,
}

impl<'a> OnAir<'a> {
    fn new(name: String, tally: Tally, effort: &Effort, mut days: impl FnMut(usize) -> f64 + 'a) -> OnAir<'a> {
        let mut count = 1;
        while days(count) < effort.day_nanoseconds {
            count *= 2;
        }
        OnAir { name, tally, count, least: f64::MAX, days: Box::new(days) }
    }

    fn sweep(&mut self) {
        self.least = self.least.min((self.days)(self.count));
    }

    /// Nanoseconds of a day.
    fn spent(&self) -> f64 {
        self.least / self.count as f64
    }

    /// Granted commits a second.
    fn rate(&self) -> f64 {
        1e9 * self.tally.granted as f64 / self.spent()
    }

    fn say(&self, proved: &OnAir) {
        let Tally { granted, refused, granted_by_machine } = self.tally;
        let ratio = format!("{:.2}", proved.rate() / self.rate());
        let milliseconds = format!("{:.2} ms", self.spent() / 1e6);
        let counts = [granted, refused, granted_by_machine].map(|count| grouped(count as f64));
        let [granted, refused, needless] = counts;
        row(&[self.name.clone(), milliseconds, grouped(self.rate()), granted, refused, needless, ratio]);
    }
}

impl Day {
    fn new(ticks: usize) -> Day {
        let script = day::day(ticks);
        let machine = day::machine_says(&script, &Buffers::new(0));
        Day { steps: script.steps().collect(), script, machine }
    }

    /// The tally of a store, which must answer each step as the plain machine does.
    fn tally_of(&self, said: &[u8], name: &str) -> Tally {
        assert!(said == self.machine, "{name}: an outcome differs from the plain machine's");
        let tally = day::tally(&self.script, &self.machine, |i| said[i] == GRANTED);
        let stale = said.iter().filter(|&&code| code == STALE).count();
        assert_eq!(stale, tally.refused, "{name}: every refused Commit is a stale one");
        tally
    }

    fn store(&self, which: Which, effort: &Effort) -> OnAir<'_> {
        let mut stored = Stored::new(which, self.script.len());
        stored.pass(&self.script.octets, 1);
        let tally = self.tally_of(&stored.lent.said, which.name());
        OnAir::new(which.name().to_string(), tally, effort, move |days| {
            let start = Instant::now();
            stored.pass(&self.script.octets, days);
            let spent = start.elapsed().as_nanos() as f64;
            assert!(stored.lent.said == self.machine, "a later day differs from the first");
            spent
        })
    }

    /// The proved store, each call over the C border: with a mutex that is taken for each call, and without.
    fn by_call(&self, mutex: bool, effort: &Effort) -> OnAir<'_> {
        let name =
            if mutex { "proved store, a mutex around each call" } else { "proved store, each call over the C border" };
        let stored = Mutex::new(Stored::new(Which::Proved, 1));
        let tally = self.tally_of(&locked_day(&stored, &self.script.octets), name);
        OnAir::new(name.to_string(), tally, effort, move |days| {
            let start = Instant::now();
            for _ in 0..days {
                if mutex {
                    locked_day(&stored, &self.script.octets);
                } else {
                    calls_of(&mut stored.lock().expect("nobody panicked"), &self.script.octets);
                }
            }
            start.elapsed().as_nanos() as f64
        })
    }

    /// The same with two threads: one has the tasks with even numbers, the other the odd ones. Which call comes first is the lock's
    /// choice, so the tally is that of the quickest day, and the plain machine is not asked.
    fn two_threads(&self, days: usize) -> (f64, usize) {
        let stored = Mutex::new(Stored::new(Which::Proved, 1));
        let (setup, rest) = self.script.octets.split_at(8 * day::BEFORE);
        let of = |odd: u8| -> Vec<u8> {
            rest.chunks_exact(8).filter(|step| step[1] % 2 == odd).flatten().copied().collect()
        };
        let (even, odd) = (of(0), of(1));
        let mut best = (f64::MAX, 0);
        for _ in 0..days {
            stored.lock().expect("nobody panicked").pass(setup, 1);
            let start = Instant::now();
            let said = std::thread::scope(|scope| {
                let other = scope.spawn(|| locked_day(&stored, &odd));
                let mut said = locked_day(&stored, &even);
                said.extend(other.join().expect("the thread ends"));
                said
            });
            let spent = start.elapsed().as_nanos() as f64;
            let granted = said.iter().filter(|&&code| code == GRANTED).count();
            if spent < best.0 {
                best = (spent, granted);
            }
        }
        best
    }

    fn peer<'a, P: Peer + 'a>(&'a self, mut peer: P, name: &str, order: Order, effort: &Effort) -> OnAir<'a> {
        let sequence = peers::sequence(&self.steps, order);
        let data = Buffers::new(0).data;
        let mut granted = vec![false; self.steps.len()];
        peers::run(&mut peer, &self.steps, &sequence, &data, &mut granted);
        let tally = day::tally(&self.script, &self.machine, |i| granted[i]);
        OnAir::new(format!("{name}, {}", order.name()), tally, effort, move |days| {
            let start = Instant::now();
            for _ in 0..days {
                peers::run(&mut peer, &self.steps, &sequence, &data, &mut granted);
            }
            start.elapsed().as_nanos() as f64
        })
    }

    /// The peers whose libraries are here, one after another and interleaved.
    #[allow(unused_mut, unused_variables)]
    fn peers(&self, effort: &Effort) -> Vec<OnAir<'_>> {
        let mut all = vec![self.peer(Plain::default(), "plain arrays, a mutex a transaction", Order::Serial, effort)];
        for order in [Order::Serial, Order::Interleaved] {
            #[cfg(feature = "lmdb")]
            all.push(self.peer(crate::lmdb::Lmdb::new(), "LMDB", order, effort));
            #[cfg(feature = "sqlite")]
            all.push(self.peer(crate::sqlite::Sqlite::new(order), "SQLite", order, effort));
            #[cfg(feature = "rocksdb")]
            all.push(self.peer(crate::rocksdb::RocksDb::new(), "RocksDB", order, effort));
        }
        all
    }
}

/// Makes each call by itself. Answers the code of each outcome.
fn calls_of(stored: &mut Stored, octets: &[u8]) -> Vec<u8> {
    let call = |step| {
        stored.pass(step, 1);
        stored.lent.said[0]
    };
    octets.chunks_exact(8).map(call).collect()
}

/// Makes each call with the mutex held for its length. Answers the code of each outcome.
fn locked_day(stored: &Mutex<Stored>, octets: &[u8]) -> Vec<u8> {
    let call = |step| {
        let mut stored = stored.lock().expect("nobody panicked");
        stored.pass(step, 1);
        stored.lent.said[0]
    };
    octets.chunks_exact(8).map(call).collect()
}

pub fn table(effort: &Effort, report: &mut Report) {
    let day = Day::new(effort.ticks);
    let mut all: Vec<OnAir> = ALL.into_iter().map(|which| day.store(which, effort)).collect();
    all.extend([false, true].map(|mutex| day.by_call(mutex, effort)));
    all.extend(day.peers(effort));
    let sweeps = effort.sweeps.min(15);
    for sweep in 0..sweeps {
        all.iter_mut().for_each(OnAir::sweep);
        progress("day on air, sweeps", sweep + 1, sweeps);
    }
    let title = format!(
        "Day on air: {} commits in {} calls",
        grouped(day::commits(&day.script) as f64),
        grouped(day.steps.len() as f64)
    );
    head(
        &title,
        &["Store", "Time", "Commits/s", "Granted", "Refused", "Without need", "The proved store's commits/s, of its"],
    );
    let (own, peers) = all.split_at(5);
    own.iter().for_each(|other| other.say(&all[0]));
    let (spent, granted) = day.two_threads(3 * sweeps);
    let rate = 1e9 * granted as f64 / spent;
    let [time, ratio] = [format!("{:.2} ms", spent / 1e6), format!("{:.2}", all[0].rate() / rate)];
    row(&["proved store, a mutex, two threads", &time, &grouped(rate), &grouped(granted as f64), "", "", &ratio]);
    peers.iter().for_each(|other| other.say(&all[0]));
    targets(&all, report);
    latencies(&day, effort);
    lines(&day, &all[0], effort, report);
}

fn targets(all: &[OnAir], report: &mut Report) {
    let (proved, twin, c) = (&all[0], &all[1], &all[2]);
    report.at_least("day on air: commits/s beside the twin's", proved.rate() / twin.rate(), 1.9);
    report.at_most("day on air: time beside the store by hand in C", proved.spent() / c.spent(), 0.95);
    target_of_lmdb(all, "one after another", 1.25, report);
    target_of_lmdb(all, "interleaved", 1.0, report);
    let seen = format!("{} of {}", proved.tally.granted_by_machine, grouped(proved.tally.refused as f64));
    report.target(
        "day on air: refused, but granted by the plain machine: 0",
        seen,
        proved.tally.granted_by_machine == 0,
    );
}

/// LMDB's time has its own lock in it. The store's has the mutex's added, which is what a day by single calls takes longer with it.
fn target_of_lmdb(all: &[OnAir], order: &str, bound: f64, report: &mut Report) {
    let (proved, border, locked) = (&all[0], &all[3], &all[4]);
    let what = format!("day on air: commits/s with a mutex a call beside LMDB's, {order}: at least {bound}");
    let Some(lmdb) = all.iter().find(|other| other.name == format!("LMDB, {order}")) else {
        return report.target(&what, "not measured: LMDB is not here".to_string(), false);
    };
    let spent = proved.spent() + (locked.spent() - border.spent()).max(0.0);
    let ratio = 1e9 * proved.tally.granted as f64 / spent / lmdb.rate();
    let seen = format!("{ratio:.2} ({:.2} with the border too)", locked.rate() / lmdb.rate());
    report.target(&what, seen, ratio >= bound);
}

/// Nanoseconds of each call of a day, timed one by one: the least over so many days, the clock's own time taken off; and the largest of
/// each day as it came, of which the middle one counts.
fn timed(day: &Day, which: Which, days: usize) -> (Vec<f64>, f64) {
    let mut stored = Stored::new(which, 1);
    let clock = least(1000, || timed_pass(&mut stored, &[]));
    let mut calls = vec![f64::MAX; day.steps.len()];
    let mut largest = Vec::new();
    for _ in 0..days {
        let mut most: f64 = 0.0;
        for (step, call) in day.script.octets.chunks_exact(8).zip(&mut calls) {
            let spent = (timed_pass(&mut stored, step) - clock).max(0.0);
            *call = call.min(spent);
            most = most.max(spent);
        }
        largest.push(most);
    }
    calls.sort_by(f64::total_cmp);
    largest.sort_by(f64::total_cmp);
    (calls, largest[days / 2])
}

fn timed_pass(stored: &mut Stored, octets: &[u8]) -> f64 {
    let start = Instant::now();
    stored.pass(octets, 1);
    start.elapsed().as_nanos() as f64
}

fn latencies(day: &Day, effort: &Effort) {
    let days = effort.sweeps.min(15);
    let title = format!("Latency of a call on the day: each call timed by itself, its least of {days} days");
    head(&title, &["Store", "50th percentile", "99th percentile", "Largest", "Largest of a day as it came"]);
    for which in ALL {
        let (calls, largest) = timed(day, which, days);
        let percentile = |percent: usize| calls[(calls.len() - 1) * percent / 100];
        let said = [percentile(50), percentile(99), percentile(100), largest].map(|ns| format!("{} ns", grouped(ns)));
        row(&[which.name(), &said[0], &said[1], &said[2], &said[3]]);
    }
}

/// What a call log costs: the line of each call, rendered, beside the call.
fn lines(day: &Day, proved: &OnAir, effort: &Effort, report: &mut Report) {
    let data = Buffers::new(0).data;
    let rounds = proved.count;
    let rendered = least(effort.sweeps.min(15), || {
        let start = Instant::now();
        let bytes = ffi::lines(&day.script.octets, &data, rounds);
        assert!(bytes > 0, "lines were written");
        start.elapsed().as_nanos() as f64 / rounds as f64
    });
    let calls = day.steps.len() as f64;
    let ratio = rendered / proved.spent();
    head("A call log", &["Figure", "Proved store", "Compared with", "Ratio"]);
    let call = format!("the call itself {:.1} ns", proved.spent() / calls);
    compared("The line of a call rendered, on the day", &format!("{:.1} ns", rendered / calls), &call, ratio);
    report.at_most("rendering a call's line beside the call, on the day", ratio, 0.3);
}

/// Days on air alone, for a profiler.
pub fn days_only(which: Which, ticks: usize, days: usize) {
    let day = day::day(ticks);
    let spent = Stored::new(which, day.len()).run(&Script::default(), &day, days);
    println!("{days} days, {:.1} ns a call", spent / (day.len() * days) as f64);
}
