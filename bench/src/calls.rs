//! The cost of each kind of call: n rounds of a script against none, or against the same script without the call.

use crate::placed::Placed;
use crate::report::progress;
use crate::script::Script;
use crate::stores::{Stored, Which, ALL};
use crate::Effort;

/// `calls` calls cost what a round of `with` costs more than a round of `without`.
pub struct Case {
    pub name: String,
    /// What is open meanwhile.
    pub beside: String,
    setup: Script,
    with: Script,
    without: Option<Script>,
    calls: usize,
    /// The refusal that the last call meets.
    refusal: Option<u8>,
}

/// Nanoseconds of each store, as in `ALL`.
#[derive(Clone, Copy)]
pub struct Cost {
    pub proved: f64,
    pub twin: f64,
    pub c: f64,
}

impl Cost {
    pub fn ratio(&self) -> f64 {
        self.proved / self.twin
    }
}

const LENGTH: usize = 16;

/// The first `open` transactions, each with r deferred records of 16 bytes through descriptor 1. Before them the file of descriptor 0 is
/// filled, so that a Read gives all that it wants.
fn opened(open: usize, r: usize) -> Script {
    let filled = Script::default().fresh().filled(7, 0);
    (0..open).fold(filled, |script, t| script.begin(t).times(r, |s| s.write(t, 1, LENGTH)))
}

fn beside(open: usize, r: usize) -> String {
    format!("{open} open, {r} records each")
}

fn case(name: &str, beside: String, setup: Script, with: Script) -> Case {
    Case { name: name.to_string(), beside, setup, with, without: None, calls: 1, refusal: None }
}

/// A Read is measured with a Seek before it, less the same Seek.
fn read(name: &str, r: usize, size: usize) -> Case {
    let sought = Script::default().seek(0, 0, 0);
    let with = sought.clone().read(0, 0, size);
    Case { without: Some(sought), ..case(name, beside(8, r), opened(8, r), with) }
}

/// Writes are measured in batches, behind `before` records, less the same batch without them.
fn write(name: &str, r: usize, before: usize, calls: usize, size: usize) -> Case {
    let batch = |count| Script::default().abort(0).begin(0).times(count, |s| s.write(0, 1, size));
    Case { without: Some(batch(before)), calls, ..case(name, beside(8, r), opened(8, r), batch(before + calls)) }
}

/// Eight calls with r records in each of eight transactions (where Begin is timed: in seven, and the one that comes and goes).
pub fn cases(r: usize) -> Vec<Case> {
    let begun = Script::default().begin(7);
    let whole = begun.clone().seek(7, 0, 0).write(7, 0, LENGTH).commit(7);
    vec![
        case("Seek", beside(8, r), opened(8, r), Script::default().seek(0, 0, 48)),
        // Where r is 64: the last eight of 64.
        write("Write of 16 bytes", r, r.min(56), 8, LENGTH),
        case("GetFilePointer", beside(8, r), opened(8, r), Script::default().pointer(0, 0)),
        read("Read of 16 bytes", r, LENGTH),
        read("Read of 4,096 bytes", r, 4096),
        case("Begin and Abort", beside(7, r), opened(7, r), begun.clone().abort(7)),
        case("Begin and Commit, empty", beside(7, r), opened(7, r), begun.commit(7)),
        case("Begin, Seek, Write of 16 bytes, Commit", beside(7, r), opened(7, r), whole),
    ]
}

/// A Seek with so many transactions open.
pub fn seeks() -> Vec<Case> {
    let seek = |open| case("Seek", beside(open, 0), opened(open, 0), Script::default().seek(0, 0, 48));
    [1, 2, 4].into_iter().map(seek).collect()
}

/// A Seek while r records of 16 bytes are held of the last grant; and a grant of so many, from its Begin on, with its undo.
pub fn held(r: usize) -> [Case; 2] {
    let grant = |script: Script| script.begin(0).seek(0, 1, 0).times(r, |s| s.write(0, 1, LENGTH)).commit(0);
    let fresh = Script::default().fresh();
    let seek = Script::default().seek(0, 0, 48);
    let name = format!("Begin, Seek, {r} Writes of 16 bytes, Commit, undo");
    [
        case("Seek", format!("1 open, {r} records of the last grant held"), grant(fresh.clone()).begin(0), seek),
        case(&name, "0 open".to_string(), fresh, grant(Script::default()).take_back()),
    ]
}

/// Own writes of a byte each, 64 apart, on the file of descriptor 0.
fn apart(script: Script, t: usize, count: usize) -> Script {
    (0..count).fold(script, |script, i| script.seek(t, 0, 64 * i + 32).write(t, 0, 1))
}

/// Places of 1, 8 and 64 intervals.
pub fn places() -> Vec<Case> {
    let places = |r: usize| {
        let name = format!("Places, {r} interval{}", if r == 1 { "" } else { "s" });
        case(&name, beside(8, 0), apart(opened(8, 0), 0, r), Script::default().places(0, 0))
    };
    [1, 8, 64].into_iter().map(places).collect()
}

/// A window that is set, and a Commit into a file that is open from 600 to 700.
pub fn windows() -> Vec<Case> {
    let setup = opened(7, 0).window(0, 600, 700);
    let begun = Script::default().begin(7).seek(7, 0, 0).write(7, 0, LENGTH);
    vec![
        case("set_window", beside(8, 0), opened(8, 0), Script::default().window(0, 600, 700)),
        case("Begin, Seek, Write of 16 bytes, Commit in the window", beside(7, 0), setup, begun.commit_at(7, 650)),
    ]
}

/// Calls that are refused. A Commit that is stale is timed from its Begin on, less the calls of the other that is quicker.
pub fn refused() -> Vec<Case> {
    let refused = |name: &str, setup: Script, with: Script, number: u8| Case {
        refusal: Some(number),
        ..case(&format!("{name}, refused with {number}"), beside(8, 0), setup, with)
    };
    let one = Script::default;
    let closed = opened(8, 0).window(0, 600, 700).seek(0, 0, 0).write(0, 0, LENGTH);
    let stale = opened(7, 0).pointer(0, 0).begin(7).seek(7, 0, 5).commit(7).begin(7);
    let other = |script: Script| script.begin(6).seek(6, 0, 0).commit(6);
    let turned_back = other(one().begin(7).pointer(7, 0)).commit(7);
    let quicker =
        Case { without: Some(other(one())), ..refused("Begin, GetFilePointer, Commit", opened(6, 0), turned_back, 13) };
    vec![
        refused("Begin", opened(8, 0), one().begin(0), 5),
        refused("Seek", opened(8, 0), one().seek(0, 0, 4097), 8),
        refused("Write of 16 bytes", opened(8, 0).seek(0, 0, 4096), one().write(0, 0, LENGTH), 9),
        refused("Commit of 16 bytes into a closed file", closed, one().commit_at(0, 5), 21),
        refused("Read of 16 bytes", stale, one().read(0, 0, LENGTH), 18),
        quicker,
    ]
}

/// The dearest Read and the dearest Commit, while seven others have read another whole file and have 64 records each: a Read of 4,096
/// bytes over 64 own bytes apart; and a Commit of 64 records of 64 bytes, less an Abort of them.
pub fn worst() -> [Case; 2] {
    let others = (0..7).fold(Script::default().fresh().filled(7, 0).filled(7, 1), |script, t| {
        script.begin(t).seek(t, 1, 0).read(t, 1, 4096).times(64, |s| s.write(t, 3, LENGTH))
    });
    let sought = Script::default().seek(7, 0, 0);
    let written = Script::default().begin(7).seek(7, 0, 0).times(64, |s| s.write(7, 0, 64));
    let reads = sought.clone().read(7, 0, 4096);
    let own = apart(others.clone().begin(7), 7, 64);
    let (of_read, of_commit) =
        ("Read of 4,096 bytes over 64 own bytes apart", "Commit of 64 records of 64 bytes, less an Abort");
    [
        Case { without: Some(sought), ..case(of_read, beside(8, 64), own, reads) },
        Case { without: Some(written.clone().abort(7)), ..case(of_commit, beside(8, 64), others, written.commit(7)) },
    ]
}

/// A Read and a Write of n bytes with empty logs.
pub fn sized(n: usize) -> [Case; 2] {
    [read("Read", 0, n), write("Write", 0, 0, 1, n)]
}

impl Case {
    /// The same answers and bytes from all, and nothing refused but what is meant to be.
    pub fn check(&self) {
        let before = self.without.as_ref().map(|without| (without, 3, None));
        for (script, rounds, refusal) in
            [(&self.with, 0, None), (&self.with, 3, self.refusal)].into_iter().chain(before)
        {
            let [proved, twin, c] = ALL.map(|which| {
                let mut stored = Stored::new(which, self.setup.len().max(script.len()));
                stored.run(&self.setup, script, rounds);
                stored
            });
            assert!(proved == twin && c == twin, "{}: the stores differ", self.name);
            let said = &twin.lent.said;
            match refusal {
                None => assert!(said.iter().all(|&code| code < 10), "{}: a call was refused", self.name),
                Some(number) => {
                    assert_eq!(said[script.len() - 1], 10 + number, "{}: the last call's refusal", self.name)
                }
            }
        }
    }

    /// One run: so many rounds with the calls, or without them.
    pub fn run(&self, which: Which, calls: bool, rounds: usize) -> f64 {
        let (script, rounds) = match (&self.without, calls) {
            (_, true) => (&self.with, rounds),
            (Some(without), false) => (without, rounds),
            (None, false) => (&self.with, 0),
        };
        Stored::new(which, 8).run(&self.setup, script, rounds)
    }

    /// How many rounds take about as long as one measurement should.
    fn rounds(&self, effort: &Effort) -> usize {
        let mut rounds = 1;
        while (0..3).any(|_| self.run(Which::Proved, true, rounds) < effort.nanoseconds) {
            rounds *= 2;
        }
        rounds
    }
}

/// The least nanoseconds of one case's runs: of each store with and without the calls.
struct Least {
    rounds: usize,
    runs: [[f64; 2]; ALL.len()],
}

impl Least {
    fn sweep(&mut self, case: &Case) {
        for (which, runs) in ALL.into_iter().zip(&mut self.runs) {
            for (run, calls) in runs.iter_mut().zip([true, false]) {
                *run = run.min(case.run(which, calls, self.rounds));
            }
        }
    }

    fn cost(&self, case: &Case) -> Cost {
        let calls = (self.rounds * case.calls) as f64;
        let [proved, twin, c] = self.runs.map(|[with, without]| (with - without) / calls);
        Cost { proved, twin, c }
    }
}

/// What each case costs. The cases are run one after another, the stores in turn, again and again, and the least time of each run
/// counts: what else the machine does only adds to it, and may last longer than one case.
pub fn measure(cases: &[Case], effort: &Effort) -> Vec<Cost> {
    cases.iter().for_each(Case::check);
    let least = |case: &Case| Least { rounds: case.rounds(effort), runs: [[f64::MAX; 2]; ALL.len()] };
    let mut all: Vec<Least> = cases.iter().map(least).collect();
    for sweep in 0..effort.sweeps {
        for (case, least) in cases.iter().zip(&mut all) {
            least.sweep(case);
        }
        progress("calls, sweeps", sweep + 1, effort.sweeps);
    }
    cases.iter().zip(&all).map(|(case, least)| least.cost(case)).collect()
}

/// The least of so many figures.
pub fn least(count: usize, mut figure: impl FnMut() -> f64) -> f64 {
    (0..count).map(|_| figure()).fold(f64::MAX, f64::min)
}

/// All 40,320 orders of eight transactions, in a ring in which each has sighted the offset that the one before it sets. Milliseconds.
pub fn all_orders(which: Which, rounds: usize, sweeps: usize) -> f64 {
    let begun = (0..8).fold(Script::default().fresh(), |script, t| script.begin(t));
    let setup = (0..8).fold(begun, |script, t| script.pointer(t, (t + 7) % 8 + 8).seek(t, t + 8, 1));
    least(sweeps, || {
        let mut stored = Stored::new(which, 8);
        stored.pass(&setup.octets, 1);
        let (spent, sum) = stored.best_order(rounds);
        assert_eq!(sum, 7 * rounds as u64, "seven of a ring of eight are granted");
        spent / rounds as f64 / 1e6
    })
}

/// The calls that the dispatcher makes for the eight scripts of `bench_dispatch`, all of which are granted in the first round.
fn dispatched() -> Script {
    let each = |script: Script, call: fn(Script, usize) -> Script| (0..8).fold(script, call);
    let mut script = each(Script::default(), |s, t| s.begin(t));
    script = each(script, |s, t| s.seek(t, t, 0));
    script = each(script, |s, t| s.write(t, t, LENGTH));
    script = each(script, |s, t| s.seek(t, t, 0));
    script = each(script, |s, t| s.read(t, t, LENGTH));
    each(script, |s, t| s.commit(t))
}

/// Eight scripts of four calls: nanoseconds a call by the dispatcher, and of the same calls by hand.
pub fn dispatch(which: Which, effort: &Effort) -> [f64; 2] {
    let fresh = Script::default().fresh();
    let by_hand = dispatched();
    let rounds = (effort.nanoseconds / 5e3) as usize;
    let calls = (rounds * by_hand.len()) as f64;
    let mut left = [Stored::new(which, 0), Stored::new(which, 0)];
    let mut least = [f64::MAX; 2];
    for _ in 0..effort.sweeps {
        left = [Stored::new(which, 0), Stored::new(which, 0)];
        left.iter_mut().for_each(|stored| stored.pass(&fresh.octets, 1));
        let (spent, commits) = left[0].dispatch(rounds);
        assert_eq!(commits, 8 * rounds as u64, "all are granted in the first round");
        least = [least[0].min(spent / calls), least[1].min(left[1].run(&Script::default(), &by_hand, rounds) / calls)];
    }
    assert!(left[0].lent == left[1].lent, "the dispatcher leaves what its calls leave");
    assert_eq!(left[0].committed(), left[1].committed(), "the dispatcher commits what its calls commit");
    least
}

/// Nanoseconds for a copy of n bytes between two buffers in the nearest cache: the least of eight distances, so that no unlucky one counts.
pub fn memcpy(n: usize, effort: &Effort) -> f64 {
    use std::hint::black_box;
    let source = Placed::zeros(n, 0);
    let times = 20_000;
    let copies = |target: &mut Placed| {
        let start = std::time::Instant::now();
        for _ in 0..times {
            black_box(&mut target[..]).copy_from_slice(black_box(&source[..]));
        }
        start.elapsed().as_nanos() as f64 / times as f64
    };
    let mut targets: Vec<Placed> = (1..9).map(|i| Placed::zeros(n, 448 * i)).collect();
    least(effort.sweeps, || targets.iter_mut().map(copies).fold(f64::MAX, f64::min))
}
