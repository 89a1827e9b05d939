//! Tables in markdown: the proved store against the imperative twin, the same store by hand in C, memcpy, and other stores on a day on
//! air; its cost by age; the program `trace` beside the twin's; and every target with what was seen. The status is 0 where all are met.
//!
//!     bench            the full measurement, some minutes
//!     bench --short    a trial of everything, some seconds: its figures mean little
//!     bench --only WHICH ROUNDS CASE R     one case alone, for a profiler: WHICH is proved, twin or c, CASE counts from 0
//!     bench --day WHICH DAYS               days on air alone, for a profiler
//!     bench --agree SCRIPTS                the comparison of the three stores alone

mod agree;
mod air;
mod calls;
mod day;
mod ffi;
#[cfg(feature = "lmdb")]
mod lmdb;
mod peers;
mod placed;
mod plain;
mod report;
#[cfg(feature = "rocksdb")]
mod rocksdb;
mod script;
#[cfg(feature = "sqlite")]
mod sqlite;
mod stores;
mod traces;

use calls::{Case, Cost};
use report::{compared, grouped, head, row, Report};
use script::Script;
use std::process::{Command, ExitCode};
use stores::{Stored, Which};

/// How long to measure.
pub struct Effort {
    /// How many random scripts are compared before.
    scripts: usize,
    /// How often everything is run; the least time counts.
    pub sweeps: usize,
    pub nanoseconds: f64,
    pub ticks: usize,
    pub day_nanoseconds: f64,
    rounds_by_age: usize,
    trace_lines: u64,
}

const FULL: Effort = Effort {
    scripts: 2_000,
    sweeps: 40,
    nanoseconds: 2e6,
    ticks: 60_000,
    day_nanoseconds: 1e8,
    rounds_by_age: 10_000,
    trace_lines: 1_000_000,
};
const SHORT: Effort = Effort {
    scripts: 10,
    sweeps: 3,
    nanoseconds: 3e5,
    ticks: 6_000,
    day_nanoseconds: 5e6,
    rounds_by_age: 300,
    trace_lines: 100_000,
};

fn nanoseconds(number: f64) -> String {
    format!("{} ns", grouped(number))
}

fn median(mut numbers: Vec<f64>) -> f64 {
    numbers.sort_by(f64::total_cmp);
    (numbers[(numbers.len() - 1) / 2] + numbers[numbers.len() / 2]) / 2.0
}

const COUNTS: [usize; 3] = [0, 8, 64];

/// The calls, and the calls that are seldom, dear or refused.
fn table_of_calls(effort: &Effort, report: &mut Report) {
    let common: Vec<Case> = COUNTS.into_iter().flat_map(calls::cases).collect();
    let count = common.len();
    let mut cases = common;
    cases.extend(calls::seeks());
    cases.extend(COUNTS.into_iter().flat_map(calls::held));
    cases.extend(calls::places());
    cases.extend(calls::windows());
    cases.extend(calls::refused());
    cases.extend(calls::worst());
    let rows = cases.len();
    cases.extend(calls::sized(4096));
    cases.extend(calls::sized(0));
    let costs = calls::measure(&cases, effort);
    let columns = ["Call", "Beside", "Proved store", "Twin", "Of the twin's", "By hand in C", "Of C's"];
    head(&format!("Calls: the {count} rows of the median"), &columns);
    for (i, (case, cost)) in cases.iter().zip(&costs[..rows]).enumerate() {
        if i == count {
            head("Calls that are seldom, dear or refused", &columns);
        }
        row_of_call(case, cost);
    }
    targets_of_calls(&cases[..rows], &costs[..rows], report);
    let ratios = costs[..count].iter().map(Cost::ratio).collect();
    report.at_most(&format!("the median of the first {count} rows beside the twin"), median(ratios), 0.66);
    report.at_most("Seek with eight open beside the twin", costs[0].ratio(), 0.4);
    table_of_copies(&costs[rows..], effort, report);
}

/// The rows that the twin is quicker in, or nearly so, are named.
fn targets_of_calls(cases: &[Case], costs: &[Cost], report: &mut Report) {
    const BOUND: f64 = 0.9;
    let worst = costs.iter().map(Cost::ratio).fold(0.0, f64::max);
    report.at_most(&format!("each of {} rows beside the twin", costs.len()), worst, BOUND);
    println!();
    for (case, cost) in cases.iter().zip(costs).filter(|(_, cost)| cost.ratio() > BOUND) {
        println!("- Above {BOUND} of the twin's: {}; {}: {:.2}.", case.name, case.beside, cost.ratio());
    }
}

fn row_of_call(case: &Case, cost: &Cost) {
    let ratio = |other: f64| format!("{:.2}", cost.proved / other);
    let [proved, twin, c] = [cost.proved, cost.twin, cost.c].map(nanoseconds);
    row(&[&case.name, &case.beside, &proved, &twin, &ratio(cost.twin), &c, &ratio(cost.c)]);
}

/// Read and Write of 4,096 bytes against memcpy and the same call with 0 bytes.
fn table_of_copies(sized: &[Cost], effort: &Effort, report: &mut Report) {
    head("Copies", &["Figure", "Store", "Compared with", "Ratio"]);
    let memcpy = calls::memcpy(4096, effort);
    for (i, name) in ["Read", "Write"].into_iter().enumerate() {
        let (whole, fixed) = (sized[i], sized[i + 2]);
        let stores =
            [("proved", whole.proved, fixed.proved), ("twin", whole.twin, fixed.twin), ("C", whole.c, fixed.c)];
        for (whose, whole, fixed) in stores {
            let ratio = whole / (memcpy + fixed);
            let figure = format!("{name} of 4,096 bytes, {whose}; 8 open, 0 records each");
            let other = format!("memcpy {} + {name} of 0 bytes {}", nanoseconds(memcpy), nanoseconds(fixed));
            compared(&figure, &nanoseconds(whole), &other, ratio);
            if whose == "proved" {
                report.at_most(&format!("{name} of 4,096 bytes beside memcpy and {name} of 0 bytes"), ratio, 1.5);
            }
        }
    }
}

/// What is made of calls: the dispatcher and the best order.
fn table_of_many(effort: &Effort, report: &mut Report) {
    head("Dispatcher and best order", &["Figure", "Proved store", "Compared with", "Ratio"]);
    let [proved, by_hand] = calls::dispatch(Which::Proved, effort);
    let [twin, _] = calls::dispatch(Which::Twin, effort);
    let figure = "Eight scripts of four calls by the dispatcher, a call";
    compared(
        figure,
        &nanoseconds(proved),
        &format!("the same calls by hand {}", nanoseconds(by_hand)),
        proved / by_hand,
    );
    compared("", "", &format!("the twin's dispatcher {}", nanoseconds(twin)), proved / twin);
    report.at_most("dispatcher beside the same calls by hand", proved / by_hand, 1.3);
    let orders = calls::all_orders(Which::Proved, 4, effort.sweeps.min(10));
    let twin = calls::all_orders(Which::Twin, 1, effort.sweeps.min(2));
    let other = format!("twin, each order committed on copies, {twin:.1} ms");
    compared("The best of all 40,320 orders of eight", &format!("{orders:.2} ms"), &other, orders / twin);
    report.at_most("all 40,320 orders, milliseconds", orders, 3.3);
}

/// A thousand commits a round, the log rewound five times.
fn by_age(rounds: usize) -> Vec<i64> {
    let append = |s: Script| s.begin(0).write(0, 0, 16).commit(0);
    let stretch = |s: Script| append(s.begin(0).seek(0, 0, 0).write(0, 0, 16).commit(0)).times(198, append);
    let body = Script::default().times(5, stretch);
    let mut stored = Stored::new(Which::Proved, body.len());
    let mut stamps = vec![0; rounds + 1];
    stored.pass(&Script::default().fresh().octets, 1);
    stored.pass_stamped(&body.octets, &mut stamps);
    assert!(stored.lent.said.iter().all(|&code| code < 10), "a commit was refused");
    stamps
}

/// The quickest of some stretches counts: what else the machine does only adds to a stretch.
fn table_of_ages(effort: &Effort, report: &mut Report) {
    let rounds = effort.rounds_by_age;
    eprintln!("bench: {} commits on one store", grouped(1e3 * rounds as f64));
    let stamps = by_age(rounds);
    let stretch = |i: usize| (stamps[100 * i + 100] - stamps[100 * i]) as f64 * 1000.0 / 100_000.0;
    let stretches: Vec<f64> = (0..rounds / 100).map(stretch).collect();
    let some = stretches.len().div_ceil(10);
    let quickest = |part: &[f64]| part.iter().copied().fold(f64::MAX, f64::min);
    let (first, last) = (quickest(&stretches[..some]), quickest(&stretches[stretches.len() - some..]));
    let most = stretches.iter().copied().fold(0.0, f64::max);
    head("Age", &["Figure", "Last", "First", "Ratio"]);
    let figure =
        format!("Begin, Write, Commit: {} commits, the quickest 100,000 of a tenth", grouped(1e3 * rounds as f64));
    let said = format!("{} (the slowest of all: {})", nanoseconds(first), nanoseconds(most));
    compared(&figure, &nanoseconds(last), &said, last / first);
    report.at_most("cost flat in age: the last tenth beside the first", last / first, 1.1);
}

fn table_of_traces(effort: &Effort, report: &mut Report) {
    let rates = traces::measure(effort.trace_lines, effort.sweeps.min(15))
        .expect("the programs run, and target/ can be written");
    let said = |rate: f64| format!("{} lines/s", grouped(rate));
    head("Traces", &["Figure", "Proved store", "Compared with", "Ratio"]);
    let figure = format!("A trace of {} lines", grouped(effort.trace_lines as f64));
    let ratio = rates.proved / rates.twin;
    compared(&figure, &said(rates.proved), &format!("twin {}", said(rates.twin)), ratio);
    report.at_least("lines a second of a trace beside the twin's", ratio, 0.8);
    if let Some(replay) = rates.replay {
        let ratio = replay / rates.proved;
        compared(
            "The same lines by the program replay",
            &said(replay),
            &format!("trace {}", said(rates.proved)),
            ratio,
        );
        report.at_least("lines a second of replay beside trace", ratio, 0.8);
    }
}

/// The first line that a program prints about itself.
fn version(words: &[&str]) -> String {
    let output = Command::new(words[0]).args(&words[1..]).output();
    let text = output.map(|output| String::from_utf8_lossy(&output.stdout).into_owned()).unwrap_or_default();
    text.lines().next().unwrap_or("not here").to_string()
}

fn processor() -> String {
    let text = std::fs::read_to_string("/proc/cpuinfo").unwrap_or_default();
    let models: Vec<&str> = text.lines().filter(|line| line.starts_with("model name")).collect();
    let model = models.first().and_then(|line| line.split(": ").nth(1)).unwrap_or("unknown");
    format!("{model}, {} processors", models.len())
}

fn load() -> String {
    std::fs::read_to_string("/proc/loadavg").unwrap_or_default().split(' ').take(3).collect::<Vec<_>>().join(" ")
}

fn peers_versions() -> String {
    #[allow(unused_mut)]
    let mut all: Vec<String> = Vec::new();
    #[cfg(feature = "sqlite")]
    all.push(format!("SQLite {}", sqlite::version()));
    #[cfg(feature = "lmdb")]
    all.push(format!("LMDB {}", lmdb::version()));
    #[cfg(feature = "rocksdb")]
    all.push(format!("RocksDB {}", rocksdb::version()));
    all.join(", ")
}

fn environment() {
    println!("- Processor: {}. Load averages before: {}.", processor(), load());
    println!(
        "- {}; {}; {}.",
        version(&["rustc", "--version"]),
        version(&["gcc", "--version"]),
        version(&["rt", "version"])
    );
    println!("- Peers: {}.", peers_versions());
}

fn tables(effort: &Effort) -> ExitCode {
    let mut report = Report::default();
    environment();
    let met = agree::check(effort.scripts);
    println!(
        "- Compared before, call by call: {} calls on all three stores; {met} different outcomes.",
        grouped(301.0 * effort.scripts as f64)
    );
    table_of_calls(effort, &mut report);
    table_of_many(effort, &mut report);
    air::table(effort, &mut report);
    table_of_ages(effort, &mut report);
    table_of_traces(effort, &mut report);
    println!("\nLoad averages after: {}.", load());
    report.close()
}

fn main() -> ExitCode {
    let words: Vec<String> = std::env::args().skip(1).collect();
    let number = |i: usize| words[i].parse::<usize>().expect("a number");
    match words.first().map(String::as_str) {
        Some("--only") => {
            let case = &calls::cases(number(4))[number(3)];
            println!("{}: {:.0} ns in all", case.name, case.run(Which::named(&words[1]), true, number(2)));
        }
        Some("--day") => air::days_only(Which::named(&words[1]), SHORT.ticks, number(2)),
        Some("--agree") => println!("{} different outcomes", agree::check(number(1))),
        Some("--short") => return tables(&SHORT),
        _ => return tables(&FULL),
    }
    ExitCode::SUCCESS
}
