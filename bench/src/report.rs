//! What is printed: tables in markdown on standard output, progress on standard error, and at the end every target with what was seen.

use std::process::ExitCode;

/// How wide a row may be.
const COLUMNS: usize = 160;

struct Target {
    what: String,
    seen: String,
    met: bool,
}

#[derive(Default)]
pub struct Report {
    targets: Vec<Target>,
}

/// The head of a table: its title, and the names of its columns.
pub fn head(title: &str, columns: &[&str]) {
    println!("\n### {title}\n");
    row(columns);
    println!("|{}", "---|".repeat(columns.len()));
}

pub fn row<S: AsRef<str>>(cells: &[S]) {
    let cells: Vec<&str> = cells.iter().map(AsRef::as_ref).collect();
    let line = format!("| {} |", cells.join(" | "));
    assert!(line.chars().count() <= COLUMNS, "a row is too wide: {line}");
    println!("{line}");
}

/// A figure beside what it is compared with: four columns.
pub fn compared(figure: &str, proved: &str, other: &str, ratio: f64) {
    row(&[figure, proved, other, &format!("{ratio:.2}")]);
}

/// Says on standard error how far a measurement is, at each quarter.
pub fn progress(what: &str, done: usize, all: usize) {
    let quarter = |n: usize| 4 * n / all.max(1);
    if done == 0 || quarter(done) > quarter(done - 1) {
        eprintln!("bench: {what}: {done} of {all}");
    }
}

/// 1234567 as 1,234,567.
pub fn grouped(number: f64) -> String {
    let digits = format!("{:.0}", number.abs());
    let mut out = String::from(if number <= -0.5 { "-" } else { "" });
    for (i, digit) in digits.chars().enumerate() {
        if i > 0 && (digits.len() - i).is_multiple_of(3) {
            out.push(',');
        }
        out.push(digit);
    }
    out
}

impl Report {
    pub fn target(&mut self, what: &str, seen: String, met: bool) {
        self.targets.push(Target { what: what.to_string(), seen, met });
    }

    pub fn at_most(&mut self, what: &str, seen: f64, bound: f64) {
        self.target(&format!("{what}: at most {bound}"), format!("{seen:.2}"), seen <= bound);
    }

    pub fn at_least(&mut self, what: &str, seen: f64, bound: f64) {
        self.target(&format!("{what}: at least {bound}"), format!("{seen:.2}"), seen >= bound);
    }

    /// All targets, and whether they are met, which the status says too.
    pub fn close(&self) -> ExitCode {
        head("Targets", &["Target", "Seen", "Met"]);
        for Target { what, seen, met } in &self.targets {
            row(&[what.as_str(), seen.as_str(), if *met { "met" } else { "NO" }]);
        }
        let missed = self.targets.iter().filter(|target| !target.met).count();
        println!();
        if missed == 0 {
            println!("All {} targets are met.", self.targets.len());
            return ExitCode::SUCCESS;
        }
        println!("{missed} of {} targets are NOT met.", self.targets.len());
        ExitCode::FAILURE
    }
}
