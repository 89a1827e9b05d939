//! Keys, and the lines that they lead to.

use crate::pages::Page;

pub type Steps = Vec<(&'static str, u64)>;

/// How many refusals a tour visits.
const REFUSALS: usize = 6;

pub fn of_the_sample() -> Steps {
    let steps = "n 14, Enter 13, Enter 9, Backspace 13, Backspace 14, n 31, n 32, Enter 30, ArrowDown 31, ArrowUp 30, \
        ArrowUp 29, p 14, p 14, n 31, n 32, n 38, n 39, n 39, ArrowDown 39, Enter 39, Backspace 32";
    let step = |step: &'static str| step.split_once(' ').expect("a key and a line");
    steps.split(", ").map(step).map(|(key, line)| (key, line.parse().expect("a line"))).collect()
}

/// From refusal to refusal, from each to its cause and back, a line up and down, and then all the way back.
pub fn tour(page: &Page) -> Steps {
    let mut steps = Steps::new();
    let cause = |line: u64| page.causes.iter().find(|(from, _)| *from == line).map(|(_, cause)| *cause);
    let visited = &page.refused[..page.refused.len().min(REFUSALS)];
    for &line in visited {
        steps.push(("n", line));
        if let Some(commit) = cause(line) {
            let sighting = cause(commit).expect("it made a transaction stale");
            steps.extend([("Enter", commit), ("Enter", sighting), ("Backspace", commit), ("Backspace", line)]);
        } else {
            steps.push(("Enter", line));
        }
        steps.extend([("ArrowUp", line - 1), ("ArrowDown", line)]);
    }
    steps.extend(visited.iter().rev().skip(1).map(|&line| ("p", line)));
    steps
}
