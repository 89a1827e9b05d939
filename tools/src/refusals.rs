//! The names of the refusals, as the guide's table has them.

use twin::call::Refusal;

const NAMES: [&str; 27] = [
    "BufferLength",
    "RecordRange",
    "NoSuchTransaction",
    "NotOpen",
    "AlreadyOpen",
    "NoSuchTarget",
    "ReaderTooShort",
    "SeekPastEnd",
    "WritePastEnd",
    "RecordsFull",
    "LogFull",
    "AppendPastEnd",
    "Stale",
    "NoSuchFile",
    "NoPlaceYet",
    "ListTooLong",
    "BadLine",
    "StaleReader",
    "NotAtRest",
    "ScriptRange",
    "FileClosed",
    "NoSuchMinute",
    "StillOpen",
    "NoGrant",
    "NotReady",
    "BadList",
    "BadBudget",
];

/// How many refusals there are; their numbers start at 1.
pub const REFUSALS: usize = NAMES.len();

pub fn name(refusal: Refusal) -> &'static str {
    name_of_number(refusal.number())
}

/// The name of a refusal by its number, 1 to 27.
pub fn name_of_number(number: usize) -> &'static str {
    NAMES[number - 1]
}

#[cfg(test)]
mod tests {
    use super::*;

    /// The rows `| 3 | `NoSuchTransaction` | .. |` of the guide's table.
    #[test]
    fn the_names_are_the_guides() {
        let guide = include_str!("../../docs/GUIDE.md");
        let row = |number: usize| format!("| {number} | `{}` |", name_of_number(number));
        for number in 1..=REFUSALS {
            assert!(guide.lines().any(|line| line.starts_with(&row(number))), "{number}");
        }
        assert!(!guide.lines().any(|line| line.starts_with(&format!("| {} |", REFUSALS + 1))));
    }
}
