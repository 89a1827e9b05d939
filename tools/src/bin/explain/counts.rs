//! The counts at the end (`--summary`).

use std::io::Write;

use tools::refusals::name_of_number;
use tools::text::counted;
use tools::Summary;

pub fn push(out: &mut Vec<u8>, summary: &Summary) {
    push_line(out, &format!("{}, {} refused", counted(summary.lines, "line"), summary.refusals()));
    push_line(out, &transactions(summary));
    for (number, &count) in summary.refused.iter().enumerate().filter(|(_, &count)| count > 0) {
        push_line(out, &format!("{number:6}  {:24} {count}", name_of_number(number)));
    }
    if summary.made_stale.iter().flatten().any(|&count| count > 0) {
        push_table(out, summary);
    }
}

fn transactions(summary: &Summary) -> String {
    let Summary { granted, stale, aborted, fresh, open, undone, .. } = summary;
    let all = counted(summary.transactions(), "transaction");
    let mut text = format!("{all}: {granted} granted, {stale} stale, {aborted} aborted, {open} open");
    if *fresh > 0 {
        text += &format!(", {fresh} ended by Fresh");
    }
    if *undone > 0 {
        text += &format!("; {} taken back", counted(*undone, "grant"));
    }
    text
}

/// A row for each transaction that made one stale, a column for each that was made so.
fn push_table(out: &mut Vec<u8>, summary: &Summary) {
    let table = &summary.made_stale;
    let width = table.iter().flatten().max().map_or(0, |most| most.to_string().len()).max(2) + 2;
    let row = |head: &str, cells: &mut dyn Iterator<Item = String>| {
        let cells: String = cells.map(|cell| format!("{cell:>width$}")).collect();
        format!("{head:>6}{cells}")
    };
    push_line(out, "who made whom stale:");
    push_line(out, &row("whom", &mut (0..table.len()).map(|whom| whom.to_string())));
    for (who, counts) in table.iter().enumerate().filter(|(_, counts)| counts.iter().any(|&count| count > 0)) {
        let cell = |&count: &u64| if count == 0 { "-".to_string() } else { count.to_string() };
        push_line(out, &row(&who.to_string(), &mut counts.iter().map(cell)));
    }
}

fn push_line(out: &mut Vec<u8>, text: &str) {
    writeln!(out, "{text}").expect("memory is written");
}
