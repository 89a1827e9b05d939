//! What stands above the lanes: title, counts, the list of refusals, and how often each came.

use std::fmt::{self, Write};

use super::html::{escaped, write_pieces};
use super::model::{Page, Row, Sign};
use crate::refusals::name_of_number;
use crate::summary::Summary;

/// A longer list of refusals is folded.
const UNFOLDED: usize = 12;
/// Only a log has such.
const FRESH: &str = "ended by Fresh";

pub fn write(out: &mut String, page: &Page) -> fmt::Result {
    writeln!(out, "<header>\n<h1>{}</h1>", escaped(&page.title))?;
    if page.rows.is_empty() {
        return writeln!(out, "</header>\n<p class=\"empty\">The trace is empty: it has no line.</p>");
    }
    writeln!(out, "<p class=\"sub\">{}</p>", extent(page))?;
    write_counts(out, &page.counts)?;
    write_differences(out, page)?;
    write_refusals(out, page)?;
    write_tables(out, &page.counts)?;
    writeln!(
        out,
        "<p class=\"keys\" hidden><kbd>n</kbd> <kbd>p</kbd> next and previous refusal · <kbd>↓</kbd> <kbd>↑</kbd> line · \
         <kbd>Enter</kbd> to the cause · <kbd>Backspace</kbd> back</p>\n</header>"
    )
}

fn extent(page: &Page) -> String {
    let all = page.counts.lines;
    let whole = if all == 1 { "1 line".to_string() } else { format!("{} lines", grouped(all)) };
    if !page.is_part() {
        return whole;
    }
    format!("Lines {} to {} of {whole}; the counts are those of all lines.", page.first(), page.last())
}

/// A number with a comma between each three digits.
pub fn grouped(number: u64) -> String {
    let digits = number.to_string();
    let mut out = String::new();
    for (place, digit) in digits.chars().enumerate() {
        if place > 0 && (digits.len() - place) % 3 == 0 {
            out.push(',');
        }
        out.push(digit);
    }
    out
}

/// How many transactions ended in which way, each in the style of its box.
fn write_counts(out: &mut String, counts: &Summary) -> fmt::Result {
    let ends = [
        ("granted", "✓", counts.granted, "granted"),
        ("stale", "✗", counts.stale, "stale"),
        ("aborted", "–", counts.aborted, "aborted"),
        ("aborted", "–", counts.fresh, FRESH),
        ("open", "…", counts.open, "still open"),
    ];
    write!(out, "<ul class=\"counts\" aria-label=\"{} transactions\">", counts.transactions())?;
    for (class, sign, count, word) in ends.into_iter().filter(|end| end.3 != FRESH || end.2 > 0) {
        write!(out, "<li class=\"{class}\">{sign} <b>{}</b> {word}</li>", grouped(count))?;
    }
    writeln!(out, "</ul>")
}

/// Answers of a log that the replay does not give.
fn write_differences(out: &mut String, page: &Page) -> fmt::Result {
    let mut different = page.rows.iter().filter(|row| row.sign == Sign::Differs);
    let Some(Row { line, .. }) = different.next() else { return Ok(()) };
    let count = 1 + different.count();
    let noun = if count == 1 { "answer of the log differs" } else { "answers of the log differ" };
    writeln!(out, "<p class=\"no\"><em>✗ {count} {noun}, the first at <a href=\"#L{line}\">line {line}</a></em></p>")
}

fn write_refusals(out: &mut String, page: &Page) -> fmt::Result {
    let count = page.refused().count();
    if count == 0 {
        return writeln!(out, "<p>No line was refused.</p>");
    }
    let open = if count <= UNFOLDED { " open" } else { "" };
    let noun = if count == 1 { "refusal" } else { "refusals" };
    writeln!(out, "<details{open}><summary>{} {noun}</summary>\n<ol class=\"list\">", grouped(count as u64))?;
    for row in page.refused() {
        write_refusal(out, row, page)?;
    }
    writeln!(out, "</ol></details>")
}

fn write_refusal(out: &mut String, row: &Row, page: &Page) -> fmt::Result {
    let Sign::Refused(number) = row.sign else { return Ok(()) };
    let (line, name) = (row.line, name_of_number(number));
    write!(out, "<li><a href=\"#L{line}\">line {line}</a><code>{}</code>", escaped(&row.source))?;
    write!(out, "<em>{number} {name}</em><div>")?;
    for (place, note) in row.notes.iter().enumerate() {
        if place > 0 {
            write!(out, "<br>")?;
        }
        write_pieces(out, note, page)?;
    }
    writeln!(out, "</div></li>")
}

fn write_tables(out: &mut String, counts: &Summary) -> fmt::Result {
    if counts.refusals() == 0 {
        return Ok(());
    }
    writeln!(out, "<details><summary>How often</summary><div class=\"tables\">")?;
    writeln!(out, "<table><caption>Refusals</caption>")?;
    for (number, &count) in counts.refused.iter().enumerate().filter(|(_, &count)| count > 0) {
        let name = name_of_number(number);
        writeln!(out, "<tr><th scope=\"row\">{number} {name}</th><td>{}</td></tr>", grouped(count))?;
    }
    writeln!(out, "</table>")?;
    if counts.made_stale.iter().flatten().any(|&count| count > 0) {
        write_made_stale(out, counts)?;
    }
    writeln!(out, "</div></details>")
}

/// Who made whom stale: a row for each that did, a column for each that became so.
fn write_made_stale(out: &mut String, counts: &Summary) -> fmt::Result {
    let is_reader = |reader: &usize| counts.made_stale.iter().any(|row| row[*reader] > 0);
    let readers: Vec<usize> = (0..8).filter(is_reader).collect();
    write!(out, "<table><caption>Who made whom stale</caption><tr><td></td>")?;
    for reader in &readers {
        write!(out, "<th scope=\"col\">{reader} stale</th>")?;
    }
    writeln!(out, "</tr>")?;
    for (setter, row) in counts.made_stale.iter().enumerate().filter(|(_, row)| row.iter().any(|&count| count > 0)) {
        write!(out, "<tr><th scope=\"row\">by {setter}</th>")?;
        for &reader in &readers {
            write!(out, "<td>{}</td>", if row[reader] > 0 { grouped(row[reader]) } else { "·".to_string() })?;
        }
        writeln!(out, "</tr>")?;
    }
    writeln!(out, "</table>")
}

#[cfg(test)]
mod tests {
    use super::*;

    #[test]
    fn digits_are_grouped() {
        let shown = [0, 999, 1000, 10_000, 1_234_567].map(grouped);
        assert_eq!(shown, ["0", "999", "1,000", "10,000", "1,234,567"]);
    }
}
