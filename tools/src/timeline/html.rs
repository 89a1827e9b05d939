//! The page as HTML. Text reaches it only through [`escaped`]; there is no style attribute, so that the policy names the one
//! style and the one script by their hashes and allows nothing else.

use std::fmt::{self, Write};

use super::hash;
use super::head;
use super::layout::{self, Layout};
use super::model::{Arrow, End, Note, Page, Piece, Place, Row, Sign, Span};
use crate::refusals::name_of_number;

const STYLE: &str = include_str!("page.css");
const SCRIPT: &str = include_str!("page.js");

/// So many rows are one list: the browser lays out and paints only the lists that are in sight.
const CHUNK: usize = 100;

/// Around a printed page.
const PRINT_MARGIN: u64 = 38;

/// Text for an element or an attribute in quotes. Control characters have no place in a page.
pub struct Escaped<'a>(&'a str);

pub fn escaped(text: &str) -> Escaped<'_> {
    Escaped(text)
}

impl fmt::Display for Escaped<'_> {
    fn fmt(&self, f: &mut fmt::Formatter) -> fmt::Result {
        for character in self.0.chars() {
            match character {
                '&' => f.write_str("&amp;")?,
                '<' => f.write_str("&lt;")?,
                '>' => f.write_str("&gt;")?,
                '"' => f.write_str("&quot;")?,
                '\'' => f.write_str("&#39;")?,
                control if control.is_control() || is_turning(control) => f.write_char('\u{fffd}')?,
                other => f.write_char(other)?,
            }
        }
        Ok(())
    }
}

/// Does a character turn the direction of writing?
fn is_turning(character: char) -> bool {
    matches!(character, '\u{61c}' | '\u{200e}' | '\u{200f}' | '\u{202a}'..='\u{202e}' | '\u{2066}'..='\u{2069}')
}

pub fn page(page: &Page) -> String {
    let layout = Layout::new(page);
    let style = format!("{STYLE}{}", own_style(page, &layout));
    let mut out = String::with_capacity(4096 + 320 * page.rows.len());
    let written = write_page(&mut out, page, &layout, &style);
    written.expect("a string takes everything");
    out
}

fn write_page(out: &mut String, page: &Page, layout: &Layout, style: &str) -> fmt::Result {
    let (allowed_style, allowed_script) = (hash::source(style), hash::source(SCRIPT));
    writeln!(out, "<!doctype html>\n<html lang=\"en\">\n<head>\n<meta charset=\"utf-8\">")?;
    writeln!(
        out,
        "<meta http-equiv=\"Content-Security-Policy\" content=\"default-src 'none'; style-src {allowed_style}; \
         script-src {allowed_script}; base-uri 'none'; form-action 'none'\">"
    )?;
    writeln!(out, "<meta name=\"viewport\" content=\"width=device-width\">\n<title>{}</title>", escaped(&page.title))?;
    writeln!(out, "<style>{style}</style>\n</head>\n<body>")?;
    head::write(out, page)?;
    if !page.rows.is_empty() {
        write_lane_names(out, layout)?;
        write_field(out, page, layout)?;
    }
    writeln!(out, "<script>{SCRIPT}</script>\n</body>\n</html>")
}

/// The places of lanes, rows and boxes, and the printed page.
fn own_style(page: &Page, layout: &Layout) -> String {
    let mut out = String::new();
    let written = write_sizes(&mut out, page, layout)
        .and_then(|()| write_lane_rules(&mut out, layout))
        .and_then(|()| write_box_rules(&mut out, page, layout));
    written.expect("a string takes everything");
    out + &print_page(layout) + "\n"
}

fn write_sizes(out: &mut String, page: &Page, layout: &Layout) -> fmt::Result {
    write!(out, ":root{{--fit:{}px}}", layout.box_width() - 14)?;
    write!(out, "#heads,#field{{min-width:{}px}}#field{{height:{}px}}", layout.width(), layout.height())?;
    write!(out, ".box{{width:{}px}}", layout.box_width())?;
    write!(out, "#rows b{{font-size:{:.1}px}}", number_size(page.last()))?;
    let last = page.rows.chunks(CHUNK).last().map_or(0, <[Row]>::len);
    write!(out, "#rows ol{{contain-intrinsic-height:{}px}}", layout::ROW * CHUNK as u64)?;
    write!(out, "#rows ol:last-child{{contain-intrinsic-height:{}px}}", layout::ROW * last as u64)
}

fn write_lane_rules(out: &mut String, layout: &Layout) -> fmt::Result {
    for &lane in &layout.lanes {
        let left = layout.left(lane);
        write!(out, ".box.t{lane},#heads .t{lane}{{left:{left}px}}")?;
        write!(out, "#rows .t{lane}>a>i{{flex-basis:{}px}}", left + 9 - layout::GUTTER)?;
    }
    Ok(())
}

fn write_box_rules(out: &mut String, page: &Page, layout: &Layout) -> fmt::Result {
    for (number, span) in shown_spans(page, layout) {
        let place = layout.place(span);
        write!(out, "#b{number}{{top:{}px;height:{}px}}", place.top, place.height)?;
        if let Some(bar) = place.bar {
            write!(out, "#b{number}>.bar{{top:{bar}px}}")?;
        }
    }
    Ok(())
}

/// The size of line numbers: long ones are small, so that their column stays narrow.
fn number_size(last: u64) -> f64 {
    (65.0 / last.to_string().len() as f64).min(13.0)
}

/// A printed page as wide as the lanes, in the form of A4 across. It has a whole number of rows: else rows, which do not break,
/// would move away from their boxes.
fn print_page(layout: &Layout) -> String {
    let width = layout.width().max(1000) + 2 * PRINT_MARGIN;
    let height = width * 1000 / 1414;
    let rows = (height - 2 * PRINT_MARGIN) / layout::ROW;
    let below = height - PRINT_MARGIN - layout::ROW * rows;
    format!("@page{{size:{width}px {height}px;margin:{PRINT_MARGIN}px {PRINT_MARGIN}px {below}px}}")
}

fn shown_spans<'a>(page: &'a Page, layout: &'a Layout) -> impl Iterator<Item = (usize, &'a Span)> {
    page.spans.iter().enumerate().filter(|(_, span)| layout.shows(span))
}

fn write_lane_names(out: &mut String, layout: &Layout) -> fmt::Result {
    write!(out, "<div id=\"heads\"><b>line</b>")?;
    for lane in &layout.lanes {
        write!(out, "<b class=\"t{lane}\">transaction {lane}</b>")?;
    }
    writeln!(out, "</div>")
}

fn write_field(out: &mut String, page: &Page, layout: &Layout) -> fmt::Result {
    writeln!(out, "<main id=\"field\">")?;
    for (number, span) in shown_spans(page, layout) {
        write_box(out, number, span, layout)?;
    }
    writeln!(out, "\n<svg id=\"arrows\" aria-hidden=\"true\">")?;
    for arrow in page.arrows.iter().filter(|arrow| is_drawn(page, arrow) && !layout::is_far(arrow)) {
        write_arrow(out, arrow, layout)?;
    }
    writeln!(out, "</svg>")?;
    write_rows(out, page, layout)?;
    writeln!(out, "</main>")
}

fn write_rows(out: &mut String, page: &Page, layout: &Layout) -> fmt::Result {
    let far = far_arrows(page);
    writeln!(out, "<div id=\"rows\">")?;
    for rows in page.rows.chunks(CHUNK) {
        writeln!(out, "<ol start=\"{}\">", rows[0].line)?;
        for row in rows {
            write_row(out, row, page, layout, &far)?;
        }
        writeln!(out, "</ol>")?;
    }
    writeln!(out, "</div>")
}

/// Are both ends on the page?
fn is_drawn(page: &Page, arrow: &Arrow) -> bool {
    page.has(arrow.commit) && page.has(arrow.sighting)
}

/// The arrows that are drawn only while one of their ends is selected, with each end, ascending.
fn far_arrows(page: &Page) -> Vec<(u64, &Arrow)> {
    let drawn = page.arrows.iter().filter(|arrow| is_drawn(page, arrow) && layout::is_far(arrow));
    let mut ends: Vec<(u64, &Arrow)> =
        drawn.flat_map(|arrow| [(arrow.commit, arrow), (arrow.sighting, arrow)]).collect();
    ends.sort_by_key(|(line, _)| *line);
    ends
}

fn end_class(end: End) -> &'static str {
    match end {
        End::Granted => "granted",
        End::Stale => "stale",
        End::Aborted => "aborted",
        End::Open => "open",
    }
}

fn write_box(out: &mut String, number: usize, span: &Span, layout: &Layout) -> fmt::Result {
    let place = layout.place(span);
    let above = if place.cut_above { " above" } else { "" };
    let below = if place.cut_below { " below" } else { "" };
    let class = end_class(span.end);
    write!(out, "<div id=\"b{number}\" class=\"box {class}{above}{below} t{}\">", span.transaction)?;
    if place.bar.is_some() {
        write!(out, "<div class=\"bar\"></div>")?;
    }
    match span.to {
        None => write!(out, "<span>… still open</span>")?,
        Some(to) if place.cut_below => write!(out, "<span>↓ ends at {to}</span>")?,
        Some(_) => {}
    }
    write!(out, "</div>")
}

fn write_arrow(out: &mut String, arrow: &Arrow, layout: &Layout) -> fmt::Result {
    let Arrow { commit, sighting, reader, .. } = arrow;
    let path = layout.path(arrow);
    writeln!(out, "<path data-from=\"{commit}\" data-to=\"{sighting}\" data-reader=\"{reader}\" d=\"{path}\"/>")
}

fn write_row(out: &mut String, row: &Row, page: &Page, layout: &Layout, far: &[(u64, &Arrow)]) -> fmt::Result {
    let line = row.line;
    write!(out, "<li id=\"L{line}\" class=\"{}\"", classes(row))?;
    if let Some(cause) = row.cause.filter(|&cause| page.has(cause)) {
        write!(out, " data-cause=\"{cause}\"")?;
    }
    if let (Some(commit), Place::Lane(lane)) = (row.stale_since, row.place) {
        write!(out, " data-stale=\"{commit}-{lane}\"")?;
    }
    write!(out, "><a href=\"#L{line}\"")?;
    if has_reasons(row) {
        write!(out, " aria-describedby=\"N{line}\"")?;
    }
    write!(out, "><b>{line}</b>")?;
    write_call(out, row)?;
    write!(out, "</a>")?;
    write_far(out, line, far, layout)?;
    write_note(out, row, page)?;
    writeln!(out, "</li>")
}

/// Does its note say more than what it sighted?
fn has_reasons(row: &Row) -> bool {
    matches!(row.sign, Sign::Refused(_) | Sign::Differs) || !row.made_stale.is_empty()
}

fn classes(row: &Row) -> String {
    let place = match row.place {
        Place::Lane(lane) => format!("t{lane}"),
        Place::Left => "left".to_string(),
        Place::Across => "across".to_string(),
    };
    let sign = match row.sign {
        Sign::None => "",
        Sign::Granted if row.made_stale.is_empty() => " ok",
        Sign::Granted => " ok wide",
        Sign::Refused(_) => " no",
        Sign::Differs => " differs",
    };
    let aside = if row.aside { " aside" } else { "" };
    let saw = if row.sighted { " saw" } else { "" };
    format!("{place}{sign}{aside}{saw}")
}

/// The call in words, for readers of the screen with the transaction before it.
fn write_call(out: &mut String, row: &Row) -> fmt::Result {
    match row.place {
        Place::Lane(lane) => write!(out, "<i>transaction {lane}: </i>")?,
        Place::Left | Place::Across => write!(out, "<i> </i>")?,
    }
    let eye = if row.sighted { "◉ " } else { "" };
    write!(out, "<span>{eye}{}</span>", escaped(&row.words))?;
    match &row.sign {
        Sign::None => Ok(()),
        Sign::Granted => write!(out, "<em>✓{}</em>", escaped(&made_stale(row))),
        Sign::Refused(number) => write!(out, "<em>✗ {number} {}</em>", name_of_number(*number)),
        Sign::Differs => write!(out, "<em>✗ differs</em>"),
    }
}

fn made_stale(row: &Row) -> String {
    if row.made_stale.is_empty() {
        return String::new();
    }
    let numbers: Vec<String> = row.made_stale.iter().map(usize::to_string).collect();
    format!(" makes {} stale", numbers.join(", "))
}

fn write_far(out: &mut String, line: u64, far: &[(u64, &Arrow)], layout: &Layout) -> fmt::Result {
    let start = far.partition_point(|(end, _)| *end < line);
    let own = far[start..].iter().take_while(|(end, _)| *end == line);
    let paths: Vec<String> = own.map(|(_, arrow)| format!("<path d=\"{}\"/>", layout.path(arrow))).collect();
    if paths.is_empty() {
        return Ok(());
    }
    write!(out, "<svg aria-hidden=\"true\">{}</svg>", paths.concat())
}

/// The line, its answer and its notes, for the lower edge of the window.
fn write_note(out: &mut String, row: &Row, page: &Page) -> fmt::Result {
    write!(out, "<div class=\"n\" id=\"N{}\"><p>{} <code>{}</code>", row.line, row.line, escaped(&row.source))?;
    match row.sign {
        Sign::Refused(number) => write!(out, "<em class=\"no\">{number} {}</em>", name_of_number(number))?,
        _ if row.answer.is_empty() => {}
        _ => write!(out, "<em>{}</em>", escaped(&row.answer))?,
    }
    write!(out, "</p>")?;
    for note in &row.notes {
        write!(out, "<p>")?;
        write_pieces(out, note, page)?;
        write!(out, "</p>")?;
    }
    write!(out, "</div>")
}

/// A line that is on the page is a link.
pub fn write_pieces(out: &mut String, note: &Note, page: &Page) -> fmt::Result {
    for piece in note {
        match piece {
            Piece::Text(text) => write!(out, "{}", escaped(text))?,
            Piece::Line(line) if page.has(*line) => write!(out, "<a href=\"#L{line}\">{line}</a>")?,
            Piece::Line(line) => write!(out, "{line}")?,
        }
    }
    Ok(())
}

#[cfg(test)]
mod tests {
    use super::*;

    fn empty() -> Page {
        Page {
            title: String::new(),
            rows: Vec::new(),
            spans: Vec::new(),
            arrows: Vec::new(),
            lanes: Vec::new(),
            counts: Default::default(),
        }
    }

    /// The policy's hashes are those of what stands between the tags.
    #[test]
    fn the_policy_names_style_and_script() {
        let text = page(&empty());
        let inner = |tag: &str| {
            let (_, rest) = text.split_once(&format!("<{tag}>")).expect("it starts");
            hash::source(rest.split_once(&format!("</{tag}>")).expect("it ends").0)
        };
        let policy = format!("style-src {}; script-src {};", inner("style"), inner("script"));
        assert!(text.contains(&policy), "{policy}");
    }

    #[test]
    fn characters() {
        assert_eq!(escaped("<a href=\"x\">&'").to_string(), "&lt;a href=&quot;x&quot;&gt;&amp;&#39;");
        assert_eq!(escaped("é✗\u{0}\u{1b}\u{202e}\u{85}").to_string(), "é✗\u{fffd}\u{fffd}\u{fffd}\u{fffd}");
    }

    #[test]
    fn sizes_of_line_numbers() {
        assert_eq!((number_size(0), number_size(99_999), number_size(9_999_999_999)), (13.0, 13.0, 6.5));
    }
}
