//! Where things stand on the page, in points.

use super::model::{Arrow, Page, Span};

pub const ROW: u64 = 22;
/// The column of line numbers.
pub const GUTTER: u64 = 56;
/// A window of 1,280 points without its scroll bar.
const WINDOW: u64 = 1265;
const WIDEST_LANE: u64 = 212;
/// Between a box and the lane right of it.
const GAP: u64 = 12;
/// Between a box and the next of its lane.
const BETWEEN: u64 = 2;
/// An arrow over more rows is drawn only while one of its ends is selected.
pub const FAR: u64 = 80;
/// Rows behind the last line, where open boxes run out.
pub const TAIL: u64 = 1;

pub struct Layout {
    pub lanes: Vec<usize>,
    pub lane: u64,
    first: u64,
    last: u64,
}

/// A box, with the edges that it has.
#[derive(Debug, PartialEq, Eq)]
pub struct Box {
    pub top: u64,
    pub height: u64,
    /// Did it begin before the page?
    pub cut_above: bool,
    /// Does it end after the page, or not at all?
    pub cut_below: bool,
    /// Where its bar starts, from the box's top.
    pub bar: Option<u64>,
}

impl Layout {
    pub fn new(page: &Page) -> Layout {
        let lanes = if page.lanes.is_empty() { vec![0] } else { page.lanes.clone() };
        let lane = WIDEST_LANE.min((WINDOW - GUTTER) / lanes.len() as u64);
        Layout { lanes, lane, first: page.first(), last: page.last() }
    }

    pub fn width(&self) -> u64 {
        GUTTER + self.lane * self.lanes.len() as u64
    }

    pub fn height(&self) -> u64 {
        ROW * (self.last + 1 - self.first + TAIL)
    }

    /// The left edge of a transaction's lane.
    pub fn left(&self, transaction: usize) -> u64 {
        let place = self.lanes.iter().position(|&lane| lane == transaction).unwrap_or(0);
        GUTTER + self.lane * place as u64
    }

    pub fn box_width(&self) -> u64 {
        self.lane - GAP
    }

    /// The upper edge of a line's row.
    fn top(&self, line: u64) -> u64 {
        ROW * (line - self.first)
    }

    fn middle(&self, line: u64) -> u64 {
        self.top(line) + ROW / 2
    }

    /// Is a part of it on the page?
    pub fn shows(&self, span: &Span) -> bool {
        span.from <= self.last && span.to.is_none_or(|to| to >= self.first)
    }

    pub fn place(&self, span: &Span) -> Box {
        let cut_above = span.from < self.first;
        let cut_below = span.to.is_none_or(|to| to > self.last);
        let top = if cut_above { 0 } else { self.top(span.from) };
        let bottom = match span.to {
            Some(to) if !cut_below => self.top(to) + ROW - BETWEEN,
            _ => self.height(),
        };
        let bar = span.stale_since.filter(|&line| line <= self.last).map(|line| {
            let from = if line < self.first { 0 } else { self.middle(line) };
            from.saturating_sub(top)
        });
        Box { top, height: bottom - top, cut_above, cut_below, bar }
    }

    /// The line of an arrow and its head, as a path.
    pub fn path(&self, arrow: &Arrow) -> String {
        let leftward = self.left(arrow.reader) < self.left(arrow.setter);
        let (start, end) = if leftward {
            (self.left(arrow.setter), self.left(arrow.reader) + self.box_width())
        } else {
            (self.left(arrow.setter) + self.box_width(), self.left(arrow.reader))
        };
        let (y, to) = (self.middle(arrow.commit), self.middle(arrow.sighting));
        let bend = (start + end) / 2;
        let back = if leftward { end + 6 } else { end - 6 };
        format!("M{start} {y}C{bend} {y} {bend} {to} {end} {to}M{back} {}L{end} {to}L{back} {}", to - 4, to + 4)
    }
}

/// Is it drawn only while one of its ends is selected?
pub fn is_far(arrow: &Arrow) -> bool {
    arrow.commit - arrow.sighting > FAR
}
