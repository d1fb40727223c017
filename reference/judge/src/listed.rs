//! Request 12: the rows that a rendering state lists, and refusal 23.

use std::fmt;

use crate::{
    driver::Pen,
    refusal::{Refusal, refusal},
    rows::{self, Row},
};

/// How many rows a state lists at most.
pub const MOST_LISTED: usize = 256;

/// Numbers that stand for one row: three ways, each with parts that wrap and
/// that don't.
const FACTS: u64 = 6;

/// Which way a `Call` went; of any other row the first.
#[derive(Clone, Copy, Debug, PartialEq, Eq, PartialOrd, Ord)]
pub enum Way {
    /// Its arguments trail on the line of its callee.
    Trailing,
    /// A group is made up around both, on one line.
    MadeFlat,
    /// It is made up, and wraps.
    MadeWrapped,
}

impl Way {
    pub const ALL: [Way; 3] =
        [Way::Trailing, Way::MadeFlat, Way::MadeWrapped];
}

/// A row that encloses the next one.
#[derive(Clone, Copy, Debug, PartialEq, Eq)]
pub struct OpenRow {
    pub row: usize,
    /// Whether its parts wrap, of a `Call` those of the part that the next row
    /// is in.
    pub wraps: bool,
    pub way: Way,
}

impl OpenRow {
    pub fn number(self) -> u64 {
        let facts = 2 * self.way as u64 + u64::from(self.wraps);
        self.row as u64 * FACTS + facts
    }

    /// Every number is one row with its facts; a number over 2^32 - 1 is a
    /// row that no store has.
    pub fn from_number(number: u64) -> Self {
        let facts = number % FACTS;
        OpenRow {
            row: (number / FACTS) as usize,
            wraps: facts % 2 == 1,
            way: Way::ALL[(facts / 2) as usize],
        }
    }
}

/// The rows that enclose the next one, outermost first, as numbers. A state
/// that is handed in may have a count for which it has no places.
#[derive(Clone, Copy)]
pub struct Listed {
    pub count: usize,
    numbers: [u64; MOST_LISTED],
}

impl Default for Listed {
    fn default() -> Self {
        Listed {
            count: 0,
            numbers: [0; MOST_LISTED],
        }
    }
}

impl Listed {
    pub fn new(open: &[OpenRow]) -> Self {
        let numbers: Vec<u64> = open.iter().map(|o| o.number()).collect();
        Listed::of_numbers(open.len(), &numbers)
    }

    /// A count, and as many of these as there are places for.
    pub fn of_numbers(count: usize, numbers: &[u64]) -> Self {
        let mut listed = Listed {
            count,
            ..Listed::default()
        };
        for (place, number) in listed.numbers.iter_mut().zip(numbers) {
            *place = *number;
        }
        listed
    }

    /// The numbers that are listed, as far as there are places.
    pub fn numbers(&self) -> &[u64] {
        &self.numbers[..self.count.min(MOST_LISTED)]
    }

    pub fn rows(&self) -> Vec<OpenRow> {
        let numbers = self.numbers().iter();
        numbers
            .map(|number| OpenRow::from_number(*number))
            .collect()
    }

    /// From where 9 and 11 read: the first listed row or the next one, the
    /// earlier.
    pub fn reads_from(&self, next: usize) -> usize {
        let first = self.rows().first().map(|open| open.row);
        first.map_or(next, |first| first.min(next))
    }
}

impl PartialEq for Listed {
    fn eq(&self, other: &Self) -> bool {
        self.count == other.count && self.numbers() == other.numbers()
    }
}

impl Eq for Listed {}

impl fmt::Debug for Listed {
    fn fmt(&self, out: &mut fmt::Formatter) -> fmt::Result {
        if self.count > MOST_LISTED {
            write!(out, "{} listed: ", self.count)?;
        }
        let shown = |open: &OpenRow| {
            let OpenRow { row, wraps, way } = open;
            format!("{row} {way:?}{}", if *wraps { " wraps" } else { "" })
        };
        let rows: Vec<String> = self.rows().iter().map(shown).collect();
        write!(out, "{rows:?}")
    }
}

/// Why 23 refuses a list.
#[derive(Clone, Copy, Debug, PartialEq, Eq, PartialOrd, Ord)]
pub enum Cause {
    TooMany,
    /// Other rows than those that enclose the next one, from the first listed
    /// row on.
    OtherRows,
    /// Closing them would take `indent` under 0.
    Closing,
}

/// The rows from one on that enclose another, outermost first.
pub fn around(rows: &[Row], from: usize, next: usize) -> Vec<usize> {
    let ends_behind = |row: &usize| next < rows[*row].after as usize;
    (from..next).filter(ends_behind).collect()
}

/// What 23 finds wrong with what is listed; 11 saw to it that the rows are
/// whole, from the first listed one to the stop.
pub fn fault(
    rows: &[Row],
    listed: &Listed,
    next: usize,
    pen: Pen,
) -> Option<Cause> {
    if listed.count > MOST_LISTED {
        return Some(Cause::TooMany);
    }
    let open = listed.rows();
    let from = listed.reads_from(next);
    let own: Vec<usize> = open.iter().map(|open| open.row).collect();
    if !own.is_empty() && own != around(rows, from, next) {
        return Some(Cause::OtherRows);
    }
    closed(rows, &open, pen).is_none().then_some(Cause::Closing)
}

/// Refusal 23.
pub fn check(
    rows: &[Row],
    listed: &Listed,
    next: usize,
    pen: Pen,
) -> Result<(), Refusal> {
    match fault(rows, listed, next, pen) {
        None => Ok(()),
        Some(_) => Err(refusal(23, 0)),
    }
}

/// `indent` and `next_indent` once the listed rows are closed, innermost first
/// and with no further row; `None` if `indent` would go under 0.
pub fn closed(rows: &[Row], open: &[OpenRow], pen: Pen) -> Option<Pen> {
    open.iter()
        .rev()
        .try_fold(pen, |pen, open| match rows[open.row].kind {
            rows::INDENT if open.wraps => less(pen),
            rows::INDENT_NEXT if open.wraps => next_less(pen),
            rows::CALL if open.way == Way::MadeWrapped => next_less(pen),
            _ => Some(pen),
        })
}

fn less(pen: Pen) -> Option<Pen> {
    let indent = pen.indent.checked_sub(1)?;
    Some(Pen { indent, ..pen })
}

/// As the end of an `IndentNext` takes its step back.
fn next_less(pen: Pen) -> Option<Pen> {
    match pen.next_indent.checked_sub(1) {
        Some(next_indent) => Some(Pen { next_indent, ..pen }),
        None => less(pen),
    }
}
