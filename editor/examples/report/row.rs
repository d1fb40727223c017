//! A line of the report.

pub(crate) mod csv;
pub(crate) mod table;

use rrufthim::{
    FormatError,
    figures::{Figures, Tallies},
};

/// What there is to say of a file.
#[derive(Debug)]
pub(crate) enum Row {
    Counted(Figures),
    Refused(FormatError),
    Unread(String),
}

/// What the figures are called, in the order of all lines.
const HEADS: [&str; 7] = [
    "bytes", "newlines", "column", "given", "wrapped", "placed", "left",
];

fn cells(figures: &Figures) -> [usize; 7] {
    let Figures {
        bytes,
        newlines,
        column,
        given,
        wrapped,
        placed,
        left,
        ..
    } = *figures;
    [bytes, newlines, column, given, wrapped, placed, left]
}

fn totals(tallies: &Tallies) -> [usize; 7] {
    cells(&tallies.all)
}
