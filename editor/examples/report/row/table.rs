//! Lines for people: seven columns of ten, as the program `report` has them,
//! and the name.

use std::path::Path;

use rrufthim::figures::Report;

use super::{
    super::common::{report::refused, shown::shown},
    HEADS, Row, cells, totals,
};

pub(crate) fn heads() -> String {
    columns(HEADS.map(str::to_owned), "file")
}

pub(crate) fn line(path: &Path, row: &Row) -> String {
    let name = shown(path);
    let none = HEADS.map(|_| "-".to_owned());
    match row {
        Row::Counted(figures) => numbers(cells(figures), &name),
        Row::Refused(error) => {
            columns(none, &format!("{name}: {}", refused(error)))
        }
        Row::Unread(why) => {
            columns(none, &format!("{name}: not read: {why}"))
        }
    }
}

/// What the files give together, in the words of the program; then how many
/// of them couldn't be read, if any.
pub(crate) fn foot(counted: &Report, refused: usize, all: usize) -> String {
    let tallies = counted.tallies();
    let unread = all - tallies.files - refused;
    let mut lines = numbers(totals(tallies), "total");
    lines += &format!("\nfiles counted: {}", tallies.files);
    lines += &format!("\nfiles refused: {refused}");
    let fraction = counted.fraction();
    lines += &format!("\nwrapped over given, reduced: {fraction}");
    if unread > 0 {
        lines += &format!("\nfiles not read: {unread}");
    }
    lines
}

fn numbers(cells: [usize; 7], name: &str) -> String {
    columns(cells.map(|cell| cell.to_string()), name)
}

fn columns(cells: [String; 7], name: &str) -> String {
    let cells = cells.map(|cell| format!("{cell:>10} "));
    cells.concat() + name
}
