//! Lines for a spreadsheet (RFC 4180, with plain newlines): texts are quoted,
//! numbers are not, and what there isn't is empty.

use std::path::Path;

use super::{
    super::{common::shown::shown, numbers},
    HEADS, Row, cells,
};

/// The heads of what a refused file has.
const REFUSED: [&str; 3] = ["refused", "place", "words"];

pub(crate) fn heads() -> String {
    let heads = ["file"].into_iter().chain(HEADS).chain(REFUSED);
    heads.collect::<Vec<_>>().join(",")
}

pub(crate) fn line(path: &Path, row: &Row) -> String {
    let (mut figures, mut refused) = (HEADS.map(|_| None), [None, None]);
    let mut words = String::new();
    match row {
        Row::Counted(counted) => figures = cells(counted).map(Some),
        Row::Refused(error) => {
            let (number, place) = numbers(error);
            refused = [Some(number), Some(place)];
            words = quoted(&error.to_string());
        }
        Row::Unread(why) => words = quoted(&format!("not read: {why}")),
    }
    let shown_number = |number: Option<usize>| {
        number.map_or(String::new(), |it| it.to_string())
    };
    let numbers = figures.into_iter().chain(refused).map(shown_number);
    let cells = [quoted(&shown(path))].into_iter().chain(numbers);
    cells.chain([words]).collect::<Vec<_>>().join(",")
}

fn quoted(text: &str) -> String {
    format!("\"{}\"", text.replace('"', "\"\""))
}
