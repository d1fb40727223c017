//! Request 13's sentence, tried on every row that is entered: of the original
//! by its notes, of the second form as it goes.

use std::cell::Cell;

use super::{
    notes::{Around, Note, walk},
    render::Pen,
};
use crate::rows::Row;

thread_local! {
    static TRIED: Cell<u64> = const { Cell::new(0) };
}

/// On how many rows the sentence was tried on this thread since this was asked
/// last. A run that stands for a text by its halves counts twice.
pub fn margins_tried() -> u64 {
    TRIED.take()
}

/// Counts a row on which it is tried.
pub(super) fn tried() {
    TRIED.set(TRIED.get() + 1);
}

fn margin(pen: Pen) -> usize {
    pen.indent + pen.next_indent
}

/// "When the row is done, `indent` plus `next_indent` is what it was before,
/// `indent` is no smaller."
pub(super) fn is_kept(before: Pen, done: Pen) -> bool {
    margin(done) == margin(before) && before.indent <= done.indent
}

/// "As each row within it is entered the sum is at most that before plus the
/// rows, from this one down, that enclose the entered one."
pub(super) fn is_bounded(
    before: Pen,
    enclosing: usize,
    entered: Pen,
) -> bool {
    margin(entered) <= margin(before) + enclosing
}

/// The first row for which it doesn't hold.
pub(super) fn drifts(
    notes: &[Note],
    rows: &[Row],
    from: usize,
) -> Option<usize> {
    let mut found = None;
    walk(notes, rows, from, |row, note, around| {
        tried();
        let right = is_kept(note.pen, note.done) && is_right(note, around);
        if !right {
            found = Some(row);
        }
        !right
    });
    found
}

/// That of a row as it is entered, for each row around it.
fn is_right(note: &Note, around: &[Around]) -> bool {
    let rows = around.iter().zip((1..=around.len()).rev());
    rows.into_iter()
        .all(|(row, enclosing)| is_bounded(row.note.pen, enclosing, note.pen))
}

#[cfg(test)]
mod tests {
    use super::*;

    fn pen(indent: usize, next_indent: usize) -> Pen {
        Pen {
            indent,
            next_indent,
            column: 0,
        }
    }

    #[test]
    fn a_margin_that_drifts_is_seen() {
        assert!(is_kept(pen(2, 1), pen(2, 1)));
        assert!(is_kept(pen(2, 1), pen(3, 0)));
        assert!(!is_kept(pen(2, 1), pen(2, 0)));
        assert!(!is_kept(pen(2, 1), pen(3, 1)));
        assert!(!is_kept(pen(2, 1), pen(1, 2)));
    }

    #[test]
    fn a_row_takes_one_step_at_most() {
        assert!(is_bounded(pen(1, 1), 2, pen(4, 0)));
        assert!(!is_bounded(pen(1, 1), 2, pen(4, 1)));
    }
}
