//! Where a rendering goes on from, and where it stops.

use super::render::Pen;
use crate::listed::{Listed, OpenRow};

/// Where a rendering goes on from.
#[derive(Clone, Copy, Debug)]
pub struct Start<'s> {
    pub row: usize,
    /// The rows that enclose it, outermost first.
    pub listed: &'s [OpenRow],
    pub pen: Pen,
    /// Those in use.
    pub marks: &'s [u8],
}

impl Start<'_> {
    /// From a row that no other encloses, with no marks.
    pub fn at(row: usize, pen: Pen) -> Self {
        Start {
            row,
            listed: &[],
            pen,
            marks: &[],
        }
    }
}

/// Where a rendering stopped.
#[derive(Clone, Debug, PartialEq, Eq)]
pub(super) struct Halt {
    pub next_row: usize,
    pub listed: Listed,
    pub pen: Pen,
    pub text: String,
    /// The numbers of the groups that wrapped, ascending.
    pub wrapped: Vec<usize>,
    /// The greatest value that `column` was set to, 0 before the first.
    pub greatest: usize,
    /// The rows entered.
    pub entered: usize,
}
