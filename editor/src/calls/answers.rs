//! What calls answer.

use super::{LayoutState, RenderState};

/// What [`check`](super::check) says of an image that it accepts.
#[derive(Clone, Debug, PartialEq, Eq)]
#[non_exhaustive]
pub struct Accepted {
    /// How many comments the image has.
    pub comments: usize,
    /// How many declarations it has: where layout ends.
    pub declarations: usize,
    /// The offset of the tree's record in the image.
    pub tree: usize,
}

/// What [`layout`](super::layout) answers.
#[derive(Clone, Debug, PartialEq, Eq)]
#[non_exhaustive]
pub struct Laid {
    /// How far layout came.
    pub state: LayoutState,
    /// Comments that no row holds yet; after closing, none ever will. Where
    /// every comment is kept, closing leaves 0.
    pub comments_left: usize,
}

/// What [`render`](super::render) answers.
#[derive(Clone, Debug, PartialEq, Eq)]
#[non_exhaustive]
pub struct Written {
    /// How far rendering came.
    pub state: RenderState,
    /// How many bytes of the output were written, from its start on.
    pub bytes: usize,
    /// How many rows were entered: as many as the call was allotted, or, if
    /// fewer, all that there were.
    pub entered: usize,
}

/// What [`format_file`](super::format_file) answers.
#[derive(Clone, Debug, PartialEq, Eq)]
#[non_exhaustive]
pub struct FileWritten {
    /// How many bytes of the output were written, from its start on.
    pub bytes: usize,
    /// Comments that the text doesn't hold: the last so many of the list. 0
    /// where every comment is kept.
    pub comments_left: usize,
    /// Rows that the file took.
    pub rows: usize,
    /// Marks that it took.
    pub numbers: usize,
}

/// What [`format_batch`](super::format_batch) answers.
#[derive(Clone, Debug, PartialEq, Eq)]
#[non_exhaustive]
pub struct BatchWritten {
    /// How many files there are: three numbers of the table each.
    pub files: usize,
    /// How many bytes of the output were written, from its start on.
    pub bytes: usize,
}

/// What [`reads_back`](super::reads_back) says of a tree.
#[derive(Clone, Copy, Debug, PartialEq, Eq)]
pub enum Verdict {
    /// No operand breaks a rule.
    Same,
    /// One does.
    Differs {
        /// The offset of the first one's record, in reading order.
        at: usize,
    },
}

/// What [`newlines`](super::newlines) finds in a range of a source.
#[derive(Clone, Debug, PartialEq, Eq)]
#[non_exhaustive]
pub struct Newlines {
    /// How many newlines there are.
    pub count: usize,
    /// Where the last of them is, or the range's end if there is none.
    pub place: usize,
}
