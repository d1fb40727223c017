//! Limits: past them a file is refused, a tree isn't encoded, or a text isn't
//! written.

/// The longest source, in bytes, and so the furthest end of a span.
pub const MAX_SOURCE: usize = 65_536;

/// The longest body of an image, which is all but its first five bytes.
pub const MAX_BODY: usize = 1_048_576;

/// The most comments that an image has.
pub const MAX_COMMENTS: usize = 8_192;

/// How deep records may lie in each other, the tree being 1.
pub const MAX_DEPTH: usize = 64;

/// The most columns that one text can be wide.
pub const MAX_WIDTH: usize = u16::MAX as usize;

/// The narrowest line that may be chosen, in columns.
pub const MIN_LINE_WIDTH: usize = 40;

/// The widest line that may be chosen, in columns.
pub const MAX_LINE_WIDTH: usize = 200;

/// The rows, and the marks, that [`format_file`](crate::calls::format_file)
/// has, and each file of [`format_batch`](crate::calls::format_batch).
pub const MAX_FILE_ROWS: usize = 1_800;

/// The most files that [`format_batch`](crate::calls::format_batch) takes.
pub const MAX_BATCH: usize = 256;

/// How many files [`Tallies`](crate::figures::Tallies) count.
pub const MAX_FILES: usize = 4_096;

/// What each number of the tallies that are handed in may be.
pub const MAX_TALLY: usize = 4_294_967_296;

/// The longest text that a [`Formatter`](crate::Formatter) allows unless
/// another bound is chosen: 64 MiB.
///
/// A tree whose literals all span the whole source gives a text of
/// gigabytes; no script comes near this bound.
pub const MAX_OUTPUT: usize = 64 << 20;

/// The most rows that a rendering state lists. Rows are at most 256 deep, so
/// that no more than 255 enclose one.
pub const MAX_LISTED_ROWS: usize = 256;

/// The largest allotment: as many rows as there are.
pub const ALL_ROWS: usize = usize::MAX;

/// The largest size of a [formula](crate::formulas), in expression records.
pub const MAX_FORMULA_SIZE: usize = 7;
