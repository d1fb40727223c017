//! The proved functions themselves, over slices that the caller lends.
//!
//! Each ends in an answer or a [`Refusal`], whatever safe Rust hands over,
//! and a refused call leaves every slice as it was. README.md, "Calls", has
//! what each refuses by and changes; [`Formatter`](crate::Formatter),
//! [`InParts`](crate::InParts) and [`Batch`](crate::Batch) make these calls
//! in buffers of their own.
//!
//! A file by the two calls, in buffers that are enough for it:
//!
//! ```
//! use rrufthim::{File, Options, calls::*, encode};
//!
//! # let image = encode(&Default::default(), &[])?;
//! let (file, options) = (File::new("", &image), Options::default());
//! let (mut store, mut marks) = (vec![0; 50 * ROW], vec![0; 50]);
//! let mut output = vec![0; 1_000];
//!
//! let all = LayoutArgs::up_to(check(file)?.declarations).with_close(true);
//! let fresh = LayoutState::default();
//! let laid = layout(file, &mut store, &fresh, &all, &options)?;
//! let rows = RenderArgs::up_to(laid.state.next_row);
//! let fresh = RenderState::default();
//! let written = render(
//!     file, &mut store, &mut marks, &mut output, &fresh, &rows, &options,
//! )?;
//! let text = &output[..written.bytes];
//! # assert_eq!(text, b"");
//! # Ok::<(), Box<dyn std::error::Error>>(())
//! ```

mod answers;
mod args;
mod states;

use crate::{
    ast::Span,
    file::File,
    linked::{self, numbers, sizes},
    options::{Options, Widths},
    refusal::Refusal,
};

pub use answers::{
    Accepted, BatchWritten, FileWritten, Laid, Newlines, Verdict, Written,
};
pub use args::{LayoutArgs, RenderArgs};
pub use states::{LayoutState, ListedRow, RenderState, Way};

use states::RENDER_STATE;

/// How many numbers of the store a row takes. A store has its length / 9
/// rows, rounded down.
pub const ROW: usize = 9;

/// How many numbers of the table of [`format_batch`] a file takes.
pub const TABLE_ROW: usize = 3;

/// Whether a source and its tree image, of either version, are accepted.
///
/// # Errors
///
/// Refusals 1 to 7.
pub fn check(file: File<'_>) -> Result<Accepted, Refusal> {
    let mut out = [0; 4];
    linked::check(file.source, file.image, &mut out);
    let [number, comments, tree, declarations] = sizes(out);
    refused(number, comments)?;
    Ok(Accepted {
        comments,
        declarations,
        tree,
    })
}

/// Whether the tree of an image, of either version, would be read back the
/// same, by the rules of Roto's src/parser/precedence.rs.
/// [`reads_back`](crate::reads_back) says the same in words.
///
/// # Errors
///
/// Refusals 1 to 7.
pub fn reads_back(file: File<'_>) -> Result<Verdict, Refusal> {
    let mut out = [0; 3];
    linked::reads_back(file.source, file.image, &mut out);
    let [number, same, at] = sizes(out);
    refused(number, same)?;
    Ok(match same {
        0 => Verdict::Differs { at },
        _ => Verdict::Same,
    })
}

/// Writes the image, of version 1, of the formula at a place of those of a size
/// into the output, from its start on, and says how many bytes it has.
/// [`formulas`](crate::formulas()) gives them one after the other.
///
/// # Errors
///
/// Refusals 24, 17, each of which leaves the output as it was.
pub fn formula(
    size: usize,
    place: usize,
    output: &mut [u8],
) -> Result<usize, Refusal> {
    let ([size, place], mut out) = (numbers([size, place]), [0; 2]);
    linked::formula(size, place, output, &mut out);
    let [number, bytes] = sizes(out);
    refused(number, bytes).map(|()| bytes)
}

/// Lays out the declarations up to the one to stop before, and closes if it
/// is told to. All calls of a run choose the same of comments and widths: by
/// an edition of Unicode names get their columns here.
///
/// # Errors
///
/// Refusals 20 (for an image of version 2, unless widths are those of Unicode
/// 16.0), 1 to 7, 12, 8. A refused call leaves the store as it was.
pub fn layout(
    file: File<'_>,
    store: &mut [u32],
    state: &LayoutState,
    args: &LayoutArgs,
    options: &Options,
) -> Result<Laid, Refusal> {
    let (from, args) = layout_numbers(state, args, options);
    let mut out = [0; 11];
    linked::layout(file.source, file.image, store, &from, &args, &mut out);
    laid(out)
}

/// The same for archived images: their comments may be in any order, as they
/// might before request 10, and are laid in the order of their list. What
/// [`layout`] accepts, this answers alike. A run may mix both: no state holds
/// by which a call was made.
///
/// # Errors
///
/// As [`layout`], but for a comment that starts before the end of the one
/// before (7).
pub fn layout_archived(
    file: File<'_>,
    store: &mut [u32],
    state: &LayoutState,
    args: &LayoutArgs,
    options: &Options,
) -> Result<Laid, Refusal> {
    let (from, args) = layout_numbers(state, args, options);
    let File { source, image } = file;
    let mut out = [0; 11];
    linked::layout_archived(source, image, store, &from, &args, &mut out);
    laid(out)
}

/// What a layout call is handed as state and as arguments.
fn layout_numbers(
    state: &LayoutState,
    args: &LayoutArgs,
    options: &Options,
) -> ([u64; 9], [u64; 4]) {
    let (mode, rule) = (options.comments.mode(), options.widths.rule());
    let args = [args.stop, args.close.into(), mode, rule];
    (numbers(state.numbers()), numbers(args))
}

/// What a layout call answers.
fn laid(out: [u64; 11]) -> Result<Laid, Refusal> {
    let [number, comments_left, state @ ..] = sizes(out);
    refused(number, comments_left)?;
    Ok(Laid {
        state: LayoutState::from_numbers(state),
        comments_left,
    })
}

/// The places of a rendering call's answer: 0, the bytes written, the rows
/// entered, then the new state.
const RENDER_OUT: usize = 3 + RENDER_STATE;

/// Renders the rows up to the one to stop before, and of them as many as are
/// allotted. The store is lent for the time of the call and is the same after
/// it. All calls of a run choose the
/// same width and widths: literals are measured here. Names are as wide as
/// layout wrote, whatever is chosen here, so choose the same there.
///
/// # Errors
///
/// Refusals 20 (as [`layout`]), 1, 3, 11, 12, 15, 22, 23, 9, 10; by an edition of Unicode also 2, before
/// 3, and 11 for a row's text that isn't UTF-8 or cuts a character. A refused
/// call leaves marks and output as they were.
pub fn render(
    file: File<'_>,
    store: &mut [u32],
    marks: &mut [u8],
    output: &mut [u8],
    state: &RenderState,
    args: &RenderArgs,
    options: &Options,
) -> Result<Written, Refusal> {
    let File { source, image } = file;
    let from = state.numbers();
    let rule = options.widths.rule();
    let args = [args.stop, options.width, rule, args.allotment];
    let mut out = [0; RENDER_OUT];
    linked::render(
        source,
        image,
        store,
        marks,
        output,
        &from,
        &numbers(args),
        &mut out,
    );
    let [number, bytes, entered, state @ ..] = sizes(out);
    refused(number, bytes)?;
    Ok(Written {
        state: RenderState::from_numbers(&state),
        bytes,
        entered,
    })
}

/// Lays out and renders a whole file of at most
/// [`MAX_FILE_ROWS`](crate::limits::MAX_FILE_ROWS) rows.
/// [`Formatter`](crate::Formatter) takes larger files.
///
/// # Errors
///
/// Refusals 20 (as [`layout`]), 1 to 7, 15, 8, 9, 10, each of which leaves the output as it was.
pub fn format_file(
    file: File<'_>,
    options: &Options,
    output: &mut [u8],
) -> Result<FileWritten, Refusal> {
    let (choice, mut out) = (choice(options), [0; 5]);
    linked::format(file.source, file.image, &choice, output, &mut out);
    let [number, bytes, comments_left, rows, numbers] = sizes(out);
    refused(number, bytes)?;
    Ok(FileWritten {
        bytes,
        comments_left,
        rows,
        numbers,
    })
}

/// Formats the files of a buffer of frames, at most
/// [`MAX_BATCH`](crate::limits::MAX_BATCH), each as [`format_file`] does with
/// output enough. [`Batch`](crate::Batch) makes the frames and reads the
/// table.
///
/// A frame is two lengths, of source and image, as four bytes each, the
/// highest first; then the source, then the image. The table gets three
/// numbers a file ([`TABLE_ROW`]): what refuses it, or 0; the refusal's place,
/// or 0; and the bytes of its text. The texts stand in the output one after
/// another; a refused file has none.
///
/// # Errors
///
/// Refusals 18, 19, each of which leaves table and output as they were. 19 is
/// about the table, if that has fewer than three numbers for each file, else
/// about the output.
pub fn format_batch(
    frames: &[u8],
    options: &Options,
    table: &mut [u32],
    output: &mut [u8],
) -> Result<BatchWritten, Refusal> {
    let (choice, mut out) = (choice(options), [0; 3]);
    linked::batch(frames, &choice, table, output, &mut out);
    let [number, files, bytes] = sizes(out);
    refused(number, files)?;
    Ok(BatchWritten { files, bytes })
}

/// The newlines of a range of the source, and where the last of them is: for
/// who wants to jump to the gap that made a blank line. Which ranges layout
/// asks about says [`InParts::gaps`](crate::InParts::gaps).
///
/// Any range will do. None is counted in one that is reversed, ends past the
/// source, or starts or ends inside a character.
pub fn newlines(source: &[u8], range: Span) -> Newlines {
    let [start, end] = numbers([range.start, range.end]);
    let mut out = [0; 2];
    linked::newlines(source, start, end, &mut out);
    let [count, place] = sizes(out);
    Newlines { count, place }
}

/// How many columns a text takes by a rule: what lines are measured by, for
/// who shows it or writes images with such widths.
///
/// By [`Widths::Supplied`] it is what the caller says, `supplied`: Roto's own
/// formatter has no other measure. By an edition of Unicode it is the sum
/// over the characters, for a text that isn't UTF-8 over those before its
/// first bad sequence.
///
/// ```
/// use rrufthim::{Widths, calls::columns};
///
/// let town = "東京";
/// let in_bytes = columns(town.as_bytes(), Widths::Supplied, town.len());
/// assert_eq!(in_bytes, 6);
/// assert_eq!(columns(town.as_bytes(), Widths::Unicode16_0, 0), 4);
/// // An accent that is a character of its own takes none.
/// assert_eq!(columns(b"e\xCC\x81", Widths::Unicode16_0, 0), 1);
/// ```
pub fn columns(text: &[u8], widths: Widths, supplied: usize) -> usize {
    let [rule, supplied] = numbers([widths.rule(), supplied]);
    let mut out = [0; 2];
    linked::columns(text, rule, supplied, &mut out);
    // A rule that has a name is never refused.
    let [_, columns] = sizes(out);
    columns
}

/// What is chosen for a whole file.
fn choice(options: &Options) -> [u64; 3] {
    let (mode, rule) = (options.comments.mode(), options.widths.rule());
    numbers([options.width, mode, rule])
}

/// An answer starts with 0, or with a refusal's number and place.
pub(crate) fn refused(number: usize, place: usize) -> Result<(), Refusal> {
    match number {
        0 => Ok(()),
        _ => Err(Refusal::from_numbers(number, place)),
    }
}
