//! The place of `fmt_parsed` in an editor.

use std::cell::RefCell;

use crate::{
    ast::{Extras, SyntaxTree},
    encode::{simple_width, write_tree},
    error::FormatError,
    formatted::Formatted,
    formatter::Formatter,
    options::Options,
    writer::{ImageWriter, WriteResult},
};

/// Formats a parsed file, as `fmt_parsed` of Roto's src/fmt.rs does, and
/// keeps every comment.
///
/// What differs from `fmt_parsed(&ast, &files, &spans, &extras) -> String`:
///
/// - The source is the text of the one file, not a `FileTree`; spans are in
///   the tree ([`Meta`](crate::ast::Meta)), so there is no `spans`.
/// - The original drops the comments after the last declaration and says
///   nothing. Here they are kept, before the end of the text, with up to one
///   blank line between them where the source has some.
/// - What the original panics on (a span outside the source or off a
///   character's boundary) and what is over the limits of the tree image is
///   an error.
/// - Widths of names are [`simple_width`]'s. Literals are counted in bytes, as
///   by the original; who formats Japanese or Chinese chooses an edition of
///   Unicode for both ([`Widths`](crate::Widths)) and calls [`fmt_written`].
///
/// For the original's text, [`Options::AS_ROTO`] and the widths of the crate
/// `unicode_width`, call [`fmt_written`] with [`write_tree`]; the answer then
/// names the comments that the text lacks ([`Formatted::comments_left`]).
///
/// # Errors
///
/// As [`Formatter::format_written`].
pub fn fmt_parsed(
    ast: &SyntaxTree,
    source: &str,
    extras: &Extras,
) -> Result<Formatted, FormatError> {
    fmt_written(source, &Options::default(), |out| {
        write_tree(out, ast, &extras.comments, simple_width)
    })
}

thread_local! {
    static KEPT: RefCell<Formatter> = RefCell::default();
}

/// Formats what the caller writes as an image, by a formatter that the thread
/// keeps with its buffers: [`Formatter::format_written`] with a text of its
/// own.
///
/// ```
/// # use rrufthim::ast::{Extras, SyntaxTree};
/// use rrufthim::{Options, fmt_written, simple_width, write_tree};
///
/// # let (tree, extras) = (SyntaxTree::default(), Extras::default());
/// let formatted = fmt_written("", &Options::AS_ROTO, |out| {
///     write_tree(out, &tree, &extras.comments, simple_width)
/// })?;
/// assert_eq!(formatted.text, "");
/// # Ok::<(), rrufthim::FormatError>(())
/// ```
///
/// # Errors
///
/// As [`Formatter::format_written`].
pub fn fmt_written(
    source: &str,
    options: &Options,
    write: impl FnOnce(&mut ImageWriter<'_>) -> WriteResult,
) -> Result<Formatted, FormatError> {
    // It is taken out, so that `write` may itself come here, and a thread
    // that is ending has a new one.
    let kept = KEPT.try_with(RefCell::take);
    let formatter = kept.unwrap_or_default();
    let mut formatter = formatter.with_options(options.clone());
    let formatted = formatter.format_written(source, write);
    let formatted = formatted.map(Formatted::into_owned);
    let _ = KEPT.try_with(|kept| kept.replace(formatter));
    formatted
}
