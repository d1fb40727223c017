//! The plug: Roto's own syntax tree for the proved formatter, with no tree
//! between.
//!
//! This folder is copied into Roto as src/fmt/plug/. It needs Roto's src/ast.rs
//! and src/parser/meta.rs as they are, and `unicode_width`.

use rrufthim::{
    FormatError, Formatted, ImageWriter, Options, Span, WriteResult,
};
use unicode_width::UnicodeWidthStr;

use crate::{
    ast,
    parser::{
        Extras,
        meta::{Meta, Spans},
    },
};

mod tree;

/// Spans are looked up by id.
fn span<T>(spans: &Spans, node: &Meta<T>) -> Span {
    let span = spans.get(node);
    span.start..span.end
}

/// Formats a parsed file: a text that holds every comment.
///
/// For other options give what [`write`] writes to `rrufthim::fmt_written`.
///
/// # Errors
///
/// What is over a limit of the tree image, and refusals 1, 6, 7 and 10.
pub fn fmt_parsed(
    ast: &ast::SyntaxTree,
    source: &str,
    spans: &Spans,
    extras: &Extras,
) -> Result<Formatted, FormatError> {
    rrufthim::fmt_written(source, &Options::default(), |out| {
        write(out, ast, spans, extras)
    })
}

/// Writes a parsed file's comments and tree: for `rrufthim::fmt_written`, and
/// for `format_written` of a `Formatter` that is kept elsewhere.
///
/// # Errors
///
/// What is over a limit of the tree image.
pub fn write(
    out: &mut ImageWriter<'_>,
    ast: &ast::SyntaxTree,
    spans: &Spans,
    extras: &Extras,
) -> WriteResult {
    out.comments(extras.comments.iter().map(|c| c.start..c.end))?;
    tree::write(out, ast, spans, |text: &str| text.width())
}
