//! From a syntax tree to the tree image of docs/01-scope.md.

use std::{error::Error, fmt};

use crate::{
    ast::{self, Meta, Span, SyntaxTree},
    error::FormatError,
    image::Version,
    limits::{MAX_BODY, MAX_COMMENTS, MAX_DEPTH, MAX_SOURCE, MAX_WIDTH},
    writer::{ImageWriter, WriteResult},
};

#[path = "../plug/tree.rs"]
mod tree;

/// Here each node holds its own span.
struct Spans;

fn span<T>(_: &Spans, node: &Meta<T>) -> Span {
    node.span.clone()
}

/// Why a tree has no image.
#[derive(Clone, Debug, PartialEq, Eq)]
#[non_exhaustive]
pub enum EncodeError {
    /// More than 8,192 comments.
    TooManyComments {
        /// How many there are.
        count: usize,
    },
    /// A comment that is empty, reversed or past 65,536.
    BadComment {
        /// Its place in the list.
        index: usize,
        /// The comment.
        span: Span,
    },
    /// A comment that starts before the end of the one before.
    UnorderedComment {
        /// Its place in the list.
        index: usize,
        /// The comment.
        span: Span,
        /// Where the one before ends.
        end_before: usize,
    },
    /// A span that is reversed or past 65,536.
    BadSpan {
        /// The span.
        span: Span,
    },
    /// A text over 65,535 columns, in version 1.
    TooWide {
        /// Where it stands.
        span: Span,
        /// How wide it is.
        width: usize,
    },
    /// Something more than 64 records deep.
    TooDeep {
        /// Where it stands.
        span: Span,
    },
    /// A path without a name.
    EmptyPath {
        /// Where it should stand.
        span: Span,
    },
    /// An image with a body over 1,048,576 bytes.
    TooLong,
}

impl EncodeError {
    /// The same in words for people, with line and column in the source that
    /// the tree is of: the encoder itself doesn't see it.
    pub fn in_source(self, source: &str) -> FormatError {
        FormatError::encode(self, source.as_bytes())
    }

    /// The span that it is about, if it is about one.
    pub fn span(&self) -> Option<Span> {
        match self {
            Self::BadComment { span, .. }
            | Self::UnorderedComment { span, .. }
            | Self::BadSpan { span }
            | Self::TooWide { span, .. }
            | Self::TooDeep { span }
            | Self::EmptyPath { span } => Some(span.clone()),
            Self::TooManyComments { .. } | Self::TooLong => None,
        }
    }
}

impl fmt::Display for EncodeError {
    fn fmt(&self, f: &mut fmt::Formatter<'_>) -> fmt::Result {
        match self {
            Self::TooManyComments { count } => {
                write!(f, "{count} comments are over {MAX_COMMENTS}")
            }
            Self::BadComment { index, span } => write!(
                f,
                "comment {index} at {span:?} is empty, reversed or past \
                 {MAX_SOURCE}"
            ),
            Self::UnorderedComment {
                index,
                span,
                end_before,
            } => write!(
                f,
                "comment {index} at {span:?} starts before {end_before}, \
                 where the one before it ends"
            ),
            Self::BadSpan { span } => {
                write!(f, "span {span:?} is reversed or past {MAX_SOURCE}")
            }
            Self::TooWide { span, width } => write!(
                f,
                "the text at {span:?} is {width} columns wide, over \
                 {MAX_WIDTH}"
            ),
            Self::TooDeep { span } => write!(
                f,
                "what stands at {span:?} is more than {MAX_DEPTH} deep in \
                 the tree"
            ),
            Self::EmptyPath { span } => {
                write!(f, "the path at {span:?} has no name")
            }
            Self::TooLong => {
                write!(f, "the image's body is over {MAX_BODY} bytes")
            }
        }
    }
}

impl Error for EncodeError {}

/// The image of a tree and its comments, of version 1 and with
/// [`simple_width`] for widths.
///
/// It doesn't see the source: whether spans lie in it, and on boundaries of
/// characters, is for [`check`](crate::calls::check) to say (refusals 6 and
/// 7).
///
/// # Errors
///
/// What is over a limit, and a path without a name.
pub fn encode(
    tree: &SyntaxTree,
    comments: &[Span],
) -> Result<Vec<u8>, EncodeError> {
    encode_as(Version::One, tree, comments)
}

/// The same in a version. Of version 2, which stores no widths, a text may
/// have any, and layout and rendering ask for
/// [`Widths::Unicode16_0`](crate::Widths::Unicode16_0).
///
/// ```
/// use rrufthim::{File, Formatter, Options, Version, Widths, encode_as};
///
/// let image = encode_as(Version::Two, &Default::default(), &[])?;
/// let options = Options::default().with_widths(Widths::Unicode16_0);
/// let mut formatter = Formatter::new().with_options(options);
/// assert_eq!(formatter.format_file(File::new("", &image))?.text, "");
/// # Ok::<(), Box<dyn std::error::Error>>(())
/// ```
///
/// # Errors
///
/// As [`encode`].
pub fn encode_as(
    version: Version,
    tree: &SyntaxTree,
    comments: &[Span],
) -> Result<Vec<u8>, EncodeError> {
    encode_written_as(version, |out| {
        write_tree(out, tree, comments, simple_width)
    })
}

/// The image of version 1 that the caller writes: its comments, then its tree.
///
/// # Errors
///
/// What is over a limit.
pub fn encode_written(
    write: impl FnOnce(&mut ImageWriter<'_>) -> WriteResult,
) -> Result<Vec<u8>, EncodeError> {
    encode_written_as(Version::One, write)
}

/// The same in a version.
///
/// # Errors
///
/// What is over a limit.
pub fn encode_written_as(
    version: Version,
    write: impl FnOnce(&mut ImageWriter<'_>) -> WriteResult,
) -> Result<Vec<u8>, EncodeError> {
    let mut image = Vec::new();
    let mut out = ImageWriter::of_version(version, &mut image);
    write(&mut out)
        .and_then(|()| out.finish())
        .map_err(|error| *error)?;
    Ok(image)
}

/// Writes comments and a tree, with widths of the caller's own: what is
/// handed to [`encode_written`], [`fmt_written`](crate::fmt_written) or
/// [`Formatter::format_written`](crate::Formatter::format_written).
///
/// `width` is asked once for each text in the image's order: the shebang,
/// trimmed at its end, then names as they come. The formatted text equals the
/// original's if it gives what the crate `unicode_width` does;
/// [`simple_width`] does without. Where [`Widths`](crate::Widths) of Unicode
/// are chosen, it isn't looked at.
///
/// # Errors
///
/// As [`encode`].
pub fn write_tree(
    out: &mut ImageWriter<'_>,
    tree: &SyntaxTree,
    comments: &[Span],
    width: impl FnMut(&str) -> usize,
) -> WriteResult {
    out.comments(comments.iter().cloned())?;
    tree::write(out, tree, &Spans, width)
}

/// A column for each character that isn't a control character.
///
/// This is what `unicode_width` 0.1 gives for texts without wide characters
/// (as in East Asian scripts, which take two columns) and without characters
/// of no width (such as combining accents).
pub fn simple_width(text: &str) -> usize {
    text.chars().filter(|c| !c.is_control()).count()
}
