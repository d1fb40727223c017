//! A formatted file.

use std::{error::Error, fmt};

use crate::{ast::Span, file::File, limits::MAX_SOURCE, place::Place};

/// A formatted file: `Formatted<String>` with a text of its own,
/// `Formatted<&str>` with one in the buffers of a
/// [`Formatter`](crate::Formatter).
#[derive(Clone, Debug, PartialEq, Eq)]
#[non_exhaustive]
#[must_use = "it holds the text"]
pub struct Formatted<Text = String> {
    /// The text. It holds every comment, unless
    /// [`Comments::AsRoto`](crate::Comments::AsRoto) was chosen.
    pub text: Text,
    /// The comments that the text doesn't hold, in their order and with line
    /// and column: none by
    /// default; with [`Comments::AsRoto`](crate::Comments::AsRoto) those after
    /// the last place of the last declaration where a comment can stand.
    /// Saving the text alone drops them.
    pub comments_left: Vec<Place>,
    /// Whether the text is over [`MAX_SOURCE`] bytes. Nothing is wrong with
    /// it, but once it is saved, the file can't be formatted again: the next
    /// save is refused by 1.
    pub outgrown: bool,
}

impl<Text: AsRef<str>> Formatted<Text> {
    pub(crate) fn new(text: Text, file: File<'_>, left: Vec<Span>) -> Self {
        let outgrown = text.as_ref().len() > MAX_SOURCE;
        let comments_left = Place::all(file.source, left);
        Formatted {
            text,
            comments_left,
            outgrown,
        }
    }

    /// The text, if it holds every comment, as it does by default.
    ///
    /// # Errors
    ///
    /// The comments that the text would drop.
    pub fn complete(self) -> Result<Text, CommentsLeft> {
        match self.comments_left.is_empty() {
            true => Ok(self.text),
            false => Err(CommentsLeft(self.comments_left)),
        }
    }

    /// The same with a text of its own.
    pub fn into_owned(self) -> Formatted {
        Formatted {
            text: self.text.as_ref().to_owned(),
            comments_left: self.comments_left,
            outgrown: self.outgrown,
        }
    }
}

/// Comments that a formatted text doesn't hold.
#[derive(Clone, Debug, PartialEq, Eq)]
pub struct CommentsLeft(pub Vec<Place>);

impl fmt::Display for CommentsLeft {
    fn fmt(&self, f: &mut fmt::Formatter<'_>) -> fmt::Result {
        let CommentsLeft(places) = self;
        f.write_str("the formatted text drops ")?;
        match &places[..] {
            [] => f.write_str("no comment"),
            [one] => write!(f, "the comment at {one}"),
            [first, ..] => {
                let count = places.len();
                write!(f, "{count} comments, the first at {first}")
            }
        }
    }
}

impl Error for CommentsLeft {}
