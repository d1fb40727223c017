//! Why a file can't be formatted, in words for people.

use std::{error::Error, fmt, str::Utf8Error};

use crate::{
    encode::EncodeError, file::File, place::Place, refusal::Refusal,
};

/// Why a file can't be formatted, and where that is in its source.
#[derive(Clone, Debug, PartialEq, Eq)]
#[non_exhaustive]
pub struct FormatError {
    /// What is wrong.
    pub cause: Cause,
    /// The span that the cause is about, if it is about one.
    pub place: Option<Place>,
}

/// What is wrong with a file.
#[derive(Clone, Debug, PartialEq, Eq)]
#[non_exhaustive]
pub enum Cause {
    /// The tree has no image.
    Encode(EncodeError),
    /// The image and the source are refused.
    Refused(Refusal),
    /// The text isn't UTF-8, which can't come of a source that is.
    NotUtf8(Utf8Error),
}

impl FormatError {
    pub(crate) fn encode(error: EncodeError, source: &[u8]) -> Self {
        let place = error.span().map(|span| Place::new(source, span));
        let cause = Cause::Encode(error);
        FormatError { cause, place }
    }

    pub(crate) fn refused(refusal: Refusal, file: File<'_>) -> Self {
        let span = refusal.span(file);
        FormatError {
            cause: Cause::Refused(refusal),
            place: span.map(|span| Place::new(file.source, span)),
        }
    }

    pub(crate) fn not_utf8(error: Utf8Error) -> Self {
        FormatError {
            cause: Cause::NotUtf8(error),
            place: None,
        }
    }

    /// What is wrong with the span of the source, where the refusal's own
    /// words are about an offset in an image; and of 20 what is wrong here,
    /// where each rule has a name.
    fn in_source(&self) -> Option<String> {
        const NO_WIDTHS: &str = "the tree image is of version 2, which has no \
            widths: choose those of Unicode 16.0, or move it back to version 1";
        match (&self.cause, &self.place) {
            (Cause::Refused(Refusal::BadRule), _) => Some(NO_WIDTHS.into()),
            (Cause::Refused(refusal), Some(place)) => {
                refusal.in_source(&place.span)
            }
            _ => None,
        }
    }
}

impl fmt::Display for FormatError {
    fn fmt(&self, f: &mut fmt::Formatter<'_>) -> fmt::Result {
        if let Some(place) = &self.place {
            write!(f, "{place}: ")?;
        }
        match self.in_source() {
            Some(words) => f.write_str(&words),
            None => self.cause.fmt(f),
        }
    }
}

impl fmt::Display for Cause {
    fn fmt(&self, f: &mut fmt::Formatter<'_>) -> fmt::Result {
        match self {
            Self::Encode(error) => error.fmt(f),
            Self::Refused(refusal) => refusal.fmt(f),
            Self::NotUtf8(error) => error.fmt(f),
        }
    }
}

/// Its source is the refusal, where its own words are others.
impl Error for FormatError {
    fn source(&self) -> Option<&(dyn Error + 'static)> {
        match &self.cause {
            Cause::Refused(refusal) if self.in_source().is_some() => {
                Some(refusal)
            }
            _ => None,
        }
    }
}

/// A name's start, where it is long, and no line breaks.
pub(crate) fn shown(name: &str) -> String {
    const MOST: usize = 40;
    let mut shown: String = name.chars().take(MOST).collect();
    if shown.len() < name.len() {
        shown.push('…');
    }
    shown.escape_debug().to_string()
}
