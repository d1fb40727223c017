//! Images for archives: from version 1, in which each text stores its width,
//! to version 2, in which none does, and back.
//!
//! A move keeps all else, so that either after the other returns the same
//! bytes. Version 2 is laid out and rendered by
//! [`Widths::Unicode16_0`] alone: what it leaves
//! out are the widths of that rule.
//!
//! ```
//! use rrufthim::{File, Version, archive, encode};
//! # use rrufthim::ast::SyntaxTree;
//!
//! # let tree = SyntaxTree { shebang: Some("#!/x\n".into()), ..Default::default() };
//! let image = encode(&tree, &[])?;
//! let kept = archive::forward(File::new("", &image))?;
//! assert_eq!(File::new("", &kept).version(), Some(Version::Two));
//! assert_eq!(archive::back(File::new("", &kept))?, image);
//! # Ok::<(), Box<dyn std::error::Error>>(())
//! ```

use std::{error::Error, fmt};

use crate::{
    calls::{columns, refused},
    error::shown,
    file::File,
    image::{HEAD, HEADER, LENGTH, is_shebang, text_at},
    limits::{MAX_BODY, MAX_WIDTH},
    linked::{self, sizes},
    options::Widths,
    place::Place,
    refusal::Refusal,
};

/// The image of version 1 as one of version 2.
///
/// # Errors
///
/// Refusals 1 to 7, 3 for an image of version 2 too, and 7 but for the order
/// of comments; 21 where a text's width isn't what Unicode 16.0 gives it, the
/// shebang's without the blanks at its end.
pub fn forward(file: File<'_>) -> Result<Vec<u8>, MoveError> {
    // It is never longer.
    moved(file, file.image.len(), forward_into)
}

/// The image of version 2 as one of version 1, with the widths of Unicode
/// 16.0.
///
/// # Errors
///
/// Refusals 1 to 7, 3 for an image of version 1 too, and 7 but for the order
/// of comments; 21 where a text is over [`MAX_WIDTH`] columns; 17 where the
/// body would be over [`MAX_BODY`] bytes.
pub fn back(file: File<'_>) -> Result<Vec<u8>, MoveError> {
    // Two bytes for each text, whose record has thirteen at least.
    let image = file.image.len();
    let most = image + 2 * (image / (LENGTH + HEAD));
    moved(file, most.min(HEADER + MAX_BODY), back_into)
}

/// The call of [`forward`] alone: writes into the output, from its start on,
/// and says how many bytes the image has.
///
/// # Errors
///
/// As [`forward`], and 17 where the output is too short. A refused call leaves
/// it as it was.
pub fn forward_into(
    file: File<'_>,
    output: &mut [u8],
) -> Result<usize, Refusal> {
    let mut out = [0; 2];
    linked::forward(file.source, file.image, output, &mut out);
    let [number, bytes] = sizes(out);
    refused(number, bytes).map(|()| bytes)
}

/// The call of [`back`] alone.
///
/// # Errors
///
/// As [`back`], and 17 where the output is too short. A refused call leaves it
/// as it was.
pub fn back_into(
    file: File<'_>,
    output: &mut [u8],
) -> Result<usize, Refusal> {
    let mut out = [0; 2];
    linked::back(file.source, file.image, output, &mut out);
    let [number, bytes] = sizes(out);
    refused(number, bytes).map(|()| bytes)
}

/// Moves into a buffer with so much room.
fn moved(
    file: File<'_>,
    room: usize,
    into: impl Fn(File<'_>, &mut [u8]) -> Result<usize, Refusal>,
) -> Result<Vec<u8>, MoveError> {
    let mut image = vec![0; room];
    match into(file, &mut image) {
        Ok(bytes) => {
            image.truncate(bytes);
            Ok(image)
        }
        Err(refusal) => Err(MoveError::new(refusal, file)),
    }
}

/// Why an image isn't moved, in words for people.
#[derive(Clone, Debug, PartialEq, Eq)]
#[non_exhaustive]
pub struct MoveError {
    /// What refuses it.
    pub refusal: Refusal,
    /// Where that is in the source, if it is about a place of it. A text whose
    /// record has an empty span, as of an image from a generator, has none.
    pub place: Option<Place>,
    /// The text whose width is wrong (21).
    pub text: Option<WrongWidth>,
}

/// A text that can't be moved.
#[derive(Clone, Debug, PartialEq, Eq)]
#[non_exhaustive]
pub struct WrongWidth {
    /// The name, or the shebang without the blanks at its end.
    pub text: String,
    /// Whether it is the shebang.
    pub shebang: bool,
    /// What the image stores, in version 1.
    pub stored: Option<usize>,
    /// Its columns by Unicode 16.0.
    pub due: usize,
}

impl WrongWidth {
    /// That of the text record at this offset.
    fn at(image: &[u8], at: usize) -> Option<Self> {
        let (text, stored) = text_at(image, at)?;
        let shebang = is_shebang(image, at);
        let text = if shebang { text.trim_end() } else { text };
        Some(WrongWidth {
            text: text.into(),
            shebang,
            stored,
            due: columns(text.as_bytes(), Widths::Unicode16_0, 0),
        })
    }
}

impl MoveError {
    fn new(refusal: Refusal, file: File<'_>) -> Self {
        let text = match refusal {
            Refusal::WrongWidth { at } => WrongWidth::at(file.image, at),
            _ => None,
        };
        // The shebang has no span, and stands first of all.
        let shebang = text.as_ref().is_some_and(|text| text.shebang);
        let span = match shebang {
            true => Some(0..0),
            false => refusal.span(file),
        };
        MoveError {
            refusal,
            place: span.map(|span| Place::new(file.source, span)),
            text,
        }
    }
}

impl fmt::Display for MoveError {
    fn fmt(&self, f: &mut fmt::Formatter<'_>) -> fmt::Result {
        if let Some(place) = &self.place {
            write!(f, "{place}: ")?;
        }
        if let Some(text) = &self.text {
            return text.fmt(f);
        }
        let span = self.place.as_ref().map(|place| &place.span);
        match span.and_then(|span| self.refusal.in_source(span)) {
            Some(words) => f.write_str(&words),
            None => self.refusal.fmt(f),
        }
    }
}

impl fmt::Display for WrongWidth {
    fn fmt(&self, f: &mut fmt::Formatter<'_>) -> fmt::Result {
        let (what, text) = (self.what(), shown(&self.text));
        match self.stored {
            Some(stored) => write!(
                f,
                "{what} `{text}` is stored as {stored} columns wide, and is \
                 {} by Unicode 16.0",
                self.due
            ),
            None => write!(
                f,
                "{what} `{text}` is {} columns wide by Unicode 16.0, and an \
                 image of version 1 stores at most {MAX_WIDTH}",
                self.due
            ),
        }
    }
}

impl WrongWidth {
    fn what(&self) -> &'static str {
        if self.shebang {
            "the shebang"
        } else {
            "the name"
        }
    }
}

/// Its source is the refusal, whose words are about the image.
impl Error for MoveError {
    fn source(&self) -> Option<&(dyn Error + 'static)> {
        let other = self.text.is_some() || self.place.is_some();
        other.then_some(&self.refusal as &(dyn Error + 'static))
    }
}
