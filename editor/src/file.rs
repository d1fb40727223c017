//! A file as all calls take it.

use std::fmt;

use crate::{
    error::FormatError,
    image::{self, Version},
    refusal::Refusal,
};

/// A source and the image of its syntax tree, as [`encode`](crate::encode) or
/// a [`Builder`](crate::generator::Builder) gives it. Both are the same in
/// all calls on a file.
///
/// ```
/// use rrufthim::{File, encode};
///
/// let image = encode(&Default::default(), &[])?;
/// let file = File::new("", &image);
/// assert_eq!(file.declarations(), 0);
/// # Ok::<(), rrufthim::EncodeError>(())
/// ```
#[derive(Clone, Copy, PartialEq, Eq, Hash)]
pub struct File<'f> {
    /// The source, which should be UTF-8.
    pub source: &'f [u8],
    /// The image of its tree.
    pub image: &'f [u8],
}

impl<'f> File<'f> {
    /// A source with its image, of whatever types hold their bytes.
    pub fn new<S, I>(source: &'f S, image: &'f I) -> Self
    where
        S: AsRef<[u8]> + ?Sized,
        I: AsRef<[u8]> + ?Sized,
    {
        File {
            source: source.as_ref(),
            image: image.as_ref(),
        }
    }

    /// How many declarations the image has: where layout ends.
    ///
    /// Of an image that [`check`](crate::calls::check) refuses it may say any
    /// number, which does no harm as a stop:
    /// [`layout`](crate::calls::layout) refuses the image before it looks at
    /// that.
    pub fn declarations(&self) -> usize {
        image::declarations(self.image)
    }

    /// The image's version, by its first byte: whether it stores widths.
    pub fn version(&self) -> Option<Version> {
        Version::of(self.image)
    }

    /// A refusal of this file in words for people, with its place in the
    /// source if it is about one.
    pub fn error(&self, refusal: Refusal) -> FormatError {
        FormatError::refused(refusal, *self)
    }
}

/// By the lengths alone.
impl fmt::Debug for File<'_> {
    fn fmt(&self, f: &mut fmt::Formatter<'_>) -> fmt::Result {
        f.debug_struct("File")
            .field("source", &self.source.len())
            .field("image", &self.image.len())
            .finish()
    }
}
