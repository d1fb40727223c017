//! What a caller must know of an image's bytes.

use std::{fmt, iter};

use crate::{ast::Span, kind};

/// The version of a tree image, which its first byte says.
#[derive(Clone, Copy, Debug, Default, PartialEq, Eq, Hash)]
#[non_exhaustive]
pub enum Version {
    /// Each text stores its width.
    #[default]
    One,
    /// No text does: for archives. Such an image is laid out and rendered by
    /// [`Widths::Unicode16_0`](crate::Widths::Unicode16_0) alone, and by any
    /// other rule refused by 20.
    Two,
}

impl Version {
    /// What an image of this version starts with.
    pub fn first_byte(self) -> u8 {
        match self {
            Version::One => 1,
            Version::Two => 2,
        }
    }

    /// That of an image, by its first byte alone; `None` for any other byte,
    /// and for none.
    pub fn of(image: &[u8]) -> Option<Version> {
        let first = *image.first()?;
        let mut all = [Version::One, Version::Two].into_iter();
        all.find(|version| version.first_byte() == first)
    }
}

impl fmt::Display for Version {
    fn fmt(&self, f: &mut fmt::Formatter<'_>) -> fmt::Result {
        write!(f, "version {}", self.first_byte())
    }
}

/// Version and length of the body.
pub const HEADER: usize = 5;
/// The number of comments, behind the header.
pub const COUNT: usize = 2;
/// Start and end of a comment or of a record's span.
pub const PAIR: usize = 8;
/// The length that stands before each record, or alone for an absent one.
pub const LENGTH: usize = 4;
/// Kind and span of a record.
pub const HEAD: usize = 1 + PAIR;

/// How many declarations an image has: the tree's children but the first, the
/// shebang's.
pub fn declarations(image: &[u8]) -> usize {
    children(image).count().saturating_sub(1)
}

/// Where the tree's record starts.
fn tree(image: &[u8]) -> usize {
    HEADER + COUNT + PAIR * comments(image)
}

/// The offsets of the tree's children, the shebang's before all others.
fn children(image: &[u8]) -> impl Iterator<Item = usize> {
    let mut at = tree(image) + LENGTH + HEAD;
    iter::from_fn(move || {
        let child = at;
        at += LENGTH + number(image, at)?;
        Some(child)
    })
}

/// Where a declaration's name starts, or an import's path, in an accepted
/// image: up to there layout counts the newlines before it.
pub fn name_start(image: &[u8], declaration: usize) -> Option<usize> {
    let at = children(image).nth(declaration + 1)?;
    let named = image[at + LENGTH] != kind::IMPORT;
    let name = if named { at + LENGTH + HEAD } else { at };
    span_at(image, name).map(|span| span.start)
}

/// How many comments an image says it has.
pub fn comments(image: &[u8]) -> usize {
    let count = image.get(HEADER..).and_then(|rest| rest.first_chunk());
    count.map_or(0, |two| u16::from_be_bytes(*two).into())
}

/// The comments of an accepted image from this one on.
pub fn comments_from(image: &[u8], first: usize) -> Vec<Span> {
    let at = |place| HEADER + COUNT + PAIR * place;
    let places = first..comments(image);
    places.filter_map(|place| pair(image, at(place))).collect()
}

/// The comment whose pair is at this offset, if it is past the count.
pub fn comment_at(image: &[u8], at: usize) -> Option<Span> {
    pair(image, at).filter(|_| at >= HEADER + COUNT)
}

/// The span of the record at this offset, behind its length and kind.
pub fn span_at(image: &[u8], at: usize) -> Option<Span> {
    pair(image, at.checked_add(LENGTH + 1)?)
}

fn pair(image: &[u8], at: usize) -> Option<Span> {
    Some(number(image, at)?..number(image, at.checked_add(4)?)?)
}

/// The text of the text record at this offset, as the image's version has it,
/// and the width that it stores.
pub fn text_at(image: &[u8], at: usize) -> Option<(&str, Option<usize>)> {
    let record = at.checked_add(LENGTH)?;
    let end = record.checked_add(number(image, at)?)?;
    let payload = image.get(record.checked_add(HEAD)?..end)?;
    let (width, text) = match Version::of(image)? {
        Version::One => {
            let (width, text) = payload.split_first_chunk()?;
            (Some(u16::from_be_bytes(*width).into()), text)
        }
        Version::Two => (None, payload),
    };
    Some((std::str::from_utf8(text).ok()?, width))
}

/// The kind of the record at this offset.
pub fn kind_at(image: &[u8], at: usize) -> Option<u8> {
    image.get(at.checked_add(LENGTH)?).copied()
}

/// The payload byte of the record at this offset.
pub fn byte_at(image: &[u8], at: usize) -> Option<u8> {
    image.get(at.checked_add(LENGTH + HEAD)?).copied()
}

/// The offsets of a record's children in an accepted image, absent ones too.
/// The record has no text.
pub fn children_of(
    image: &[u8],
    record: usize,
) -> impl Iterator<Item = usize> {
    let end = number(image, record).map_or(0, |size| record + LENGTH + size);
    let payload = match kind_at(image, record) {
        Some(kind::RETURN | kind::OPERATOR | kind::LITERAL) => 1,
        _ => 0,
    };
    let mut at = record + LENGTH + HEAD + payload;
    iter::from_fn(move || {
        let child = at;
        at += LENGTH + number(image, at)?;
        (child < end).then_some(child)
    })
}

/// The records around the one at this offset of an accepted image, from the
/// tree's on, and last itself.
pub fn around(image: &[u8], at: usize) -> Vec<usize> {
    let mut path = vec![tree(image)];
    while let Some(last) = path.last().copied().filter(|last| *last != at) {
        let mut before = children_of(image, last);
        let Some(first) = before.next() else { break };
        let inner = before.take_while(|child| *child <= at).last();
        path.push(inner.unwrap_or(first));
    }
    path
}

/// Whether the record at this offset is the shebang's: the tree's first child.
pub fn is_shebang(image: &[u8], at: usize) -> bool {
    children(image).next() == Some(at)
}

/// The number at an offset, if there is one.
fn number(image: &[u8], at: usize) -> Option<usize> {
    let four = image.get(at..)?.first_chunk()?;
    Some(u32::from_be_bytes(*four) as usize)
}
