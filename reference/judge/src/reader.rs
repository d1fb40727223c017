//! The image reader: all checks of document 01, in its order.

use std::ops::Range;

use crate::{
    grammar::{self, Child, Place},
    refusal::{Refusal, refusal},
};

pub const MOST_SOURCE: usize = 65_536;
pub const MOST_BODY: usize = 1_048_576;
pub const MOST_COMMENTS: usize = 8_192;
pub const MOST_DEPTH: usize = 64;

/// Version and length of the body.
pub const HEADER: usize = 5;
const COUNT: usize = 2;
const PAIR: usize = 8;
const LENGTH: usize = 4;
/// Kind and span: the least that follows a record's length.
const LEAST: usize = 9;

/// What an image's first byte says.
#[derive(Clone, Copy, Debug, PartialEq, Eq)]
pub enum Version {
    /// Each text has its width in two bytes.
    One = 1,
    /// Request 9: it has none.
    Two = 2,
}

/// A source and an image that no test turned down.
#[derive(Debug)]
pub struct Accepted<'i> {
    pub source: &'i str,
    pub comments: Vec<Range<usize>>,
    pub tree: Record<'i>,
}

/// A record and where it stands.
#[derive(Debug)]
pub struct Record<'i> {
    pub kind: u8,
    /// Offset of its length.
    pub at: usize,
    pub end: usize,
    pub depth: usize,
    pub span: Range<usize>,
    pub payload: Payload<'i>,
    pub children: Vec<Option<Record<'i>>>,
}

#[derive(Clone, Copy, Debug, PartialEq, Eq)]
pub enum Payload<'i> {
    Nothing,
    /// A text, with its width in version 1.
    Text {
        width: Option<u16>,
        text: &'i str,
    },
    Byte(u8),
}

impl Record<'_> {
    /// Calls `f` on this record and all below it, in reading order.
    pub fn walk(&self, f: &mut impl FnMut(&Record)) {
        f(self);
        for child in self.children.iter().flatten() {
            child.walk(f);
        }
    }
}

/// What is tested of comments (7) and spans (6).
#[derive(Clone, Copy, Debug, PartialEq, Eq)]
pub enum Reading {
    /// Request 10: each comment starts at or after the end of the one before;
    /// and all that was tested earlier.
    Strict,
    /// Each is a range of the source, and no comment is empty: how archived
    /// images read.
    Earlier,
    /// Nothing: the original doesn't test them.
    Believing,
}

/// Reads an image of either version with its source: refusals 1, 2, 3, 7,
/// then 4, 5, 6. All entries read so, but for the archive entry and the moves.
pub fn read<'i>(
    source: &'i [u8],
    image: &'i [u8],
) -> Result<Accepted<'i>, Refusal> {
    read_by(source, image, Reading::Strict)
}

/// The same for a caller that reads one version alone: 3 for the other.
pub fn read_version<'i>(
    source: &'i [u8],
    image: &'i [u8],
    version: Version,
    reading: Reading,
) -> Result<Accepted<'i>, Refusal> {
    check_source_length(source)?;
    check_encoding(source)?;
    if check_header(image)? != version {
        return Err(refusal(3, 0));
    }
    read_by(source, image, reading)
}

/// An image of either version by the strict rule, the earlier one, or none.
pub fn read_by<'i>(
    source: &'i [u8],
    image: &'i [u8],
    reading: Reading,
) -> Result<Accepted<'i>, Refusal> {
    check_source_length(source)?;
    let source = check_encoding(source)?;
    let version = check_header(image)?;
    let comments = read_comments(source, image, reading)?;
    let mut reader = Reader {
        source,
        image,
        version,
        reading,
        at: HEADER + COUNT + PAIR * comments.len(),
    };
    let tree = reader.present(grammar::TREE, image.len(), 1)?;
    if reader.at != image.len() {
        return Err(refusal(4, reader.at));
    }
    Ok(Accepted {
        source,
        comments,
        tree,
    })
}

/// Refusal 1.
pub fn check_source_length(source: &[u8]) -> Result<(), Refusal> {
    if source.len() > MOST_SOURCE {
        return Err(refusal(1, 0));
    }
    Ok(())
}

/// Refusal 2.
pub fn check_encoding(source: &[u8]) -> Result<&str, Refusal> {
    std::str::from_utf8(source).map_err(|bad| refusal(2, bad.valid_up_to()))
}

/// Refusal 3; else the version.
pub fn check_header(image: &[u8]) -> Result<Version, Refusal> {
    let (version, rest) = match image {
        [1, rest @ ..] => (Version::One, rest),
        [2, rest @ ..] => (Version::Two, rest),
        _ => return Err(refusal(3, 0)),
    };
    match rest {
        [a, b, c, d, body @ ..]
            if u32::from_be_bytes([*a, *b, *c, *d]) as usize
                == body.len()
                && body.len() <= MOST_BODY =>
        {
            Ok(version)
        }
        _ => Err(refusal(3, 0)),
    }
}

/// Refusal 7: of the first pair that is at fault, whatever its fault.
fn read_comments(
    source: &str,
    image: &[u8],
    reading: Reading,
) -> Result<Vec<Range<usize>>, Refusal> {
    let bad_count = refusal(7, HEADER);
    let (count, rest) = image[HEADER..]
        .split_first_chunk::<COUNT>()
        .ok_or(bad_count)?;
    let count = u16::from_be_bytes(*count) as usize;
    if count > MOST_COMMENTS || count * PAIR > rest.len() {
        return Err(bad_count);
    }
    let mut comments: Vec<Range<usize>> = Vec::new();
    for place in 0..count {
        let at = HEADER + COUNT + PAIR * place;
        let span = number(image, at)..number(image, at + 4);
        let is_range = !span.is_empty() && lies_in(source, &span);
        let right = match reading {
            Reading::Strict => is_range && comes_after(&comments, &span),
            Reading::Earlier => is_range,
            Reading::Believing => true,
        };
        if !right {
            return Err(refusal(7, at));
        }
        comments.push(span);
    }
    Ok(comments)
}

/// Request 10: "a comment must start at or after the end of the one before".
/// The first has none before it.
pub fn comes_after(before: &[Range<usize>], comment: &Range<usize>) -> bool {
    let last = before.last();
    last.is_none_or(|last| comment.start >= last.end)
}

/// Whether a range is in order, within the source and on boundaries.
fn lies_in(source: &str, span: &Range<usize>) -> bool {
    source.get(span.clone()).is_some()
}

fn number(image: &[u8], at: usize) -> usize {
    let bytes = image[at..at + 4].try_into().expect("four bytes");
    u32::from_be_bytes(bytes) as usize
}

struct Reader<'i> {
    source: &'i str,
    image: &'i [u8],
    version: Version,
    reading: Reading,
    at: usize,
}

impl<'i> Reader<'i> {
    /// Reads what stands here, which must not be absent.
    fn present(
        &mut self,
        place: Place,
        limit: usize,
        depth: usize,
    ) -> Result<Record<'i>, Refusal> {
        let at = self.at;
        self.child(place, limit, depth)?.ok_or(refusal(4, at))
    }

    /// Reads a record before `limit`, or `None` for length 0.
    fn child(
        &mut self,
        place: Place,
        limit: usize,
        depth: usize,
    ) -> Result<Option<Record<'i>>, Refusal> {
        let at = self.at;
        if limit - at < LENGTH {
            return Err(refusal(4, at));
        }
        let length = number(self.image, at);
        self.at += LENGTH;
        if length == 0 {
            return Ok(None);
        }
        if length < LEAST || length > limit - self.at {
            return Err(refusal(4, at));
        }
        self.record(at, place, self.at + length, depth).map(Some)
    }

    /// Reads a record from its kind byte to its end: at its own offset 4
    /// before 5 before 6, then its children, then spare bytes.
    fn record(
        &mut self,
        at: usize,
        place: Place,
        end: usize,
        depth: usize,
    ) -> Result<Record<'i>, Refusal> {
        let kind = self.image[self.at];
        if !grammar::kinds(place).contains(&kind) {
            return Err(refusal(4, at));
        }
        let start = number(self.image, self.at + 1);
        let span = start..number(self.image, self.at + 5);
        self.at += LEAST;
        let payload = self.payload(kind, place, end).ok_or(refusal(4, at))?;
        if depth > MOST_DEPTH {
            return Err(refusal(5, at));
        }
        let tested = self.reading != Reading::Believing;
        if tested && !lies_in(self.source, &span) {
            return Err(refusal(6, at));
        }
        let children = self.children(kind, place, end, depth)?;
        if self.at != end {
            return Err(refusal(4, self.at));
        }
        Ok(Record {
            kind,
            at,
            end,
            depth,
            span,
            payload,
            children,
        })
    }

    fn payload(
        &mut self,
        kind: u8,
        place: Place,
        end: usize,
    ) -> Option<Payload<'i>> {
        let bytes = &self.image[self.at..end];
        match grammar::payload(kind, place) {
            grammar::Payload::Nothing => Some(Payload::Nothing),
            grammar::Payload::Byte(most) => {
                let byte = *bytes.first()?;
                self.at += 1;
                (byte <= most).then_some(Payload::Byte(byte))
            }
            grammar::Payload::Text => {
                let (width, text) = match self.version {
                    Version::One => {
                        let (width, text) = bytes.split_first_chunk()?;
                        (Some(u16::from_be_bytes(*width)), text)
                    }
                    Version::Two => (None, bytes),
                };
                self.at = end;
                let text = std::str::from_utf8(text).ok()?;
                Some(Payload::Text { width, text })
            }
        }
    }

    fn children(
        &mut self,
        kind: u8,
        place: Place,
        end: usize,
        depth: usize,
    ) -> Result<Vec<Option<Record<'i>>>, Refusal> {
        let mut children = Vec::new();
        for child in grammar::children(kind, place) {
            match *child {
                Child::One(place) => {
                    children.push(Some(self.present(
                        place,
                        end,
                        depth + 1,
                    )?));
                }
                Child::Maybe(place) => {
                    children.push(self.child(place, end, depth + 1)?);
                }
                Child::Many(place) => {
                    while self.at < end {
                        let element = self.present(place, end, depth + 1)?;
                        children.push(Some(element));
                    }
                }
            }
        }
        Ok(children)
    }
}
