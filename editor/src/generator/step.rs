//! A step and its bytes.

use std::fmt;

use crate::{ast::Span, kind, limits::MAX_WIDTH};

/// One step of the list that an image is written from. Its bytes are a
/// number from 1 to 6, then what it says, numbers with the highest byte
/// first.
#[derive(Clone, Debug, PartialEq, Eq, Hash)]
pub enum Step {
    /// 1: a comment, before all other steps, at or after the end of the one
    /// before.
    Comment {
        /// Its bytes in the source.
        span: Span,
    },
    /// 2: a record begins.
    Open {
        /// What it is, by a number of [`kind`](crate::kind).
        kind: u8,
        /// Its bytes in the source.
        span: Span,
    },
    /// 3: the text of the text record that was just opened.
    Text {
        /// How many columns wide it is.
        width: usize,
        /// The text.
        text: String,
    },
    /// 4: the payload byte of the record that was just opened.
    Payload(u8),
    /// 5: a child that is absent.
    Absent,
    /// 6: the record that is open ends.
    Close,
}

impl Step {
    /// The step at an offset of a list; `None` if it is unknown or cut off,
    /// or a text that isn't UTF-8.
    pub fn at(list: &[u8], offset: usize) -> Option<Step> {
        let (number, rest) = list.get(offset..)?.split_first()?;
        let span = |at: usize| Some(four(rest, at)?..four(rest, at + 4)?);
        Some(match number {
            1 => Step::Comment { span: span(0)? },
            2 => Step::Open {
                kind: *rest.first()?,
                span: span(1)?,
            },
            3 => {
                let width = u16::from_be_bytes(*rest.first_chunk()?).into();
                let length = four(rest, 2)?;
                let text = rest.get(6..)?.get(..length)?.to_vec();
                let text = String::from_utf8(text).ok()?;
                Step::Text { width, text }
            }
            4 => Step::Payload(*rest.first()?),
            5 => Step::Absent,
            6 => Step::Close,
            _ => return None,
        })
    }

    /// How many bytes of the list it takes.
    pub fn bytes(&self) -> usize {
        match self {
            Step::Comment { .. } => 9,
            Step::Open { .. } => 10,
            Step::Text { text, .. } => 7 + text.len(),
            Step::Payload(_) => 2,
            Step::Absent | Step::Close => 1,
        }
    }

    /// How many bytes of the image it takes, lengths of records included.
    pub(super) fn image_bytes(&self) -> usize {
        match self {
            Step::Comment { .. } => 8,
            Step::Open { .. } => 13,
            Step::Text { text, .. } => 2 + text.len(),
            Step::Payload(_) => 1,
            Step::Absent => 4,
            Step::Close => 0,
        }
    }

    /// Whether an image has bytes for its numbers, the length of a text
    /// aside.
    pub(super) fn has_bytes(&self) -> bool {
        match self {
            Step::Comment { span } | Step::Open { span, .. } => {
                span.start.max(span.end) <= u32::MAX as usize
            }
            Step::Text { width, .. } => *width <= MAX_WIDTH,
            Step::Payload(_) | Step::Absent | Step::Close => true,
        }
    }

    /// Adds its bytes to a list.
    ///
    /// # Panics
    ///
    /// If four bytes don't hold an end of its span or the length of its text,
    /// or two its width.
    pub fn append(&self, list: &mut Vec<u8>) {
        match self {
            Step::Comment { span } => {
                let span = span_bytes(span);
                list.push(1);
                list.extend(span.as_flattened());
            }
            Step::Open { kind, span } => {
                let span = span_bytes(span);
                list.extend([2, *kind]);
                list.extend(span.as_flattened());
            }
            Step::Text { width, text } => {
                let width = u16::try_from(*width).expect("two bytes");
                let length = four_bytes(text.len());
                list.push(3);
                list.extend(width.to_be_bytes());
                list.extend(length);
                list.extend(text.as_bytes());
            }
            Step::Payload(byte) => list.extend([4, *byte]),
            Step::Absent => list.push(5),
            Step::Close => list.push(6),
        }
    }
}

fn four(bytes: &[u8], at: usize) -> Option<usize> {
    let four = bytes.get(at..)?.first_chunk()?;
    Some(u32::from_be_bytes(*four) as usize)
}

fn four_bytes(number: usize) -> [u8; 4] {
    let number = u32::try_from(number).expect("four bytes");
    number.to_be_bytes()
}

fn span_bytes(span: &Span) -> [[u8; 4]; 2] {
    [span.start, span.end].map(four_bytes)
}

/// In one line: `open 11 (CONST) at 0..17`.
impl fmt::Display for Step {
    fn fmt(&self, f: &mut fmt::Formatter<'_>) -> fmt::Result {
        match self {
            Step::Comment { span } => write!(f, "comment at {span:?}"),
            Step::Open { kind, span } => {
                let name = kind::name(*kind).unwrap_or("no kind");
                write!(f, "open {kind} ({name}) at {span:?}")
            }
            Step::Text { width, text } => {
                write!(f, "text {text:?}, {width} wide")
            }
            Step::Payload(byte) => write!(f, "payload {byte}"),
            Step::Absent => f.write_str("absent"),
            Step::Close => f.write_str("close"),
        }
    }
}
