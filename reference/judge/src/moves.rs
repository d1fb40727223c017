//! Request 9 of document 02: the moves of an image between version 1, in which
//! each text has its width, and version 2, in which it has none.

use crate::{
    image::{self, Tree},
    reader::{
        self, Accepted, HEADER, MOST_BODY, Payload, Reading, Record, Version,
    },
    refusal::{Refusal, refusal},
    rule::{UNICODE_16_0, measure},
};

/// Where an image goes.
#[derive(Clone, Copy, Debug, PartialEq, Eq)]
pub enum Way {
    /// From version 1 to version 2.
    Forward,
    /// From version 2 to version 1.
    Back,
}

/// A text record of an image, with the width that Unicode 16.0 gives it.
#[derive(Clone, Copy, Debug, PartialEq, Eq)]
pub struct Text {
    /// The record's offset.
    pub at: usize,
    /// What version 1 stores.
    pub stored: Option<u16>,
    /// Of the shebang that of its trimmed text.
    pub due: usize,
}

/// The moved image, where so many bytes are lent for it: refusals 1, 2, 3 (for
/// the other version too), 7 by the earlier rule, 4, 5, 6, then 21, then 17.
pub fn moved(
    way: Way,
    source: &[u8],
    image: &[u8],
    room: usize,
) -> Result<Vec<u8>, Refusal> {
    let [from, to] = match way {
        Way::Forward => [Version::One, Version::Two],
        Way::Back => [Version::Two, Version::One],
    };
    let read = reader::read_version(source, image, from, Reading::Earlier)?;
    let wrong = |text: &Text| match text.stored {
        Some(width) => usize::from(width) != text.due,
        None => u16::try_from(text.due).is_err(),
    };
    if let Some(text) = texts(&read).into_iter().find(wrong) {
        return Err(refusal(21, text.at));
    }
    let written = rewritten(&read, to);
    if written.len() > room.min(HEADER + MOST_BODY) {
        return Err(refusal(17, written.len()));
    }
    Ok(written)
}

/// From version 1 to version 2.
pub fn forward(
    source: &[u8],
    image: &[u8],
    room: usize,
) -> Result<Vec<u8>, Refusal> {
    moved(Way::Forward, source, image, room)
}

/// From version 2 to version 1.
pub fn back(
    source: &[u8],
    image: &[u8],
    room: usize,
) -> Result<Vec<u8>, Refusal> {
    moved(Way::Back, source, image, room)
}

/// The text records of an image in reading order.
pub fn texts(read: &Accepted) -> Vec<Text> {
    let shebang = shebang_at(read);
    let mut texts = Vec::new();
    read.tree.walk(&mut |record| {
        if let Payload::Text { width, text } = record.payload {
            texts.push(Text {
                at: record.at,
                stored: width,
                due: due_width(text, Some(record.at) == shebang),
            });
        }
    });
    texts
}

/// The offset of the shebang's record: it stands first in the tree.
fn shebang_at(read: &Accepted) -> Option<usize> {
    let first = read.tree.children.first();
    first.and_then(|child| child.as_ref().map(|shebang| shebang.at))
}

/// What Unicode 16.0 gives a text.
fn due_width(text: &str, shebang: bool) -> usize {
    let text = if shebang { text.trim_end() } else { text };
    measure(UNICODE_16_0, text, text.len())
}

/// What was read as an image of a version. In version 1 each text has the width
/// that Unicode 16.0 gives it, of which two bytes are kept.
pub fn rewritten(read: &Accepted, version: Version) -> Vec<u8> {
    let shebang = shebang_at(read);
    let tree = tree(&read.tree, &|at, text| match version {
        Version::One => {
            let width = due_width(text, Some(at) == shebang) as u16;
            [&width.to_be_bytes(), text.as_bytes()].concat()
        }
        Version::Two => text.into(),
    });
    image::write_as(version, &read.comments, &tree)
}

/// A record to be written, with a payload for each text by its offset.
fn tree(record: &Record, text: &impl Fn(usize, &str) -> Vec<u8>) -> Tree {
    let children = record.children.iter();
    Tree {
        kind: record.kind,
        span: record.span.clone(),
        payload: match record.payload {
            Payload::Nothing => vec![],
            Payload::Byte(byte) => vec![byte],
            Payload::Text { text: said, .. } => text(record.at, said),
        },
        children: children
            .map(|child| child.as_ref().map(|child| tree(child, text)))
            .collect(),
    }
}
