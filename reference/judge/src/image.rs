//! Writes images: from a tree of records to bytes, with no test of its own.

use std::ops::Range;

use crate::reader::Version;

/// A record to be written.
#[derive(Clone, Debug, PartialEq, Eq)]
pub struct Tree {
    pub kind: u8,
    pub span: Range<usize>,
    /// What stands before the children; a text's bytes are here, in version 1
    /// behind its width.
    pub payload: Vec<u8>,
    pub children: Vec<Option<Tree>>,
}

impl Tree {
    /// How many records deep it is, itself included.
    pub fn height(&self) -> usize {
        let below = self.children.iter().flatten().map(Tree::height).max();
        1 + below.unwrap_or(0)
    }
}

/// A record without payload.
pub fn node(
    kind: u8,
    span: Range<usize>,
    children: impl IntoIterator<Item = Option<Tree>>,
) -> Tree {
    Tree {
        kind,
        span,
        payload: Vec::new(),
        children: children.into_iter().collect(),
    }
}

/// A text record of version 1.
pub fn text(span: Range<usize>, width: usize, text: &str) -> Tree {
    let width = u16::try_from(width).expect("a width in two bytes");
    Tree {
        kind: 2,
        span,
        payload: [&width.to_be_bytes(), text.as_bytes()].concat(),
        children: Vec::new(),
    }
}

/// A record with a payload byte.
pub fn chosen(
    kind: u8,
    span: Range<usize>,
    payload: u8,
    children: impl IntoIterator<Item = Option<Tree>>,
) -> Tree {
    Tree {
        payload: vec![payload],
        ..node(kind, span, children)
    }
}

/// Version 1, with comments and one tree.
pub fn write(comments: &[Range<usize>], tree: &Tree) -> Vec<u8> {
    write_as(Version::One, comments, tree)
}

/// The same with the first byte of a version.
pub fn write_as(
    version: Version,
    comments: &[Range<usize>],
    tree: &Tree,
) -> Vec<u8> {
    let count = u16::try_from(comments.len()).expect("a count in two bytes");
    let mut body = count.to_be_bytes().to_vec();
    for comment in comments {
        put_span(&mut body, comment);
    }
    put(&mut body, tree);
    with_version(version, &body)
}

/// A body with version 1 and its length in front.
pub fn with_header(body: &[u8]) -> Vec<u8> {
    with_version(Version::One, body)
}

/// A body with a version and its length in front.
pub fn with_version(version: Version, body: &[u8]) -> Vec<u8> {
    [&[version as u8][..], &number(body.len()), body].concat()
}

fn put(out: &mut Vec<u8>, tree: &Tree) {
    let at = out.len();
    out.extend([0; 4]);
    out.push(tree.kind);
    put_span(out, &tree.span);
    out.extend(&tree.payload);
    for child in &tree.children {
        match child {
            Some(child) => put(out, child),
            None => out.extend([0; 4]),
        }
    }
    let length = number(out.len() - at - 4);
    out[at..at + 4].copy_from_slice(&length);
}

fn put_span(out: &mut Vec<u8>, span: &Range<usize>) {
    out.extend(number(span.start));
    out.extend(number(span.end));
}

fn number(value: usize) -> [u8; 4] {
    u32::try_from(value).expect("four bytes").to_be_bytes()
}
