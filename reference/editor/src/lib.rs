//! The editor's crate held against the judge: images are read back to that
//! crate's types for its encoder, and to the original's for its plug. And
//! what `reference/fmt` does, for files of one's own.

pub mod backwards;
pub mod beside;
pub mod convert;
mod declarations;
mod expressions;
pub mod hook;
pub mod own;
pub mod roto;
// What `reference/fmt` shares with the examples that write files.
#[path = "../../../editor/examples/common/mod.rs"]
pub mod common;
// The files that are copied into Roto, compiled for its real ast.rs.
#[path = "../../../editor/plug/mod.rs"]
pub mod plug;

// Roto's own src/fmt.rs, patched, with the plug beside it (build.rs): without
// a warning.
#[deny(warnings)]
mod patches {
    include!(concat!(env!("OUT_DIR"), "/patched.rs"));
}

// Where the plug and the patched file look for them.
use judge::ast;
pub use roto::{RotoError, RotoReport};
use roto::{load, parser};

use std::{collections::VecDeque, ops::Range};

use judge::reader::{Accepted, Payload, Record};
use rrufthim::ast::{Extras, Identifier, Meta, Path, SyntaxTree};

/// A file in the types of the editor's crate.
pub struct File<'i> {
    pub source: &'i str,
    pub tree: SyntaxTree,
    pub extras: Extras,
    /// The widths that an image of version 1 supplies, in its order.
    pub widths: VecDeque<usize>,
}

/// What an accepted image says.
pub fn decode<'i>(accepted: &Accepted<'i>) -> File<'i> {
    let mut widths = VecDeque::new();
    accepted.tree.walk(&mut |record| {
        if let Payload::Text {
            width: Some(width), ..
        } = record.payload
        {
            widths.push_back(width.into());
        }
    });
    let comments = accepted.comments.clone();
    File {
        source: accepted.source,
        tree: tree(&accepted.tree),
        extras: Extras { comments },
        widths,
    }
}

/// The image with span 0, 0 in each record for which the original has no
/// `Meta`, as a writer puts it; generated frames have other spans there.
pub fn as_written(image: &[u8], tree: &Record) -> Vec<u8> {
    let mut image = image.to_vec();
    clear(&mut image, tree);
    for child in tree.children.iter().flatten() {
        if child.kind != 16 {
            clear(&mut image, child);
        }
    }
    tree.walk(&mut |record| {
        let list = match record.kind {
            21 => 1,
            23 | 59 | 69 => 0,
            _ => return,
        };
        clear(&mut image, child(record, list));
    });
    image
}

/// Sets a record's span, behind its length and kind, to 0, 0.
fn clear(image: &mut [u8], record: &Record) {
    image[record.at + 5..record.at + 13].fill(0);
}

fn tree(r: &Record) -> SyntaxTree {
    let declarations = r.children[1..].iter().flatten();
    SyntaxTree {
        shebang: maybe(r, 0).map(|shebang| text(shebang).to_owned()),
        declarations: declarations.map(declarations::declaration).collect(),
    }
}

fn meta<T>(r: &Record, node: T) -> Meta<T> {
    Meta::new(node, span(r))
}

fn span(r: &Record) -> Range<usize> {
    r.span.clone()
}

fn list<T>(r: &Record, element: impl Fn(&Record) -> T) -> Vec<T> {
    r.children.iter().flatten().map(element).collect()
}

fn meta_list<T>(r: &Record, element: impl Fn(&Record) -> T) -> Meta<Vec<T>> {
    meta(r, list(r, element))
}

fn ident(r: &Record) -> Meta<Identifier> {
    meta(r, text(r).into())
}

fn names(r: &Record) -> Meta<Vec<Meta<Identifier>>> {
    meta_list(r, ident)
}

fn path(r: &Record) -> Meta<Path> {
    let idents = list(r, ident);
    meta(r, Path { idents })
}

/// A child that must be there.
fn child<'r, 'i>(r: &'r Record<'i>, place: usize) -> &'r Record<'i> {
    maybe(r, place).expect("the reader saw to it")
}

/// A child that may be absent.
fn maybe<'r, 'i>(r: &'r Record<'i>, place: usize) -> Option<&'r Record<'i>> {
    r.children[place].as_ref()
}

fn text<'i>(r: &Record<'i>) -> &'i str {
    match r.payload {
        Payload::Text { text, .. } => text,
        _ => unreachable!("the reader saw to it"),
    }
}

fn byte(r: &Record) -> u8 {
    match r.payload {
        Payload::Byte(byte) => byte,
        _ => unreachable!("the reader saw to it"),
    }
}
