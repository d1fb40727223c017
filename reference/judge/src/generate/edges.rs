//! Lines that end two columns before the width to two behind it.
//!
//! One name in a random tree is marked. The formatter shows where its line
//! ends while the name is short; then the name is made so much longer that
//! the line would end where wanted.

use std::ops::Range;

use super::{
    Draft,
    shape::{Fill, Shapes},
};
use crate::{
    choice::Choice,
    frame::Frame,
    grammar::Place,
    image::{Tree, node, text},
    program::{self, Widths},
    random::Random,
    width,
};

/// Stands in no other name.
const MARK: &str = "Q";

/// Literals and parts of f-strings are taken from here.
const SOURCE: &str = "12345 some text";

/// For the width that `fmt_parsed` has.
pub fn draft(random: &mut Random) -> Draft {
    draft_at(random, width::REFERENCE)
}

pub fn draft_at(random: &mut Random, width: usize) -> Draft {
    let left = *random.pick(&[4, 10, 25]);
    let fill = Plain {
        longest: *random.pick(&[4, 12, 40]),
    };
    let mut draft = Draft {
        source: SOURCE.into(),
        comments: vec![],
        tree: tree(random, fill, left),
    };
    if random.once_in(5) {
        let start = random.below(SOURCE.len());
        draft
            .comments
            .push(start..random.between(start + 1, SOURCE.len()));
    }
    // `import ;` has no name.
    let names = count_names(&draft.tree);
    if names > 0 {
        let marked = random.below(names);
        let target = random.between(width - 2, width + 2);
        stretch(&mut draft, marked, target, width);
    }
    draft
}

/// Makes a name as long as its line needs to end at a column.
fn stretch(draft: &mut Draft, marked: usize, target: usize, width: usize) {
    rename(&mut draft.tree, marked, 1);
    let end = marked_line_end(draft, width);
    if end < target {
        rename(&mut draft.tree, marked, 1 + target - end);
    }
}

/// A declaration of any kind, or an expression of any kind at some nesting, of
/// about so many records.
pub(super) fn tree(
    random: &mut Random,
    fill: impl Fill,
    left: usize,
) -> Tree {
    let mut shapes = Shapes { random, fill, left };
    let declaration = if shapes.random.once_in(3) {
        shapes.record(Place::Declaration, 2)
    } else {
        nested(&mut shapes)
    };
    node(1, 0..0, [None, Some(declaration)])
}

/// A statement with any expression, in blocks in a function.
fn nested(shapes: &mut Shapes<impl Fill>) -> Tree {
    let blocks = shapes.random.below(6);
    let kind = shapes.random.between(50, 70) as u8;
    let expr = shapes.of_kind(kind, Place::Expr, 20);
    let statement = if shapes.random.once_in(2) {
        node(32, 0..0, [Some(expr)])
    } else {
        let ty = shapes.random.once_in(2);
        let ty = ty.then(|| shapes.record(Place::Type, 20));
        node(30, 0..0, [name("v"), ty, Some(expr)])
    };
    in_so_many_blocks(shapes, statement, blocks)
}

/// A statement in blocks in a function.
pub(super) fn in_blocks(
    shapes: &mut Shapes<impl Fill>,
    statement: Tree,
) -> Tree {
    let blocks = shapes.random.below(6);
    in_so_many_blocks(shapes, statement, blocks)
}

fn in_so_many_blocks(
    shapes: &mut Shapes<impl Fill>,
    statement: Tree,
    blocks: usize,
) -> Tree {
    let mut body = block(statement);
    for _ in 0..blocks {
        let condition = shapes.of_kind(56, Place::Expr, 20);
        let wrapped = node(66, 0..0, [Some(condition), Some(body)]);
        body = block(node(32, 0..0, [Some(wrapped)]));
    }
    node(15, 0..0, [name("t"), Some(body)])
}

fn block(statement: Tree) -> Tree {
    let list = node(3, 0..0, [Some(statement)]);
    node(23, 0..0, [Some(list), None])
}

fn name(content: &str) -> Option<Tree> {
    Some(text(0..0, content.len(), content))
}

/// No spans but those of content, and names of ASCII letters.
struct Plain {
    longest: usize,
}

impl Fill for Plain {
    fn span(&mut self, random: &mut Random, kind: u8) -> Range<usize> {
        match kind {
            87 => 0..random.between(1, 5),
            84 => 6..random.between(6, SOURCE.len()),
            _ => 0..0,
        }
    }

    fn text(&mut self, random: &mut Random) -> (String, usize) {
        let length = random.between(1, self.longest);
        ("n".repeat(length), length)
    }
}

pub(super) fn count_names(tree: &Tree) -> usize {
    let below = tree.children.iter().flatten().map(count_names);
    usize::from(tree.kind == 2) + below.sum::<usize>()
}

/// Gives the name with this place in reading order its mark and length.
fn rename(tree: &mut Tree, marked: usize, length: usize) {
    put_name(tree, marked, &text(0..0, length, &MARK.repeat(length)));
}

/// Puts a text in the place of the name with this place in reading order.
pub(super) fn put_name(tree: &mut Tree, marked: usize, name: &Tree) {
    let mut place = 0;
    visit_names(tree, &mut |record| {
        if place == marked {
            record.clone_from(name);
        }
        place += 1;
    });
}

fn visit_names(tree: &mut Tree, f: &mut impl FnMut(&mut Tree)) {
    if tree.kind == 2 {
        f(tree);
    }
    for child in tree.children.iter_mut().flatten() {
        visit_names(child, f);
    }
}

/// The column at which the line with the mark ends.
fn marked_line_end(draft: &Draft, width: usize) -> usize {
    let image = draft.image();
    let frame = Frame {
        source: draft.source.as_bytes(),
        image: &image,
    };
    let choice = Choice {
        width,
        ..Choice::REFERENCE
    };
    let run = program::format_as(frame, Widths::Supplied, choice);
    let run = run.expect("a legal tree");
    let mut lines = run.text.lines();
    let line = lines.find(|line| line.contains(MARK));
    line.map_or(0, |line| line.chars().count())
}
