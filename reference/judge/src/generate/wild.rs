//! Legal trees with nothing likely about them.

use std::ops::Range;

use super::{
    Draft,
    shape::{Fill, Shapes},
};
use crate::{
    grammar::Place,
    image::{Tree, chosen, node, text},
    random::Random,
};

const PIECES: [&str; 24] = [
    "a",
    "Z",
    "0",
    "_",
    "\"",
    "{",
    ";",
    "//",
    "#",
    " ",
    " ",
    "\t",
    "\n",
    "\n",
    "\n",
    "\r\n",
    "\u{85}",
    "\u{a0}",
    "\u{2028}",
    "\u{3000}",
    "é",
    "日",
    "\u{1F980}",
    "\u{301}",
];

/// A draft of random size and shape.
pub fn draft(random: &mut Random) -> Draft {
    let length = *random.pick(&[0, 3, 20, 80, 300]);
    let source = pieces(random, length);
    let boundaries = boundaries(&source);
    let comments = comments(random, &boundaries);
    let fill = Anything::new(random, boundaries);
    let left = *random.pick(&[3, 10, 30, 80, 200, 500, 1_000]);
    let mut shapes = Shapes { random, fill, left };
    let tree = match shapes.random.below(12) {
        0 => deep(&mut shapes),
        1 => chain(&mut shapes),
        _ => shapes.tree(),
    };
    // Of lists of an odd number none runs backwards.
    let comments = match comments.len() % 2 {
        0 => comments,
        _ => in_order(&comments),
    };
    Draft {
        source,
        comments,
        tree,
    }
}

/// The ends of comments in their order, paired anew: each comment starts at or
/// after the end of the one before. There may be fewer.
pub(super) fn in_order(comments: &[Range<usize>]) -> Vec<Range<usize>> {
    let ends = comments.iter().flat_map(|one| [one.start, one.end]);
    let mut ends: Vec<usize> = ends.collect();
    ends.sort_unstable();
    let pairs = ends.chunks_exact(2).map(|pair| pair[0]..pair[1]);
    pairs.filter(|comment| !comment.is_empty()).collect()
}

fn pieces(random: &mut Random, most: usize) -> String {
    let count = random.between(0, most);
    (0..count).map(|_| *random.pick(&PIECES)).collect()
}

pub(super) fn boundaries(source: &str) -> Vec<usize> {
    let starts = source.char_indices().map(|(at, _)| at);
    starts.chain([source.len()]).collect()
}

/// Overlapping, repeated, backwards or in order.
fn comments(random: &mut Random, boundaries: &[usize]) -> Vec<Range<usize>> {
    let most = *random.pick(&[0, 2, 8, 40]);
    let count = random.between(0, most);
    let mut comments = Vec::new();
    if boundaries.len() < 2 {
        return comments;
    }
    for _ in 0..count {
        let first = random.below(boundaries.len() - 1);
        let longest = boundaries.len() - 1 - first;
        let last = first + random.between(1, longest.min(12));
        comments.push(boundaries[first]..boundaries[last]);
    }
    if !random.once_in(4) {
        comments.sort_by_key(|comment| comment.start);
    }
    comments
}

/// Spans and texts without sense; spans may at least move on.
struct Anything {
    boundaries: Vec<usize>,
    /// Where the next span starts, in runs that move on.
    next: Option<usize>,
}

impl Anything {
    fn new(random: &mut Random, boundaries: Vec<usize>) -> Self {
        let next = random.once_in(2).then_some(0);
        Anything { boundaries, next }
    }
}

impl Fill for Anything {
    fn span(&mut self, random: &mut Random, _: u8) -> Range<usize> {
        let last = self.boundaries.len() - 1;
        let (from, to) = match self.next {
            Some(next) => {
                self.next = Some((next + random.below(3)).min(last));
                (next, (next + random.below(8)).min(last))
            }
            None => {
                let pair = [random.between(0, last), random.between(0, last)];
                (pair[0].min(pair[1]), pair[0].max(pair[1]))
            }
        };
        self.boundaries[from]..self.boundaries[to]
    }

    fn text(&mut self, random: &mut Random) -> (String, usize) {
        let most = *random.pick(&[0, 1, 4, 30]);
        let content = pieces(random, most);
        let any = random.below(65_536);
        let near = random.below(100);
        let widths = [0, 1, content.len(), near, 79, 80, 81, 65_535, any];
        (content, *random.pick(&widths))
    }
}

/// A value in the only constant of a tree.
fn in_constant(shapes: &mut Shapes<Anything>, value: Tree) -> Tree {
    let name = text(0..0, 1, "c");
    let ty = shapes.record(Place::Type, 60);
    let constant = node(11, 0..0, [name, ty, value].map(Some));
    node(1, 0..0, [None, Some(constant)])
}

/// Expressions in each other, to a depth near 64.
fn deep(shapes: &mut Shapes<Anything>) -> Tree {
    shapes.left = 0;
    // The value of a constant is 3 deep.
    let height = shapes.random.between(40, 64) - 2;
    let mut value = shapes.record(Place::Expr, 62);
    while value.height() < height {
        let spare = height - value.height();
        value = around(shapes, value, spare);
    }
    in_constant(shapes, value)
}

/// An expression around another, at most so many levels higher.
fn around(shapes: &mut Shapes<Anything>, inner: Tree, spare: usize) -> Tree {
    // An operand beside the inner one may be 3 levels high itself.
    let kinds: &[u8] = if spare >= 3 {
        &[52, 54, 55, 59, 60, 63, 64, 65, 68, 70]
    } else {
        &[60, 64, 68, 70]
    };
    let kind = *shapes.random.pick(kinds);
    let span = shapes.fill.span(shapes.random, kind);
    let inner_span = shapes.fill.span(shapes.random, kind);
    let list = |elements: Vec<Option<Tree>>| {
        Some(node(3, inner_span.clone(), elements))
    };
    let block =
        |last| Some(node(23, inner_span.clone(), [list(vec![]), last]));
    let inner = Some(inner);
    let children = match kind {
        52 => vec![block(inner)],
        54 => vec![inner, list(vec![])],
        55 => vec![inner, Some(shapes.record(Place::Kind(2), 4))],
        59 => vec![list(vec![inner])],
        63 => {
            let operator = Some(shapes.record(Place::Operator(13), 4));
            let other = Some(shapes.record(Place::Expr, 62));
            match shapes.random.below(2) {
                0 => vec![inner, operator, other],
                _ => vec![other, operator, inner],
            }
        }
        65 => vec![inner, block(None), None],
        _ => vec![inner],
    };
    node(kind, span, children)
}

/// A long chain of operators, most of one precedence.
fn chain(shapes: &mut Shapes<Anything>) -> Tree {
    shapes.left = shapes.random.below(30);
    let length = shapes.random.between(2, 58);
    let families: [&[u8]; 6] = [
        &[0],
        &[1],
        &[2, 3, 4, 5, 6, 7],
        &[8, 9],
        &[10, 11, 12],
        &[13],
    ];
    let family = *shapes.random.pick(&families);
    let mut value = shapes.record(Place::Expr, 62);
    for _ in 0..length {
        let payload = match shapes.random.below(12) {
            0 => shapes.random.below(14) as u8,
            _ => *shapes.random.pick(family),
        };
        let span = shapes.fill.span(shapes.random, 86);
        let operator = chosen(86, span, payload, []);
        let right = shapes.record(Place::Expr, 62);
        let span = shapes.fill.span(shapes.random, 63);
        value = node(63, span, [value, operator, right].map(Some));
    }
    in_constant(shapes, value)
}
