//! Trees of operators (request 11), with parentheses where they are needed,
//! with some of them, and with none.

mod fixed;
mod pieces;

use super::{Draft, damaged, move_cases::without_widths, realistic, wild};
use crate::{
    image::{self, Tree, node},
    parser::precedence::Associativity,
    random::Random,
    reader::{MOST_DEPTH, MOST_SOURCE, Version},
    tree::BIN_OPS,
};

pub use fixed::{Case as FixedCase, cases};
use pieces::{constant, file, name, operation, value};

const RANDOM: u64 = 116;

/// A source and an image of either version, which some test may turn down.
#[derive(Clone, Debug)]
pub struct Case {
    pub source: Vec<u8>,
    pub image: Vec<u8>,
}

/// One by seed and index; one in eight with damage.
pub fn case(seed: u64, index: u64) -> Case {
    let random = &mut Random::new(RANDOM, seed, index);
    let mut draft = draft(random);
    let way = random.below(24);
    match way {
        0 => damaged::damage_comments(random, &mut draft),
        1 => damaged::damage_tree(random, &mut draft),
        _ => {}
    }
    let version = *random.pick(&[Version::One, Version::Two]);
    if version == Version::Two && way != 1 {
        without_widths(&mut draft.tree);
    }
    let mut image = image::write_as(version, &draft.comments, &draft.tree);
    if way == 2 {
        let way = random.below(8);
        damaged::damage_image(random, &draft.source, &mut image, way);
    }
    let mut source = draft.source.into_bytes();
    match random.below(256) {
        0 => source.resize(MOST_SOURCE + 1, b' '),
        1 => source.push(0xFF),
        _ => {}
    }
    Case { source, image }
}

/// A legal file of operators, or one of another class among whose expressions
/// operators are put.
fn draft(random: &mut Random) -> Draft {
    let mut draft = match random.below(4) {
        0 => realistic::short_draft(random),
        1 => wild::draft(random),
        _ => of_one_value(random),
    };
    // So that none of them runs backwards.
    draft.comments = wild::in_order(&draft.comments);
    if draft.tree.height() + 12 < MOST_DEPTH {
        let often = *random.pick(&[2, 4, 12]);
        sprinkle(random, &mut draft.tree, often);
    }
    let left = *random.pick(&[usize::MAX, usize::MAX, 12, 3, 1]);
    mend(random, &mut draft.tree, left);
    draft
}

/// A tree of up to so many operators as the value of a constant.
fn of_one_value(random: &mut Random) -> Draft {
    let most = *random.pick(&[1, 2, 3, 5, 8, 20, 60]);
    let value = grown(random, most, MOST_DEPTH - 20);
    Draft {
        source: String::new(),
        comments: vec![],
        tree: file([constant("c", value)]),
    }
}

/// An expression of up to so many operators, mostly 63, 60, 64 and 70, of at
/// most so many levels.
fn grown(random: &mut Random, most: usize, levels: usize) -> Tree {
    if most == 0 || levels == 0 {
        return value("a");
    }
    let inner = |random: &mut Random| grown(random, most - 1, levels - 1);
    match random.below(16) {
        0 => node(60, 0..0, [Some(inner(random))]),
        1 => node(64, 0..0, [Some(inner(random))]),
        2 => node(70, 0..0, [Some(inner(random))]),
        3 => beside(random, most, levels - 1),
        _ => {
            let left = random.below(most);
            let operator = random.below(BIN_OPS.len()) as u8;
            let operands = [left, most - 1 - left]
                .map(|most| grown(random, most, levels - 1));
            let [left, right] = operands;
            operation(left, operator, right)
        }
    }
}

/// Another kind over an expression: a return, a call, an access, an
/// assignment, a question mark.
fn beside(random: &mut Random, most: usize, levels: usize) -> Tree {
    let inner = grown(random, most - 1, levels.saturating_sub(1));
    let path = node(4, 0..0, [Some(name("a"))]);
    let list = |elements: Vec<Option<Tree>>| node(3, 0..0, elements);
    match random.below(6) {
        0 => image::chosen(50, 0..0, 0, [Some(inner)]),
        1 => node(54, 0..0, [Some(inner), Some(list(vec![]))]),
        2 => {
            node(54, 0..0, [Some(value("f")), Some(list(vec![Some(inner)]))])
        }
        3 => node(55, 0..0, [Some(inner), Some(name("b"))]),
        4 => node(61, 0..0, [path, inner].map(Some)),
        _ => node(68, 0..0, [Some(inner)]),
    }
}

/// Puts 63, 60, 64 and 70 over expressions, one in so many.
fn sprinkle(random: &mut Random, tree: &mut Tree, often: usize) {
    for child in tree.children.iter_mut().flatten() {
        sprinkle(random, child, often);
        let is_expression = (50..=70).contains(&child.kind);
        if is_expression && child.height() + 12 < MOST_DEPTH {
            let times = *random.pick(&[1, 1, 2, 3]);
            for _ in 0..if random.once_in(often) { times } else { 0 } {
                let inner = std::mem::replace(child, value("a"));
                *child = under(random, inner);
            }
        }
    }
}

/// An operator over an expression, with a small operand beside it.
fn under(random: &mut Random, inner: Tree) -> Tree {
    let span = inner.span.clone();
    let mut over = match random.below(8) {
        0 => node(60, 0..0, [Some(inner)]),
        1 => node(64, 0..0, [Some(inner)]),
        2 => node(70, 0..0, [Some(inner)]),
        _ => {
            let most = random.below(3);
            let other = grown(random, most, 4);
            let operator = random.below(BIN_OPS.len()) as u8;
            match random.below(2) {
                0 => operation(inner, operator, other),
                _ => operation(other, operator, inner),
            }
        }
    };
    over.span = span;
    over
}

/// Puts a 70 around each operand that breaks a rule, but for one in so many.
fn mend(random: &mut Random, tree: &mut Tree, left: usize) {
    let over = (tree.kind, operator(tree));
    for (place, child) in tree.children.iter_mut().enumerate() {
        let Some(child) = child else { continue };
        mend(random, child, left);
        if needs_parentheses(over, place, child) && !random.once_in(left) {
            let inner = std::mem::replace(child, value("a"));
            *child = node(70, inner.span.clone(), [Some(inner)]);
        }
    }
}

/// The place of a 63's operator.
fn operator(tree: &Tree) -> Option<usize> {
    let operator = tree.children.get(1)?.as_ref()?;
    let place = usize::from(*operator.payload.first()?);
    (tree.kind == 63).then_some(place)
}

fn needs_parentheses(
    (kind, over): (u8, Option<usize>),
    place: usize,
    child: &Tree,
) -> bool {
    let (Some(own), false) = (operator(child), kind == 70) else {
        return false;
    };
    let own = BIN_OPS[own];
    match (over.map(|over| BIN_OPS[over]), place) {
        (Some(over), 0) => {
            own.relative_associativity(&over) != Associativity::Left
        }
        (Some(over), 2) => {
            over.relative_associativity(&own) != Associativity::Right
        }
        (None, _) => matches!(kind, 60 | 64),
        _ => false,
    }
}
