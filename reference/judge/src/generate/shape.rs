//! Random trees of any legal shape, drawn from the grammar.

use std::ops::Range;

use crate::{
    grammar::{self, Child, Payload, Place},
    image::{Tree, text},
    random::Random,
    reader::MOST_DEPTH,
};

/// What a shape leaves open.
pub trait Fill {
    fn span(&mut self, random: &mut Random, kind: u8) -> Range<usize>;
    /// A text and its width.
    fn text(&mut self, random: &mut Random) -> (String, usize);
}

/// Draws records until about so many are made; then only small ones.
pub struct Shapes<'r, F> {
    pub random: &'r mut Random,
    pub fill: F,
    pub left: usize,
}

impl<F: Fill> Shapes<'_, F> {
    /// A whole tree.
    pub fn tree(&mut self) -> Tree {
        self.record(grammar::TREE, 1)
    }

    /// A record for a place at a depth.
    pub fn record(&mut self, place: Place, depth: usize) -> Tree {
        let kinds = self.possible(place, depth);
        let kind = *self.random.pick(&kinds);
        self.of_kind(kind, place, depth)
    }

    /// A record of a chosen kind, which must be possible there.
    pub fn of_kind(&mut self, kind: u8, place: Place, depth: usize) -> Tree {
        self.left = self.left.saturating_sub(1);
        let span = self.fill.span(self.random, kind);
        let payload = match grammar::payload(kind, place) {
            Payload::Nothing => vec![],
            Payload::Byte(most) => {
                vec![self.random.between(0, most.into()) as u8]
            }
            Payload::Text => {
                let (content, width) = self.fill.text(self.random);
                return text(span, width, &content);
            }
        };
        let mut children = Vec::new();
        for child in grammar::children(kind, place) {
            self.add_children(*child, depth + 1, &mut children);
        }
        Tree {
            kind,
            span,
            payload,
            children,
        }
    }

    fn add_children(
        &mut self,
        child: Child,
        depth: usize,
        children: &mut Vec<Option<Tree>>,
    ) {
        match child {
            Child::One(place) => {
                children.push(Some(self.record(place, depth)))
            }
            Child::Maybe(place) => {
                let wanted = self.left > 0 && self.random.once_in(2);
                let fits = any_fits(place, room(depth));
                let record =
                    (wanted && fits).then(|| self.record(place, depth));
                children.push(record);
            }
            Child::Many(place) => {
                let most = self.left.min(if depth == 2 { 6 } else { 4 });
                let fits = any_fits(place, room(depth));
                let count = self.random.between(0, most);
                for _ in 0..if fits { count } else { 0 } {
                    children.push(Some(self.record(place, depth)));
                }
            }
        }
    }

    /// The kinds that leave room for what they need; if there are any, the
    /// small ones alone once the budget is spent.
    fn possible(&self, place: Place, depth: usize) -> Vec<u8> {
        let mut kinds = grammar::kinds(place);
        kinds.retain(|kind| fits(*kind, place, room(depth)));
        if self.left == 0 && kinds.iter().any(|kind| is_small(*kind, place)) {
            kinds.retain(|kind| is_small(*kind, place));
        }
        kinds
    }
}

/// Whether a kind needs no other expression or type below it.
fn is_small(kind: u8, place: Place) -> bool {
    let children = grammar::children(kind, place);
    !children
        .iter()
        .any(|child| matches!(child, Child::One(Place::Expr | Place::Type)))
}

/// How many levels are left at a depth, itself included.
fn room(depth: usize) -> usize {
    (MOST_DEPTH + 1).saturating_sub(depth)
}

/// Whether a kind can be completed in so many levels.
fn fits(kind: u8, place: Place, room: usize) -> bool {
    /// No record needs more.
    const ENOUGH: usize = 6;
    if room == 0 || room >= ENOUGH {
        return room > 0;
    }
    grammar::children(kind, place)
        .iter()
        .all(|child| match child {
            Child::One(place) => any_fits(*place, room - 1),
            Child::Maybe(_) => true,
            // A path's and a tree's first children stand under `One` as well.
            Child::Many(_) => true,
        })
}

fn any_fits(place: Place, room: usize) -> bool {
    let kinds = grammar::kinds(place);
    kinds.into_iter().any(|kind| fits(kind, place, room))
}
