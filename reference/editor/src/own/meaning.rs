//! Whether two scripts have the same tree, but for what the formatter may
//! change: the braces around an import's only item, the `;` behind a block at
//! a block's end, and brackets around no type parameters.

use judge::image::Tree;

use super::Script;

/// What counts of a tree, in reading order.
#[derive(Debug, PartialEq, Eq)]
enum Part<'a> {
    Open(u8, &'a [u8]),
    Words(&'a str),
    Absent,
    Close,
}

struct Parts<'a> {
    source: &'a str,
    /// Each with where the record lies that it was found in.
    found: Vec<(Part<'a>, usize)>,
    at: usize,
}

/// The place in the first script where the second one begins to say
/// something else.
pub(super) fn difference(first: &Script, second: &Script) -> Option<usize> {
    let (first, second) = (parts(first), parts(second));
    let same =
        |(one, other): (&(Part, usize), &(Part, usize))| one.0 == other.0;
    let common = first.iter().zip(&second).take_while(|pair| same(*pair));
    match common.count() {
        all if all == first.len() && all == second.len() => None,
        // A whole tree is never the start of a longer one.
        some => Some(first.get(some).map_or(0, |part| part.1)),
    }
}

fn parts<'a>(script: &'a Script) -> Vec<(Part<'a>, usize)> {
    let mut parts = Parts {
        source: script.source,
        found: Vec::new(),
        at: 0,
    };
    parts.record(&script.tree);
    parts.found
}

impl<'a> Parts<'a> {
    fn add(&mut self, part: Part<'a>) {
        self.found.push((part, self.at));
    }

    fn record(&mut self, tree: &'a Tree) {
        if !tree.span.is_empty() {
            self.at = tree.span.start;
        }
        match tree.kind {
            2 => self.add(Part::Words(text(tree))),
            84 => self.add(Part::Words(&self.source[tree.span.clone()])),
            87 if tree.payload == [0] => {
                self.add(Part::Words(&self.source[tree.span.clone()]));
            }
            _ => {
                self.add(Part::Open(tree.kind, &tree.payload));
                match tree.kind {
                    16 => self.import(tree),
                    23 => self.block(tree),
                    _ => self.children(tree),
                }
                self.add(Part::Close);
            }
        }
    }

    fn children(&mut self, tree: &'a Tree) {
        for child in &tree.children {
            match child {
                Some(list) if list.kind == 3 && list.children.is_empty() => {
                    self.add(Part::Absent);
                }
                Some(child) => self.record(child),
                None => self.add(Part::Absent),
            }
        }
    }

    /// A path and a group; a group of one goes on as the path does.
    fn import(&mut self, tree: &'a Tree) {
        if let Some(path) = &tree.children[0] {
            self.children(path);
        }
        let Some(group) = &tree.children[1] else {
            return;
        };
        match &group.children[..] {
            [Some(one)] => self.import(one),
            _ => self.record(group),
        }
    }

    /// Statements and a last expression. Where a statement is a block or the
    /// like, its text doesn't tell it from the last expression.
    fn block(&mut self, tree: &'a Tree) {
        let statements =
            tree.children[0].iter().flat_map(|list| &list.children);
        for child in statements.chain(&tree.children[1..]).flatten() {
            match &child.children[..] {
                [
                    Some(
                        block @ Tree {
                            kind: 52 | 53 | 65..=67,
                            ..
                        },
                    ),
                ] if child.kind == 32 => {
                    self.record(block);
                }
                _ => self.record(child),
            }
        }
    }
}

/// A text record's text; of a shebang, white space at its end is no part.
fn text(tree: &Tree) -> &str {
    let text = str::from_utf8(&tree.payload[2..]);
    text.expect("written from a text").trim_end()
}
