//! The tokens of a tree: all that is said of a program, word by word, but for
//! its comments and the comma more of a list that wraps.
//!
//! A token is a word that fmt.rs writes of its own accord, an identifier of
//! the image, or a literal or an f-string's text from the source. Which ones
//! there are, and in which order, goes by the kinds of document 01 and the
//! words of fmt.rs alone: no row, group or line break is looked at.

use crate::{
    reader::{Accepted, Record},
    tree::{byte, child, maybe, text},
};

#[derive(Clone, Copy, Debug, PartialEq, Eq)]
pub struct Token<'i> {
    pub text: &'i str,
    /// It closes a list that has elements, with commas between them. If the
    /// list wraps, one more stands before this.
    pub ends_list: bool,
}

/// The tokens of a tree.
#[derive(Clone, Debug, PartialEq, Eq)]
pub struct Tokens<'i> {
    pub all: Vec<Token<'i>>,
    /// How many come before each declaration, and behind the last.
    pub stops: Vec<usize>,
}

/// The tokens of the tree that was read.
pub fn tokens<'i>(accepted: &Accepted<'i>) -> Tokens<'i> {
    let mut writer = Writer {
        source: accepted.source,
        tokens: Vec::new(),
    };
    let stops = writer.tree(&accepted.tree);
    Tokens {
        all: writer.tokens,
        stops,
    }
}

/// A part of what a record says.
#[derive(Clone, Copy)]
enum Part {
    Word(&'static str),
    /// The word that the record's own payload chooses.
    Own(&'static [&'static str]),
    /// The word that the payload of a child chooses.
    Chosen(usize, &'static [&'static str]),
    /// A child, if it is there.
    Child(usize),
    /// These, if a child is there.
    With(usize, &'static [Part]),
    /// The list at a place, between brackets and with commas, if it is there.
    List(usize, Brackets),
    /// The same if it has elements.
    Filled(usize, Brackets),
    /// The elements of the list at a place, one after the other.
    Each(usize),
    /// A word, unless a child is of one of these kinds.
    Unless(usize, &'static [u8], &'static str),
}

type Brackets = [&'static str; 2];

const ROUND: Brackets = ["(", ")"];
const SQUARE: Brackets = ["[", "]"];
const CURLY: Brackets = ["{", "}"];

/// `BinOp`, in its order.
const OPERATORS: [&str; 14] = [
    "&&", "||", "==", "!=", "<", "<=", ">", ">=", "+", "-", "*", "/", "%",
    "**",
];
/// `CompoundAssignOp`, in its order.
const ASSIGNMENTS: [&str; 5] = [" += ", " -= ", " *= ", " /= ", " %= "];
/// `ReturnKind`, in its order.
const RETURNS: [&str; 3] = ["return", "accept", "reject"];

/// Expressions that are statements without a semicolon: block, match, if,
/// while, for.
const BRACED: [u8; 5] = [52, 53, 65, 66, 67];
/// An arm's body that has no comma behind it.
const BLOCK: [u8; 1] = [52];

use Part::{Child, Chosen, Each, Filled, List, Own, Unless, With, Word};

/// What the kinds say that are neither made of one text nor import, path or
/// record.
fn parts(kind: u8) -> &'static [Part] {
    match kind {
        10..=15 => declaration(kind),
        20 | 22 => &[Child(0), Word(": "), Child(1)],
        21 => &[Child(0), Filled(1, ROUND)],
        23 => &[Word("{"), Each(0), Child(1), Word("}")],
        30..=32 => statement(kind),
        40 => &[Child(0), Word("?")],
        41 => &[Child(0), List(1, SQUARE)],
        42 => &[Word("!")],
        43 => &[Word("()")],
        44 => &[List(0, CURLY)],
        50..=60 => expression(kind),
        61..=70 => operation(kind),
        81 => &[
            Child(0),
            With(1, &[Word(" if "), Child(1)]),
            Word(" => "),
            Child(2),
            Unless(2, &BLOCK, ","),
        ],
        82 => &[Word("_")],
        83 => &[Child(0), List(1, ROUND)],
        85 => &[Word("{"), Child(0), Word("}")],
        _ => unreachable!("kind {kind} passed the reader"),
    }
}

#[rustfmt::skip]
fn declaration(kind: u8) -> &'static [Part] {
    match kind {
        10 => &[Word("filtermap "), Child(0), List(1, ROUND), Word(" "), Child(2)],
        11 => &[Word("const "), Child(0), Word(": "), Child(1), Word(" = "), Child(2), Word(";")],
        12 => &[Word("record "), Child(0), Filled(1, SQUARE), Word(" "), List(2, CURLY)],
        13 => &[Word("enum "), Child(0), Filled(1, SQUARE), Word(" "), List(2, CURLY)],
        14 => &[
            Word("fn "), Child(0), List(1, ROUND), Word(" "),
            With(2, &[Word("-> "), Child(2), Word(" ")]), Child(3),
        ],
        _ => &[Word("test "), Child(0), Word(" "), Child(1)],
    }
}

#[rustfmt::skip]
fn statement(kind: u8) -> &'static [Part] {
    match kind {
        30 => &[
            Word("let "), Child(0), With(1, &[Word(": "), Child(1)]), Word(" = "), Child(2), Word(";"),
        ],
        31 => &[Word("import "), Child(0), Word(";")],
        _ => &[Child(0), Unless(0, &BRACED, ";")],
    }
}

#[rustfmt::skip]
fn expression(kind: u8) -> &'static [Part] {
    match kind {
        50 => &[Own(&RETURNS), With(0, &[Word(" "), Child(0)])],
        53 => &[Word("match "), Child(0), Word(" "), Word("{"), Each(1), Word("}")],
        54 => &[Child(0), List(1, ROUND)],
        55 => &[Child(0), Word("."), Child(1)],
        58 => &[Child(0), Word(" "), Child(1)],
        59 => &[List(0, SQUARE)],
        60 => &[Word("!"), Child(0)],
        // 51 literal, 52 block, 56 path, 57 record
        _ => &[Child(0)],
    }
}

#[rustfmt::skip]
fn operation(kind: u8) -> &'static [Part] {
    match kind {
        61 => &[Child(0), Word(" = "), Child(1)],
        62 => &[Child(0), Chosen(1, &ASSIGNMENTS), Child(2)],
        63 => &[Child(0), Chosen(1, &OPERATORS), Word(" "), Child(2)],
        64 => &[Word("-"), Child(0)],
        65 => &[Word("if "), Child(0), Word(" "), Child(1), With(2, &[Word(" else "), Child(2)])],
        66 => &[Word("while "), Child(0), Word(" "), Child(1)],
        67 => &[Word("for "), Child(0), Word(" in "), Child(1), Word(" "), Child(2)],
        68 => &[Child(0), Word("?")],
        69 => &[Word("f\""), Each(0), Word("\"")],
        _ => &[Word("("), Child(0), Word(")")],
    }
}

/// Writes tokens one after the other.
struct Writer<'i> {
    source: &'i str,
    tokens: Vec<Token<'i>>,
}

impl<'i> Writer<'i> {
    /// The shebang and all declarations; how many tokens come before each.
    fn tree(&mut self, tree: &Record<'i>) -> Vec<usize> {
        if let Some(shebang) = maybe(tree, 0) {
            self.word(text(shebang).trim_end());
        }
        let mut stops = vec![self.tokens.len()];
        for declaration in tree.children[1..].iter().flatten() {
            if declaration.kind == 16 {
                self.word("import ");
                self.record(declaration);
                self.word(";");
            } else {
                self.record(declaration);
            }
            stops.push(self.tokens.len());
        }
        stops
    }

    fn word(&mut self, text: &'i str) {
        self.tokens.push(Token {
            text,
            ends_list: false,
        });
    }

    fn record(&mut self, r: &Record<'i>) {
        match r.kind {
            2 => self.word(text(r)),
            4 => self.path(r),
            16 => self.import(r),
            80 => self.list(r, CURLY),
            84 => self.word(&self.source[r.span.clone()]),
            87 => self.literal(r),
            kind => self.parts(r, parts(kind)),
        }
    }

    fn parts(&mut self, r: &Record<'i>, parts: &'static [Part]) {
        for part in parts {
            self.part(r, *part);
        }
    }

    fn part(&mut self, r: &Record<'i>, part: Part) {
        match part {
            Word(word) => self.word(word),
            Own(words) => self.word(words[usize::from(byte(r))]),
            Chosen(place, words) => {
                self.word(words[usize::from(byte(child(r, place)))])
            }
            Child(place) => {
                maybe(r, place).into_iter().for_each(|r| self.record(r))
            }
            With(place, parts) => {
                if maybe(r, place).is_some() {
                    self.parts(r, parts);
                }
            }
            List(place, brackets) => {
                let list = maybe(r, place);
                list.into_iter().for_each(|r| self.list(r, brackets));
            }
            Filled(place, brackets) => {
                let list = maybe(r, place);
                list.filter(|list| !list.children.is_empty())
                    .into_iter()
                    .for_each(|r| self.list(r, brackets));
            }
            Each(place) => {
                let elements = child(r, place).children.iter().flatten();
                elements.for_each(|element| self.record(element));
            }
            Unless(place, kinds, word) => {
                if !kinds.contains(&child(r, place).kind) {
                    self.word(word);
                }
            }
        }
    }

    /// All elements of a list, between brackets and with commas.
    fn list(&mut self, list: &Record<'i>, [open, close]: Brackets) {
        self.word(open);
        self.joined(list, ",");
        self.tokens.push(Token {
            text: close,
            ends_list: !list.children.is_empty(),
        });
    }

    fn joined(&mut self, list: &Record<'i>, between: &'static str) {
        for (place, element) in list.children.iter().flatten().enumerate() {
            if place > 0 {
                self.word(between);
            }
            self.record(element);
        }
    }

    fn path(&mut self, path: &Record<'i>) {
        self.joined(path, ".");
    }

    /// A group of one item has no braces.
    fn import(&mut self, import: &Record<'i>) {
        let [path, group] = [0, 1].map(|place| maybe(import, place));
        path.into_iter().for_each(|path| self.record(path));
        let Some(group) = group else {
            return;
        };
        if path.is_some() {
            self.word(".");
        }
        match &group.children[..] {
            [Some(item)] => self.record(item),
            _ => self.list(group, CURLY),
        }
    }

    fn literal(&mut self, literal: &Record<'i>) {
        match byte(literal) {
            0 => self.word(&self.source[literal.span.clone()]),
            1 => self.word("true"),
            2 => self.word("false"),
            _ => self.word("()"),
        }
    }
}
