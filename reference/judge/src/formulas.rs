//! Request 14 of document 02: all small formulas. Enumerated by trying every
//! word of five letters, sorted by the document's order, and written as images
//! by an encoder that knows nothing else.

use std::{cmp::Ordering, sync::LazyLock};

use crate::refusal::{Refusal, refusal};

/// "of 1 to 7 such expression records"
pub const MOST: usize = 7;

/// How many there are of each size: "1, 2, 6, 20 and 72 for sizes 1 to 5".
pub const COUNTS: [usize; MOST] = [1, 2, 6, 20, 72, 272, 1_064];

/// "path `a` (56), negation (64), parentheses (70) and binary plus and times
/// (63)"
#[derive(Clone, Debug, PartialEq, Eq)]
pub enum Formula {
    Path,
    Plus(Box<Formula>, Box<Formula>),
    Times(Box<Formula>, Box<Formula>),
    Negation(Box<Formula>),
    Parentheses(Box<Formula>),
}

/// A letter for each of them, as it stands before its operands.
const LETTERS: [u8; 5] = *b"a+*-(";

impl Formula {
    /// That of a word of `LETTERS`, and what is left of the word.
    fn first(word: &[u8]) -> Option<(Formula, &[u8])> {
        let (letter, rest) = word.split_first()?;
        if *letter == b'a' {
            return Some((Formula::Path, rest));
        }
        let (left, rest) = Formula::first(rest)?;
        let left = Box::new(left);
        match letter {
            b'-' => return Some((Formula::Negation(left), rest)),
            b'(' => return Some((Formula::Parentheses(left), rest)),
            _ => {}
        }
        let (right, rest) = Formula::first(rest)?;
        let right = Box::new(right);
        Some(match letter {
            b'+' => (Formula::Plus(left, right), rest),
            _ => (Formula::Times(left, right), rest),
        })
    }

    /// How many expression records it has.
    pub fn size(&self) -> usize {
        let (left, right) = self.operands();
        1 + left.map_or(0, Self::size) + right.map_or(0, Self::size)
    }

    fn kind(&self) -> u8 {
        match self {
            Formula::Path => 56,
            Formula::Plus(..) | Formula::Times(..) => 63,
            Formula::Negation(_) => 64,
            Formula::Parentheses(_) => 70,
        }
    }

    /// The operator's place in `BinOp`.
    fn operator(&self) -> Option<u8> {
        match self {
            Formula::Plus(..) => Some(8),
            Formula::Times(..) => Some(10),
            _ => None,
        }
    }

    /// The left operand, and the right or only one.
    fn operands(&self) -> (Option<&Formula>, Option<&Formula>) {
        match self {
            Formula::Path => (None, None),
            Formula::Plus(left, right) | Formula::Times(left, right) => {
                (Some(left), Some(right))
            }
            Formula::Negation(only) | Formula::Parentheses(only) => {
                (None, Some(only))
            }
        }
    }

    /// "fewer records first, then kind number, then operator place, then size
    /// of the left operand, then left, then right or only operand in this
    /// same order"
    pub fn order(&self, other: &Formula) -> Ordering {
        let numbers = |formula: &Formula| {
            let left = formula.operands().0.map(Formula::size);
            (formula.size(), formula.kind(), formula.operator(), left)
        };
        let operands = [self, other].map(Formula::operands);
        let [(left, right), (other_left, other_right)] = operands;
        numbers(self)
            .cmp(&numbers(other))
            .then_with(|| order_of(left, other_left))
            .then_with(|| order_of(right, other_right))
    }

    /// The formula as a text of Roto.
    pub fn text(&self) -> String {
        let text = |one: Option<&Formula>| one.map(Formula::text);
        let (left, right) = self.operands();
        let (left, right) = (text(left), text(right).unwrap_or_default());
        let left = left.unwrap_or_default();
        match self {
            Formula::Path => "a".into(),
            Formula::Plus(..) => format!("{left} + {right}"),
            Formula::Times(..) => format!("{left} * {right}"),
            Formula::Negation(_) => format!("-{right}"),
            Formula::Parentheses(_) => format!("({right})"),
        }
    }
}

/// Both formulas have such an operand, or neither has.
fn order_of(one: Option<&Formula>, other: Option<&Formula>) -> Ordering {
    match (one, other) {
        (Some(one), Some(other)) => one.order(other),
        _ => Ordering::Equal,
    }
}

/// All of a size from 1 to [`MOST`], in order.
pub fn of_size(size: usize) -> &'static [Formula] {
    static ALL: LazyLock<Vec<Vec<Formula>>> =
        LazyLock::new(|| (1..=MOST).map(enumerated).collect());
    &ALL[size - 1]
}

/// Every word of so many letters that is a formula.
fn enumerated(size: usize) -> Vec<Formula> {
    let words = LETTERS.len().pow(size as u32);
    let mut all: Vec<Formula> = (0..words)
        .filter_map(|number| {
            let mut rest = number;
            let word: Vec<u8> = (0..size)
                .map(|_| {
                    let letter = LETTERS[rest % LETTERS.len()];
                    rest /= LETTERS.len();
                    letter
                })
                .collect();
            match Formula::first(&word)? {
                (formula, []) => Some(formula),
                _ => None,
            }
        })
        .collect();
    all.sort_by(Formula::order);
    all
}

/// The image of the formula of a size and a place, where so many bytes are
/// lent for it: refusals 24, then 17.
pub fn write(
    size: usize,
    place: usize,
    room: usize,
) -> Result<Vec<u8>, Refusal> {
    let there = (1..=MOST).contains(&size);
    let formula = there.then(|| of_size(size).get(place)).flatten();
    let image = image(formula.ok_or(refusal(24, 0))?);
    match image.len() <= room {
        true => Ok(image),
        false => Err(refusal(17, image.len())),
    }
}

/// "as the body of `const c: u32`, in a version 1 image with no comments, no
/// shebang, every span 0, 0 and each text's width its byte count"
pub fn image(formula: &Formula) -> Vec<u8> {
    let none = [0; 4];
    let ty = record(41, &[&path("u32")[..], &none].concat());
    let value = expression(formula);
    let constant = record(11, &[text("c"), ty, value].concat());
    let tree = record(1, &[&none[..], &constant].concat());
    let body = [&[0, 0], &tree[..]].concat();
    [&[1], &length(&body)[..], &body].concat()
}

fn expression(formula: &Formula) -> Vec<u8> {
    let part = |one: Option<&Formula>| one.map_or(vec![], expression);
    let (left, right) = formula.operands();
    let inside = match formula.operator() {
        None if formula.kind() == 56 => path("a"),
        None => part(right),
        Some(place) => {
            let operator = record(86, &[place]);
            [part(left), operator, part(right)].concat()
        }
    };
    record(formula.kind(), &inside)
}

/// A record with the span 0, 0.
fn record(kind: u8, inside: &[u8]) -> Vec<u8> {
    let body = [&[kind, 0, 0, 0, 0, 0, 0, 0, 0], inside].concat();
    [&length(&body)[..], &body].concat()
}

fn text(text: &str) -> Vec<u8> {
    let width = (text.len() as u16).to_be_bytes();
    record(2, &[&width, text.as_bytes()].concat())
}

fn path(name: &str) -> Vec<u8> {
    record(4, &text(name))
}

fn length(bytes: &[u8]) -> [u8; 4] {
    (bytes.len() as u32).to_be_bytes()
}
