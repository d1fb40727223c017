//! Which kinds stand where: the document's paragraph "Kinds and children".

/// What may stand in a child's place.
#[derive(Clone, Copy, Debug)]
pub enum Place {
    /// One kind alone.
    Kind(u8),
    /// A list (3) with these children.
    List(&'static [Child]),
    /// An operator (86) with a payload of at most this.
    Operator(u8),
    Declaration,
    Statement,
    Type,
    Expr,
    /// An underscore or a variant, in an arm.
    Pattern,
    /// A part of an f-string.
    Part,
}

/// How often something stands there.
#[derive(Clone, Copy, Debug)]
pub enum Child {
    One(Place),
    /// Marked `?`: length 0 stands for an absent child.
    Maybe(Place),
    /// Marked `*`: to the record's end.
    Many(Place),
}

/// What lies between a record's span and its children.
#[derive(Clone, Copy, Debug, PartialEq, Eq)]
pub enum Payload {
    Nothing,
    /// A width in two bytes, which version 2 lacks, then UTF-8 to the
    /// record's end.
    Text,
    /// One byte of at most this.
    Byte(u8),
}

use Child::{Many, Maybe, One};
use Place::{
    Declaration, Expr, Kind, List, Operator, Part, Pattern, Statement, Type,
};

pub const TREE: Place = Kind(1);
const TEXT: Place = Kind(2);
const PATH: Place = Kind(4);
const BLOCK: Place = Kind(23);
const NAMES: Place = List(&[Many(TEXT)]);
const TYPED_NAMES: Place = List(&[Many(Kind(20))]);
const TYPES: Place = List(&[Many(Type)]);
const EXPRS: Place = List(&[Many(Expr)]);

/// The kinds that may stand in a place.
pub fn kinds(place: Place) -> Vec<u8> {
    match place {
        Kind(kind) => vec![kind],
        List(_) => vec![3],
        Operator(_) => vec![86],
        Declaration => (10..=16).collect(),
        Statement => (30..=32).collect(),
        Type => (40..=44).collect(),
        Expr => (50..=70).collect(),
        Pattern => vec![82, 83],
        Part => vec![84, 85],
    }
}

/// The payload of a kind in its place.
pub fn payload(kind: u8, place: Place) -> Payload {
    match (kind, place) {
        (_, Operator(most)) => Payload::Byte(most),
        (2, _) => Payload::Text,
        (50, _) => Payload::Byte(2),
        (87, _) => Payload::Byte(3),
        _ => Payload::Nothing,
    }
}

/// The children of a kind in its place.
pub fn children(kind: u8, place: Place) -> &'static [Child] {
    if let List(elements) = place {
        return elements;
    }
    match kind {
        1 => &[Maybe(TEXT), Many(Declaration)],
        4 => &[One(TEXT), Many(TEXT)],
        10..=16 => declaration(kind),
        20 => &[One(TEXT), One(Type)],
        21 => &[One(TEXT), One(TYPES)],
        22 => &[One(TEXT), One(Expr)],
        23 => &[One(List(&[Many(Statement)])), Maybe(Expr)],
        30 => &[One(TEXT), Maybe(Type), One(Expr)],
        31 => &[One(Kind(16))],
        32 => &[One(Expr)],
        40 => &[One(Type)],
        41 => &[One(PATH), Maybe(TYPES)],
        44 => &[One(TYPED_NAMES)],
        50..=70 => expression(kind),
        80 => &[Many(Kind(22))],
        81 => &[One(Pattern), Maybe(Expr), One(Expr)],
        83 => &[One(TEXT), Maybe(NAMES)],
        85 => &[One(Expr)],
        _ => &[],
    }
}

fn declaration(kind: u8) -> &'static [Child] {
    match kind {
        10 => &[One(TEXT), One(TYPED_NAMES), One(BLOCK)],
        11 => &[One(TEXT), One(Type), One(Expr)],
        12 => &[One(TEXT), Maybe(NAMES), One(TYPED_NAMES)],
        13 => &[One(TEXT), Maybe(NAMES), One(List(&[Many(Kind(21))]))],
        14 => &[One(TEXT), One(TYPED_NAMES), Maybe(Type), One(BLOCK)],
        15 => &[One(TEXT), One(BLOCK)],
        _ => &[Maybe(PATH), Maybe(List(&[Many(Kind(16))]))],
    }
}

fn expression(kind: u8) -> &'static [Child] {
    match kind {
        50 => &[Maybe(Expr)],
        51 => &[One(Kind(87))],
        52 => &[One(BLOCK)],
        53 => &[One(Expr), One(List(&[Many(Kind(81))]))],
        54 => &[One(Expr), One(EXPRS)],
        55 => &[One(Expr), One(TEXT)],
        56 => &[One(PATH)],
        57 => &[One(Kind(80))],
        58 => &[One(PATH), One(Kind(80))],
        59 => &[One(EXPRS)],
        61 => &[One(PATH), One(Expr)],
        62 => &[One(PATH), One(Operator(4)), One(Expr)],
        63 => &[One(Expr), One(Operator(13)), One(Expr)],
        65 => &[One(Expr), One(BLOCK), Maybe(BLOCK)],
        66 => &[One(Expr), One(BLOCK)],
        67 => &[One(TEXT), One(Expr), One(BLOCK)],
        69 => &[One(List(&[Many(Part)]))],
        // 60 not, 64 negation, 68 question mark, 70 parentheses
        _ => &[One(Expr)],
    }
}
