//! Which records stand where, for words: "Kinds and children" of
//! docs/01-scope.md, with what each child is. What is accepted the proved
//! writer says; tests/explain.rs holds this to it.

use crate::kind::*;

/// What may stand in a child's place.
#[derive(Clone, Copy, Debug)]
pub(super) enum Place {
    /// One kind alone.
    Kind(u8),
    /// A list with these children.
    List(&'static [Child]),
    /// An operator with a payload of at most this.
    Operator(u8),
    Declaration,
    Statement,
    Type,
    Expr,
    /// An underscore or a variant, in an arm.
    Pattern,
    /// A part of an f-string.
    Part,
}

/// How often something stands there.
#[derive(Clone, Copy, Debug, PartialEq, Eq)]
pub(super) enum Times {
    Once,
    /// It, or an absent child.
    Maybe,
    /// To the record's end.
    Many,
}

/// A child, and what it is to the record.
#[derive(Clone, Copy, Debug)]
pub(super) struct Child {
    pub role: &'static str,
    pub times: Times,
    pub place: Place,
}

/// What a record begins with.
#[derive(Clone, Copy, Debug, PartialEq, Eq)]
pub(super) enum Payload {
    Nothing,
    Text,
    /// One byte of at most this.
    Byte(u8),
}

use Place::{
    Declaration, Expr, Kind, List, Operator, Part, Pattern, Statement, Type,
};

const fn one(role: &'static str, place: Place) -> Child {
    let times = Times::Once;
    Child { role, times, place }
}

const fn maybe(role: &'static str, place: Place) -> Child {
    let times = Times::Maybe;
    Child { role, times, place }
}

const fn many(role: &'static str, place: Place) -> Child {
    let times = Times::Many;
    Child { role, times, place }
}

/// Children that are there for ever.
macro_rules! fixed {
    ($($child:expr),* $(,)?) => {
        const { &[$($child),*] }
    };
}

const NAME: Child = one("name", Kind(TEXT));
const TYPE: Child = one("type", Type);
const VALUE: Child = one("value", Expr);
const BODY: Child = one("body", Kind(BLOCK));
const FIELDS: Child = one("fields", Kind(RECORD_FIELDS));
const PATH_CHILD: Child = one("path", Kind(PATH));
const TYPED_NAME: Child = many("name with its type", Kind(NAME_AND_TYPE));
const NAMES: Place = List(fixed![many("name", Kind(TEXT))]);
const TYPED_NAMES: Place = List(fixed![TYPED_NAME]);
const TYPES: Place = List(fixed![many("type", Type)]);
const PARAMETERS: Child = one("parameters", TYPED_NAMES);
const TYPE_PARAMETERS: Child = maybe("type parameters", NAMES);

/// The kinds that may stand in a place.
pub(super) fn kinds(place: Place) -> Vec<u8> {
    match place {
        Kind(kind) => vec![kind],
        List(_) => vec![LIST],
        Operator(_) => vec![OPERATOR],
        Declaration => (FILTER_MAP..=IMPORT).collect(),
        Statement => (LET..=EXPR_STMT).collect(),
        Type => (OPTION..=RECORD_TYPE).collect(),
        Expr => (RETURN..=PARENTHESES).collect(),
        Pattern => vec![UNDERSCORE, ENUM_VARIANT],
        Part => vec![TEXT_PART, EXPR_PART],
    }
}

/// What a record of a kind begins with in its place.
pub(super) fn payload(kind: u8, place: Place) -> Payload {
    match (kind, place) {
        (_, Operator(most)) => Payload::Byte(most),
        (TEXT, _) => Payload::Text,
        (RETURN, _) => Payload::Byte(2),
        (LITERAL, _) => Payload::Byte(3),
        _ => Payload::Nothing,
    }
}

/// The children of a record of a kind in its place.
pub(super) fn children(kind: u8, place: Place) -> &'static [Child] {
    if let List(elements) = place {
        return elements;
    }
    match kind {
        TREE => fixed![
            maybe("shebang", Kind(TEXT)),
            many("declaration", Declaration),
        ],
        PATH => fixed![NAME, many("further name", Kind(TEXT))],
        FILTER_MAP..=IMPORT => of_declaration(kind),
        NAME_AND_TYPE => fixed![NAME, TYPE],
        VARIANT => fixed![NAME, one("types", TYPES)],
        FIELD => fixed![NAME, VALUE],
        BLOCK => fixed![
            one("statements", List(fixed![many("statement", Statement)])),
            maybe("last expression", Expr),
        ],
        LET => fixed![NAME, maybe("type", Type), VALUE],
        IMPORT_STMT => fixed![one("import", Kind(IMPORT))],
        EXPR_STMT => fixed![VALUE],
        OPTION => fixed![TYPE],
        TYPE_PATH => fixed![PATH_CHILD, maybe("type arguments", TYPES)],
        RECORD_TYPE => fixed![one("fields", TYPED_NAMES)],
        RETURN..=PARENTHESES => of_expression(kind),
        RECORD_FIELDS => fixed![many("field", Kind(FIELD))],
        ARM => fixed![
            one("pattern", Pattern),
            maybe("guard", Expr),
            one("body", Expr),
        ],
        ENUM_VARIANT => fixed![NAME, maybe("names", NAMES)],
        EXPR_PART => fixed![VALUE],
        _ => &[],
    }
}

fn of_declaration(kind: u8) -> &'static [Child] {
    match kind {
        FILTER_MAP => fixed![NAME, PARAMETERS, BODY],
        CONST => fixed![NAME, TYPE, VALUE],
        RECORD => fixed![NAME, TYPE_PARAMETERS, one("fields", TYPED_NAMES)],
        ENUM => fixed![
            NAME,
            TYPE_PARAMETERS,
            one("variants", List(fixed![many("variant", Kind(VARIANT))])),
        ],
        FUNCTION => {
            fixed![NAME, PARAMETERS, maybe("result's type", Type), BODY]
        }
        TEST => fixed![NAME, BODY],
        _ => fixed![
            maybe("path", Kind(PATH)),
            maybe("group", List(fixed![many("import", Kind(IMPORT))])),
        ],
    }
}

fn of_expression(kind: u8) -> &'static [Child] {
    match kind {
        RETURN => fixed![maybe("value", Expr)],
        LITERAL_EXPR => fixed![one("literal", Kind(LITERAL))],
        BLOCK_EXPR => fixed![one("block", Kind(BLOCK))],
        MATCH => {
            fixed![VALUE, one("arms", List(fixed![many("arm", Kind(ARM))]))]
        }
        FUNCTION_CALL => fixed![
            one("callee", Expr),
            one("arguments", List(fixed![many("argument", Expr)])),
        ],
        ACCESS => fixed![VALUE, one("field's name", Kind(TEXT))],
        PATH_EXPR => fixed![PATH_CHILD],
        RECORD_EXPR => fixed![FIELDS],
        TYPED_RECORD => fixed![PATH_CHILD, FIELDS],
        LIST_EXPR => fixed![one("values", List(fixed![many("value", Expr)]))],
        ASSIGN => fixed![PATH_CHILD, VALUE],
        COMPOUND_ASSIGN => {
            fixed![PATH_CHILD, one("operator", Operator(4)), VALUE]
        }
        BIN_OP => fixed![
            one("left operand", Expr),
            one("operator", Operator(13)),
            one("right operand", Expr),
        ],
        IF_ELSE => fixed![
            one("condition", Expr),
            one("block", Kind(BLOCK)),
            maybe("else block", Kind(BLOCK)),
        ],
        WHILE => fixed![one("condition", Expr), BODY],
        FOR => fixed![NAME, one("list", Expr), BODY],
        F_STRING => fixed![one("parts", List(fixed![many("part", Part)]))],
        // NOT, NEGATE, QUESTION_MARK, PARENTHESES
        _ => fixed![VALUE],
    }
}
