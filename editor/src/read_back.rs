//! Whether a tree's text would be read back as another tree (request 11), in
//! words for people.

use std::{error::Error, fmt};

use crate::{
    ast::BinOp,
    calls::{self, Verdict},
    error::{FormatError, shown},
    file::File,
    image::{around, byte_at, children_of, kind_at, span_at, text_at},
    kind,
    place::Place,
};

/// Whether the tree's text would be read back as this tree, by the precedences
/// of Roto's parser (src/parser/precedence.rs): the formatter adds no
/// parentheses to an operator that needs them.
///
/// For trees that no parser gave, such as a generator's: before it hands them
/// on. Formatting doesn't ask.
///
/// Yes is said by the rules for operators alone: a text may come back as
/// another tree for other reasons (docs/DIFFERENCES.md).
///
/// # Errors
///
/// [`Differs`](ReadBackError::Differs) with the first operand, in reading
/// order, that would be read at another place;
/// [`Refused`](ReadBackError::Refused) by 1 to 7.
pub fn reads_back(file: File<'_>) -> Result<(), ReadBackError> {
    match calls::reads_back(file) {
        Ok(Verdict::Same) => Ok(()),
        Ok(Verdict::Differs { at }) => {
            Err(ReadBackError::Differs(Operand::at(file, at)))
        }
        Err(refusal) => Err(ReadBackError::Refused(file.error(refusal))),
    }
}

/// Why it isn't said of a tree that it would be read back the same.
#[derive(Clone, Debug, PartialEq, Eq)]
#[non_exhaustive]
pub enum ReadBackError {
    /// It would not.
    Differs(Operand),
    /// The source and the image are refused.
    Refused(FormatError),
}

/// An operator that stands as an operand without parentheses, where it would
/// be read at another place.
#[derive(Clone, Debug, PartialEq, Eq)]
#[non_exhaustive]
pub struct Operand {
    /// The offset of its record, a [`BIN_OP`](kind::BIN_OP), in the image.
    pub at: usize,
    /// The operator.
    pub operator: BinOp,
    /// What it stands under.
    pub parent: Parent,
    /// The name of the declaration that holds it.
    pub declaration: String,
    /// Where it is in the source. One whose record has an empty span, as of an
    /// image from a generator, has none.
    pub place: Option<Place>,
}

/// What an operator stands under.
#[derive(Clone, Copy, Debug, PartialEq, Eq)]
pub enum Parent {
    /// It is the left operand of this one.
    LeftOf(BinOp),
    /// It is the right operand of this one.
    RightOf(BinOp),
    /// It stands under `!`.
    Not,
    /// It stands under the `-` of a negation.
    Negate,
}

impl Operand {
    /// That of the record at this offset of an accepted image.
    fn at(file: File<'_>, at: usize) -> Operand {
        let File { source, image } = file;
        let around = around(image, at);
        let over = around.iter().rev().nth(1).copied().unwrap_or(at);
        let span = span_at(image, at).filter(|span| !span.is_empty());
        Operand {
            at,
            operator: operator(image, at),
            parent: parent(image, over, at),
            declaration: name(image, around.get(1).copied()),
            place: span.map(|span| Place::new(source, span)),
        }
    }
}

/// The name of the declaration at this offset.
fn name(image: &[u8], declaration: Option<usize>) -> String {
    let first = declaration.and_then(|at| children_of(image, at).next());
    let text = first.and_then(|name| text_at(image, name));
    text.map_or(String::new(), |(name, _)| name.into())
}

/// What the record at `over` is to the operand at `at`.
fn parent(image: &[u8], over: usize, at: usize) -> Parent {
    match kind_at(image, over) {
        Some(kind::NOT) => Parent::Not,
        Some(kind::NEGATE) => Parent::Negate,
        _ if children_of(image, over).next() == Some(at) => {
            Parent::LeftOf(operator(image, over))
        }
        _ => Parent::RightOf(operator(image, over)),
    }
}

/// The operator of the record at this offset: the second of its children.
fn operator(image: &[u8], at: usize) -> BinOp {
    let second = children_of(image, at).nth(1);
    let byte = second.and_then(|operator| byte_at(image, operator));
    let known = BinOp::ALL.get(usize::from(byte.unwrap_or(0)));
    *known.unwrap_or(&BinOp::And)
}

impl fmt::Display for Operand {
    fn fmt(&self, f: &mut fmt::Formatter<'_>) -> fmt::Result {
        if let Some(place) = &self.place {
            write!(f, "{place}: ")?;
        }
        write!(
            f,
            "`{}` stands {} without parentheses, in `{}`",
            self.operator.sign(),
            self.parent,
            shown(&self.declaration)
        )
    }
}

impl fmt::Display for Parent {
    fn fmt(&self, f: &mut fmt::Formatter<'_>) -> fmt::Result {
        match self {
            Parent::LeftOf(operator) => {
                write!(f, "as the left operand of `{}`", operator.sign())
            }
            Parent::RightOf(operator) => {
                write!(f, "as the right operand of `{}`", operator.sign())
            }
            Parent::Not => f.write_str("under `!`"),
            Parent::Negate => f.write_str("under the `-` of a negation"),
        }
    }
}

impl fmt::Display for ReadBackError {
    fn fmt(&self, f: &mut fmt::Formatter<'_>) -> fmt::Result {
        match self {
            ReadBackError::Differs(operand) => operand.fmt(f),
            ReadBackError::Refused(error) => error.fmt(f),
        }
    }
}

/// Its source is that of the refusal's words.
impl Error for ReadBackError {
    fn source(&self) -> Option<&(dyn Error + 'static)> {
        match self {
            ReadBackError::Differs(_) => None,
            ReadBackError::Refused(error) => error.source(),
        }
    }
}
