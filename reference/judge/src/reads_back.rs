//! Request 11 of document 02: whether a tree's text would be read back as
//! another tree, by the original's precedence.rs.

use crate::{
    ast::BinOp,
    parser::precedence::Associativity,
    reader::{self, Accepted, Record},
    refusal::Refusal,
    tree::{BIN_OPS, byte, child},
};

const NOT: u8 = 60;
const BIN_OP: u8 = 63;
const NEGATE: u8 = 64;

/// The children of a 63: its operands, and the operator between them.
const LEFT: usize = 0;
const OPERATOR: usize = 1;
const RIGHT: usize = 2;

/// What is said of a tree.
#[derive(Clone, Copy, Debug, PartialEq, Eq)]
pub enum Verdict {
    /// "yes exactly when none does"
    Same,
    /// "otherwise the first that does in reading order, by its offset"
    Differs(usize),
}

/// A rule that an operand may break.
#[derive(Clone, Copy, Debug, PartialEq, Eq, PartialOrd, Ord)]
pub enum Rule {
    /// "an operator that is the left operand of another must give `Left` when
    /// asked for `relative_associativity` against its parent"
    Left,
    /// "as right operand, the parent must give `Right` against it"
    Right,
    /// "no 60 .. directly over a 63"
    Not,
    /// "no .. 64 directly over a 63"
    Negate,
}

impl Rule {
    pub const ALL: [(Rule, &str); 4] = [
        (Rule::Left, "a left operand"),
        (Rule::Right, "a right operand"),
        (Rule::Not, "under a 60"),
        (Rule::Negate, "under a 64"),
    ];
}

/// An operand that breaks a rule: a 63.
#[derive(Clone, Copy, Debug, PartialEq, Eq)]
pub struct Operand {
    pub at: usize,
    pub depth: usize,
    pub rule: Rule,
    /// The offset of what stands over it.
    pub over: usize,
}

/// The verdict on an image of either version; refusals 1 to 7, as the reader.
pub fn reads_back(source: &[u8], image: &[u8]) -> Result<Verdict, Refusal> {
    let read = reader::read(source, image)?;
    Ok(match operands(&read).first() {
        None => Verdict::Same,
        Some(first) => Verdict::Differs(first.at),
    })
}

/// All operands that break a rule, in reading order.
pub fn operands(read: &Accepted) -> Vec<Operand> {
    let mut found = Vec::new();
    gather(&read.tree, None, &mut found);
    found
}

/// Those of a record and what is below it; over it stands another, of which it
/// is the child in a place.
fn gather(
    record: &Record,
    over: Option<(&Record, usize)>,
    found: &mut Vec<Operand>,
) {
    if let Some((over, place)) = over
        && let Some(rule) = broken(over, place, record)
    {
        found.push(Operand {
            at: record.at,
            depth: record.depth,
            rule,
            over: over.at,
        });
    }
    for (place, child) in record.children.iter().enumerate() {
        if let Some(child) = child {
            gather(child, Some((record, place)), found);
        }
    }
}

/// The rule that a record breaks as the child in this place of another.
fn broken(over: &Record, place: usize, record: &Record) -> Option<Rule> {
    if record.kind != BIN_OP {
        return None;
    }
    match (over.kind, place) {
        (BIN_OP, LEFT) => {
            let asked =
                operator(record).relative_associativity(&operator(over));
            (asked != Associativity::Left).then_some(Rule::Left)
        }
        (BIN_OP, RIGHT) => {
            let asked =
                operator(over).relative_associativity(&operator(record));
            (asked != Associativity::Right).then_some(Rule::Right)
        }
        (NOT, _) => Some(Rule::Not),
        (NEGATE, _) => Some(Rule::Negate),
        _ => None,
    }
}

/// The operator of a 63.
pub fn operator(record: &Record) -> BinOp {
    BIN_OPS[usize::from(byte(child(record, OPERATOR)))]
}
