//! Whether a tree would be read back differently: the judge's verdict, wrong
//! where a fault on it is planted.

use judge::{
    ast::BinOp,
    parser::precedence::Associativity::{self, Left, Not, Right},
    reader::{self, Accepted, Reading, Record},
    reads_back::{self, Operand, Rule, operands},
    refusal::{Refusal, refusal},
};

use super::{Fault, planted, put, put_refusal};

const ACCESS: u8 = 55;
const NOT: u8 = 60;
const BIN_OP: u8 = 63;
const NEGATE: u8 = 64;
const QUESTION_MARK: u8 = 68;
const PARENTHESES: u8 = 70;

pub fn reads_back(source: &[u8], image: &[u8], out: &mut [u64; 3]) {
    let found = match read(source, image) {
        Err(refusal) => return put_refusal(out, refusal),
        Ok(read) => named(&read),
    };
    match found {
        None => {
            put(out, &[0, 1]);
            if !planted(Fault::NoPlaceOfYes) {
                put(&mut out[2..], &[0]);
            }
        }
        Some(at) if planted(Fault::RefusedVerdict) => {
            put_refusal(out, refusal(4, at));
        }
        Some(at) => put(out, &[0, 0, at as u64]),
    }
}

fn read<'i>(
    source: &'i [u8],
    image: &'i [u8],
) -> Result<Accepted<'i>, Refusal> {
    if planted(Fault::VerdictOfOne) && image.first() == Some(&2) {
        return Err(refusal(20, 0));
    }
    let reading = match planted(Fault::VerdictEarlier) {
        true => Reading::Earlier,
        false => Reading::Strict,
    };
    reader::read_by(source, image, reading)
}

/// The offset that is named, if any is.
fn named(read: &Accepted) -> Option<usize> {
    let found = found(read);
    let one = if planted(Fault::LastOperand) {
        found.last()
    } else if planted(Fault::OutermostOperand) {
        // Of several the first one.
        found.iter().min_by_key(|one| one.depth)
    } else if planted(Fault::ByParents) {
        found.iter().min_by_key(|one| one.over)
    } else {
        found.first()
    }?;
    Some(match planted(Fault::ParentNamed) {
        true => one.over,
        false => one.at,
    })
}

/// The operands that break a rule, in reading order.
fn found(read: &Accepted) -> Vec<Operand> {
    let right = operands(read);
    let by_hand = [
        Fault::SidesExchanged,
        Fault::NotForLeft,
        Fault::NotForRight,
        Fault::LeftForRight,
        Fault::MixedAllowed,
        Fault::SameAllowed,
        Fault::ParenthesesLookedThrough,
        Fault::UnaryLookedThrough,
        Fault::NotLetPass,
        Fault::NegateLetPass,
        Fault::AccessAsked,
        Fault::QuestionAsked,
        Fault::ParenthesesAsked,
        Fault::OperandOfAny,
    ];
    let spoiled = by_hand.into_iter().any(planted);
    if !spoiled {
        return right;
    }
    let mut found = Vec::new();
    gather(&read.tree, None, &mut found);
    found
}

type Over<'r, 'i> = Option<(&'r Record<'i>, usize)>;

fn gather(record: &Record, over: Over, found: &mut Vec<Operand>) {
    if record.kind == BIN_OP
        && let Some((over, place)) = over
        && let Some(rule) = broken(over, place, record)
    {
        found.push(Operand {
            at: record.at,
            depth: record.depth,
            rule,
            over: over.at,
        });
    }
    for (place, child) in record.children.iter().enumerate() {
        let Some(child) = child else { continue };
        let through = match record.kind {
            PARENTHESES => planted(Fault::ParenthesesLookedThrough),
            NOT | NEGATE => planted(Fault::UnaryLookedThrough),
            _ => false,
        };
        let below = match through {
            true => over,
            false => Some((record, place)),
        };
        gather(child, below, found);
    }
}

/// The rule that a 63 breaks under another record, as a fault has it.
fn broken(over: &Record, place: usize, record: &Record) -> Option<Rule> {
    let broken = match (over.kind, place) {
        (BIN_OP, 0) => asked(record, over, Left),
        (BIN_OP, 2) => asked(over, record, Right),
        (NOT, _) => !planted(Fault::NotLetPass),
        (NEGATE, _) => !planted(Fault::NegateLetPass),
        (ACCESS, _) => planted(Fault::AccessAsked),
        (QUESTION_MARK, _) => planted(Fault::QuestionAsked),
        (PARENTHESES, _) => planted(Fault::ParenthesesAsked),
        (50..=68, _) => planted(Fault::OperandOfAny),
        _ => false,
    };
    let rule = match place {
        0 => Rule::Left,
        _ => Rule::Right,
    };
    broken.then_some(rule)
}

/// Whether the one doesn't give what it must against the other.
fn asked(one: &Record, other: &Record, due: Associativity) -> bool {
    let [one, other] = [one, other].map(reads_back::operator);
    let due = match planted(Fault::SidesExchanged) {
        true if due == Left => Right,
        true => Left,
        false => due,
    };
    let got = one.relative_associativity(&other);
    let mixed = matches!(
        (one, other),
        (BinOp::And, BinOp::Or) | (BinOp::Or, BinOp::And)
    );
    let let_pass = match (got, due) {
        (Not, _) if mixed => planted(Fault::MixedAllowed),
        (Not, Left) => planted(Fault::NotForLeft),
        (Not, Right) => planted(Fault::NotForRight),
        (Left, Right) if level(one) == level(other) => {
            planted(Fault::LeftForRight)
        }
        _ => false,
    };
    let same = planted(Fault::SameAllowed) && one == other;
    got != due && !let_pass && !same
}

/// The operators of one precedence.
fn level(operator: BinOp) -> u8 {
    match operator {
        BinOp::And | BinOp::Or => 0,
        BinOp::Add | BinOp::Sub => 2,
        BinOp::Mul | BinOp::Div | BinOp::Mod => 3,
        BinOp::Exp => 4,
        _ => 1,
    }
}
