//! Blocks, statements and expressions.

use judge::reader::Record;
use rrufthim::ast::{
    self, BinOp, Block, CompoundAssign, CompoundAssignOp, Expr, FStringPart,
    Literal, Match, MatchArm, Meta, Pattern, RecordField, ReturnKind, Stmt,
};

use crate::{
    byte, child,
    declarations::{import, type_expr},
    ident, list, maybe, meta, meta_list, names, path,
};

const BIN_OPS: [BinOp; 14] = [
    BinOp::And,
    BinOp::Or,
    BinOp::Eq,
    BinOp::Ne,
    BinOp::Lt,
    BinOp::Le,
    BinOp::Gt,
    BinOp::Ge,
    BinOp::Add,
    BinOp::Sub,
    BinOp::Mul,
    BinOp::Div,
    BinOp::Mod,
    BinOp::Exp,
];

const COMPOUND_OPS: [CompoundAssignOp; 5] = [
    CompoundAssignOp::Add,
    CompoundAssignOp::Sub,
    CompoundAssignOp::Mul,
    CompoundAssignOp::Div,
    CompoundAssignOp::Mod,
];

const RETURN_KINDS: [ReturnKind; 3] =
    [ReturnKind::Return, ReturnKind::Accept, ReturnKind::Reject];

pub fn block(r: &Record) -> Meta<Block> {
    let stmts = list(child(r, 0), stmt);
    let last = maybe(r, 1).map(boxed);
    meta(r, Block { stmts, last })
}

fn stmt(r: &Record) -> Meta<Stmt> {
    let node = match r.kind {
        30 => Stmt::Let(
            ident(child(r, 0)),
            maybe(r, 1).map(type_expr),
            expr(child(r, 2)),
        ),
        31 => Stmt::Import(import(child(r, 0))),
        _ => Stmt::Expr(expr(child(r, 0))),
    };
    meta(r, node)
}

fn boxed(r: &Record) -> Box<Meta<Expr>> {
    Box::new(expr(r))
}

pub fn expr(r: &Record) -> Meta<Expr> {
    let first = || child(r, 0);
    let second = || child(r, 1);
    let node = match r.kind {
        50 => Expr::Return(pick(r, &RETURN_KINDS), maybe(r, 0).map(boxed)),
        51 => Expr::Literal(literal(first())),
        52 => Expr::Block(block(first())),
        53 => Expr::Match(Box::new(meta(r, r#match(r)))),
        54 => Expr::FunctionCall(boxed(first()), meta_list(second(), expr)),
        55 => Expr::Access(boxed(first()), ident(second())),
        56 => Expr::Path(path(first())),
        57 => Expr::Record(record(first())),
        58 => Expr::TypedRecord(path(first()), record(second())),
        59 => Expr::List(list(first(), expr)),
        61 => Expr::Assign(path(first()), boxed(second())),
        65 => Expr::IfElse(
            boxed(first()),
            block(second()),
            maybe(r, 2).map(block),
        ),
        66 => Expr::While(boxed(first()), block(second())),
        67 => Expr::For(ident(first()), boxed(second()), block(child(r, 2))),
        69 => Expr::FString(list(first(), part)),
        _ => operator(r),
    };
    meta(r, node)
}

fn operator(r: &Record) -> Expr {
    let op = || child(r, 1);
    match r.kind {
        60 => Expr::Not(boxed(child(r, 0))),
        62 => Expr::CompoundAssign(CompoundAssign {
            path: path(child(r, 0)),
            op: meta(op(), pick(op(), &COMPOUND_OPS)),
            expr: boxed(child(r, 2)),
        }),
        63 => Expr::BinOp(
            boxed(child(r, 0)),
            meta(op(), pick(op(), &BIN_OPS)),
            boxed(child(r, 2)),
        ),
        64 => Expr::Negate(boxed(child(r, 0))),
        68 => Expr::QuestionMark(boxed(child(r, 0))),
        _ => Expr::Parentheses(boxed(child(r, 0))),
    }
}

fn pick<T: Copy>(r: &Record, choices: &[T]) -> T {
    choices[usize::from(byte(r))]
}

fn literal(r: &Record) -> Meta<Literal> {
    let node = match byte(r) {
        // Whichever literal it is, its text is taken from the source.
        0 => Literal::Integer(0, None),
        1 => Literal::Bool(true),
        2 => Literal::Bool(false),
        _ => Literal::Unit,
    };
    meta(r, node)
}

fn record(r: &Record) -> Meta<ast::Record> {
    let fields = list(r, |r| {
        let (name, expr) = (ident(child(r, 0)), expr(child(r, 1)));
        meta(r, RecordField { name, expr })
    });
    meta(r, ast::Record { fields })
}

fn r#match(r: &Record) -> Match {
    Match {
        expr: expr(child(r, 0)),
        arms: meta_list(child(r, 1), arm),
    }
}

fn arm(r: &Record) -> Meta<MatchArm> {
    let arm = MatchArm {
        pattern: pattern(child(r, 0)),
        guard: maybe(r, 1).map(expr),
        body: expr(child(r, 2)),
    };
    meta(r, arm)
}

fn pattern(r: &Record) -> Meta<Pattern> {
    let node = match r.kind {
        82 => Pattern::Underscore,
        _ => Pattern::EnumVariant {
            variant: ident(child(r, 0)),
            fields: maybe(r, 1).map(names),
        },
    };
    meta(r, node)
}

fn part(r: &Record) -> Meta<FStringPart> {
    let node = match r.kind {
        84 => FStringPart::String(String::new()),
        _ => FStringPart::Expr(expr(child(r, 0))),
    };
    meta(r, node)
}
