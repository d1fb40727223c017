//! Blocks, statements and expressions.

use super::{Builder, byte, child, maybe};
use crate::{
    ast::{
        self, BinOp, CompoundAssignOp, Expr, FStringPart, Literal, Pattern,
        ReturnKind, Stmt,
    },
    parser::meta::{Meta, MetaId},
    reader::Record,
};

/// By their places in document 01.
pub(crate) const BIN_OPS: [BinOp; 14] = [
    BinOp::And,
    BinOp::Or,
    BinOp::Eq,
    BinOp::Ne,
    BinOp::Lt,
    BinOp::Le,
    BinOp::Gt,
    BinOp::Ge,
    BinOp::Add,
    BinOp::Sub,
    BinOp::Mul,
    BinOp::Div,
    BinOp::Mod,
    BinOp::Exp,
];

const COMPOUND_OPS: [CompoundAssignOp; 5] = [
    CompoundAssignOp::Add,
    CompoundAssignOp::Sub,
    CompoundAssignOp::Mul,
    CompoundAssignOp::Div,
    CompoundAssignOp::Mod,
];

impl Builder {
    pub(super) fn block(&mut self, r: &Record) -> Meta<ast::Block> {
        let stmts = self.list(child(r, 0), Self::stmt);
        let last = maybe(r, 1).map(|last| self.boxed(last));
        self.meta(r, ast::Block { stmts, last })
    }

    fn stmt(&mut self, r: &Record) -> Meta<Stmt> {
        let node = match r.kind {
            30 => Stmt::Let(
                self.ident(child(r, 0)),
                maybe(r, 1).map(|ty| self.type_expr(ty)),
                self.expr(child(r, 2)),
            ),
            31 => Stmt::Import(self.import(child(r, 0))),
            _ => Stmt::Expr(self.expr(child(r, 0))),
        };
        self.meta(r, node)
    }

    fn boxed(&mut self, r: &Record) -> Box<Meta<Expr>> {
        Box::new(self.expr(r))
    }

    pub(super) fn expr(&mut self, r: &Record) -> Meta<Expr> {
        let node = match r.kind {
            50 => Expr::Return(
                return_kind(byte(r)),
                maybe(r, 0).map(|value| self.boxed(value)),
            ),
            51 => Expr::Literal(self.literal(child(r, 0))),
            52 => Expr::Block(self.block(child(r, 0))),
            53 => self.r#match(r),
            54 => Expr::FunctionCall(
                self.boxed(child(r, 0)),
                self.meta_list(child(r, 1), Self::expr),
            ),
            55 => {
                Expr::Access(self.boxed(child(r, 0)), self.ident(child(r, 1)))
            }
            56 => Expr::Path(self.path(child(r, 0))),
            57 => Expr::Record(self.record(child(r, 0))),
            58 => Expr::TypedRecord(
                self.path(child(r, 0)),
                self.record(child(r, 1)),
            ),
            59 => Expr::List(self.list(child(r, 0), Self::expr)),
            69 => Expr::FString(self.list(child(r, 0), Self::part)),
            65..=67 => self.branching(r),
            _ => self.operator(r),
        };
        self.meta(r, node)
    }

    fn branching(&mut self, r: &Record) -> Expr {
        match r.kind {
            65 => Expr::IfElse(
                self.boxed(child(r, 0)),
                self.block(child(r, 1)),
                maybe(r, 2).map(|block| self.block(block)),
            ),
            66 => {
                Expr::While(self.boxed(child(r, 0)), self.block(child(r, 1)))
            }
            _ => Expr::For(
                self.ident(child(r, 0)),
                self.boxed(child(r, 1)),
                self.block(child(r, 2)),
            ),
        }
    }

    fn operator(&mut self, r: &Record) -> Expr {
        match r.kind {
            60 => Expr::Not(self.boxed(child(r, 0))),
            61 => {
                Expr::Assign(self.path(child(r, 0)), self.boxed(child(r, 1)))
            }
            62 => Expr::CompoundAssign(ast::CompoundAssign {
                // Ids for the type checker, which the formatter doesn't read.
                binop_id: MetaId(0),
                path_expr_id: MetaId(0),
                path: self.path(child(r, 0)),
                op: self.pick(child(r, 1), &COMPOUND_OPS),
                expr: self.boxed(child(r, 2)),
            }),
            63 => Expr::BinOp(
                self.boxed(child(r, 0)),
                self.pick(child(r, 1), &BIN_OPS),
                self.boxed(child(r, 2)),
            ),
            64 => Expr::Negate(self.boxed(child(r, 0))),
            68 => Expr::QuestionMark(self.boxed(child(r, 0))),
            _ => Expr::Parentheses(self.boxed(child(r, 0))),
        }
    }

    fn pick<T: Copy>(&mut self, r: &Record, choices: &[T]) -> Meta<T> {
        self.meta(r, choices[usize::from(byte(r))])
    }

    fn literal(&mut self, r: &Record) -> Meta<Literal> {
        let node = match byte(r) {
            // Whichever literal it is, its text is taken from the source.
            0 => Literal::String(String::new()),
            1 => Literal::Bool(true),
            2 => Literal::Bool(false),
            _ => Literal::Unit,
        };
        self.meta(r, node)
    }

    fn record(&mut self, r: &Record) -> Meta<ast::Record> {
        let fields = self.list(r, |this, field| {
            let name = this.ident(child(field, 0));
            let expr = this.expr(child(field, 1));
            this.meta(field, ast::RecordField { name, expr })
        });
        self.meta(r, ast::Record { fields })
    }

    fn r#match(&mut self, r: &Record) -> Expr {
        let expr = self.expr(child(r, 0));
        let arms = self.meta_list(child(r, 1), Self::arm);
        Expr::Match(Box::new(self.meta(r, ast::Match { expr, arms })))
    }

    fn arm(&mut self, r: &Record) -> Meta<ast::MatchArm> {
        let pattern = self.pattern(child(r, 0));
        let guard = maybe(r, 1).map(|guard| self.expr(guard));
        let body = self.expr(child(r, 2));
        self.meta(
            r,
            ast::MatchArm {
                pattern,
                guard,
                body,
            },
        )
    }

    fn pattern(&mut self, r: &Record) -> Meta<Pattern> {
        let node = match r.kind {
            82 => Pattern::Underscore,
            _ => Pattern::EnumVariant {
                variant: self.ident(child(r, 0)),
                fields: maybe(r, 1).map(|list| self.names(list)),
            },
        };
        self.meta(r, node)
    }

    fn part(&mut self, r: &Record) -> Meta<FStringPart> {
        let node = match r.kind {
            84 => FStringPart::String(String::new()),
            _ => FStringPart::Expr(self.expr(child(r, 0))),
        };
        self.meta(r, node)
    }
}

fn return_kind(payload: u8) -> ReturnKind {
    match payload {
        0 => ReturnKind::Return,
        1 => ReturnKind::Accept,
        _ => ReturnKind::Reject,
    }
}
