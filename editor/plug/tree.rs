//! Roto's syntax tree, record by record, as a tree image has it.
//!
//! The file is compiled for two trees, which have the same names: Roto's
//! own, and `rrufthim::ast`. The module above it says which, by `ast`,
//! `Meta`, `Spans` and `span`.

use rrufthim::{EncodeError, ImageWriter, NO_SPAN, Span, WriteResult, kind};

use super::{
    Meta, Spans,
    ast::{
        BinOp, Block, CompoundAssign, Declaration, Expr, FStringPart,
        Identifier, ImportPath, Literal, Match, MatchArm, Params, Path,
        Pattern, Record, RecordType, ReturnKind, Stmt, SyntaxTree, TypeExpr,
        Variant,
    },
    span,
};

/// Writes a tree's record. `width` is asked once for each text, in the
/// image's order: the shebang, trimmed at its end, then names as they come.
pub fn write<W: FnMut(&str) -> usize>(
    out: &mut ImageWriter<'_>,
    tree: &SyntaxTree,
    spans: &Spans,
    width: W,
) -> WriteResult {
    TreeWriter { out, spans, width }.tree(tree)
}

struct TreeWriter<'t, 'b, W> {
    out: &'t mut ImageWriter<'b>,
    spans: &'t Spans,
    width: W,
}

/// What all records are made of.
impl<W: FnMut(&str) -> usize> TreeWriter<'_, '_, W> {
    fn span<T>(&self, node: &Meta<T>) -> Span {
        span(self.spans, node)
    }

    /// A record. `fill` writes its payload and its children.
    fn record(
        &mut self,
        kind: u8,
        span: Span,
        fill: impl FnOnce(&mut Self) -> WriteResult,
    ) -> WriteResult {
        let record = self.out.open(kind, span)?;
        fill(self)?;
        self.out.close(record)
    }

    /// A list record and its elements.
    fn list<T>(
        &mut self,
        span: Span,
        elements: &[T],
        put: impl FnMut(&mut Self, &T) -> WriteResult,
    ) -> WriteResult {
        self.record(kind::LIST, span, |w| w.each(elements, put))
    }

    fn each<T>(
        &mut self,
        elements: &[T],
        mut put: impl FnMut(&mut Self, &T) -> WriteResult,
    ) -> WriteResult {
        elements.iter().try_for_each(|element| put(self, element))
    }

    /// A child that may be absent.
    fn maybe<T>(
        &mut self,
        child: Option<&T>,
        put: impl FnOnce(&mut Self, &T) -> WriteResult,
    ) -> WriteResult {
        match child {
            Some(child) => put(self, child),
            None => {
                self.out.absent();
                Ok(())
            }
        }
    }

    fn name(&mut self, name: &Meta<Identifier>) -> WriteResult {
        let (span, text) = (self.span(name), name.as_str());
        let width = (self.width)(text);
        self.out.text(span, text, width)
    }

    fn names(&mut self, names: &Meta<Vec<Meta<Identifier>>>) -> WriteResult {
        self.list(self.span(names), names, Self::name)
    }

    fn path(&mut self, path: &Meta<Path>) -> WriteResult {
        let span = self.span(path);
        if path.idents.is_empty() {
            return Err(EncodeError::EmptyPath { span }.into());
        }
        self.record(kind::PATH, span, |w| w.each(&path.idents, Self::name))
    }
}

/// Declarations and types.
impl<W: FnMut(&str) -> usize> TreeWriter<'_, '_, W> {
    fn tree(&mut self, tree: &SyntaxTree) -> WriteResult {
        self.record(kind::TREE, NO_SPAN, |w| {
            w.maybe(tree.shebang.as_ref(), |w, text| {
                let width = (w.width)(text.trim_end());
                w.out.text(NO_SPAN, text, width)
            })?;
            w.each(&tree.declarations, Self::declaration)
        })
    }

    fn declaration(&mut self, declaration: &Declaration) -> WriteResult {
        match declaration {
            Declaration::FilterMap(x) => {
                self.record(kind::FILTER_MAP, NO_SPAN, |w| {
                    w.name(&x.ident)?;
                    w.params(&x.params)?;
                    w.block(&x.body)
                })
            }
            Declaration::Const(x) => self.record(kind::CONST, NO_SPAN, |w| {
                w.name(&x.ident)?;
                w.type_expr(&x.ty)?;
                w.expr(&x.expr)
            }),
            Declaration::Record(x) => {
                self.record(kind::RECORD, NO_SPAN, |w| {
                    w.name(&x.ident)?;
                    w.maybe(x.type_params.as_ref(), Self::names)?;
                    w.record_type(&x.record_type)
                })
            }
            Declaration::Enum(x) => self.record(kind::ENUM, NO_SPAN, |w| {
                w.name(&x.ident)?;
                w.maybe(x.type_params.as_ref(), Self::names)?;
                w.list(w.span(&x.variants), &x.variants, Self::variant)
            }),
            Declaration::Function(x) => {
                self.record(kind::FUNCTION, NO_SPAN, |w| {
                    w.name(&x.ident)?;
                    w.params(&x.params)?;
                    w.maybe(x.ret.as_ref(), Self::type_expr)?;
                    w.block(&x.body)
                })
            }
            Declaration::Test(x) => self.record(kind::TEST, NO_SPAN, |w| {
                w.name(&x.ident)?;
                w.block(&x.body)
            }),
            Declaration::Import(x) => self.import(x),
        }
    }

    fn import(&mut self, import: &Meta<ImportPath>) -> WriteResult {
        self.record(kind::IMPORT, self.span(import), |w| {
            w.maybe(import.path.as_ref(), Self::path)?;
            w.maybe(import.group.as_ref(), |w, group| {
                w.list(w.span(group), group, Self::import)
            })
        })
    }

    fn params(&mut self, params: &Meta<Params>) -> WriteResult {
        self.list(self.span(params), &params.0, |w, x| {
            w.name_and_type(w.span(x), &x.name, &x.ty)
        })
    }

    fn record_type(&mut self, record: &RecordType) -> WriteResult {
        let fields = &record.fields;
        self.list(self.span(fields), fields, |w, x| {
            w.name_and_type(w.span(x), &x.name, &x.ty)
        })
    }

    fn name_and_type(
        &mut self,
        span: Span,
        name: &Meta<Identifier>,
        ty: &Meta<TypeExpr>,
    ) -> WriteResult {
        self.record(kind::NAME_AND_TYPE, span, |w| {
            w.name(name)?;
            w.type_expr(ty)
        })
    }

    fn variant(&mut self, variant: &Meta<Variant>) -> WriteResult {
        self.record(kind::VARIANT, self.span(variant), |w| {
            w.name(&variant.ident)?;
            w.list(NO_SPAN, &variant.fields, Self::type_expr)
        })
    }

    fn type_expr(&mut self, ty: &Meta<TypeExpr>) -> WriteResult {
        let span = self.span(ty);
        match &ty.node {
            TypeExpr::Option(inner) => {
                self.record(kind::OPTION, span, |w| w.type_expr(inner))
            }
            TypeExpr::Path(path, arguments) => {
                self.record(kind::TYPE_PATH, span, |w| {
                    w.path(path)?;
                    w.maybe(arguments.as_ref(), |w, list| {
                        w.list(w.span(list), list, Self::type_expr)
                    })
                })
            }
            TypeExpr::Never => self.out.leaf(kind::NEVER, span),
            TypeExpr::Unit => self.out.leaf(kind::UNIT, span),
            TypeExpr::Record(record) => {
                self.record(kind::RECORD_TYPE, span, |w| {
                    w.record_type(record)
                })
            }
        }
    }
}

/// Blocks, statements and expressions.
impl<W: FnMut(&str) -> usize> TreeWriter<'_, '_, W> {
    fn block(&mut self, block: &Meta<Block>) -> WriteResult {
        self.record(kind::BLOCK, self.span(block), |w| {
            w.list(NO_SPAN, &block.stmts, Self::stmt)?;
            w.maybe(block.last.as_deref(), Self::expr)
        })
    }

    fn stmt(&mut self, stmt: &Meta<Stmt>) -> WriteResult {
        let span = self.span(stmt);
        match &stmt.node {
            Stmt::Let(name, ty, value) => self.record(kind::LET, span, |w| {
                w.name(name)?;
                w.maybe(ty.as_ref(), Self::type_expr)?;
                w.expr(value)
            }),
            Stmt::Import(import) => {
                self.record(kind::IMPORT_STMT, span, |w| w.import(import))
            }
            Stmt::Expr(expr) => {
                self.record(kind::EXPR_STMT, span, |w| w.expr(expr))
            }
        }
    }

    fn expr(&mut self, expr: &Meta<Expr>) -> WriteResult {
        let record = self.out.open(kind_of(expr), self.span(expr))?;
        self.parts(expr)?;
        self.out.close(record)
    }

    /// Payload and children of an expression's record.
    fn parts(&mut self, expr: &Expr) -> WriteResult {
        match expr {
            Expr::Return(kind, x) => self.r#return(kind, x.as_deref()),
            Expr::Literal(x) => self.literal(x),
            Expr::Block(x) => self.block(x),
            Expr::Match(x) => self.r#match(x),
            Expr::FunctionCall(callee, x) => {
                self.expr(callee)?;
                self.list(self.span(x), x, Self::expr)
            }
            Expr::Access(x, name) => {
                self.expr(x)?;
                self.name(name)
            }
            Expr::Path(x) => self.path(x),
            Expr::Record(x) => self.fields(x),
            Expr::TypedRecord(path, x) => {
                self.path(path)?;
                self.fields(x)
            }
            Expr::List(x) => self.list(NO_SPAN, x, Self::expr),
            Expr::Assign(path, x) => {
                self.path(path)?;
                self.expr(x)
            }
            Expr::CompoundAssign(x) => self.compound(x),
            Expr::BinOp(left, op, right) => self.binary(left, op, right),
            Expr::IfElse(x, a, b) => self.if_else(x, a, b.as_ref()),
            Expr::While(x, body) => self.headed(x, body),
            Expr::For(name, x, body) => {
                self.name(name)?;
                self.headed(x, body)
            }
            Expr::FString(x) => self.list(NO_SPAN, x, Self::part),
            Expr::Not(x) | Expr::Negate(x) => self.expr(x),
            Expr::QuestionMark(x) | Expr::Parentheses(x) => self.expr(x),
        }
    }

    fn r#return(
        &mut self,
        kind: &ReturnKind,
        value: Option<&Meta<Expr>>,
    ) -> WriteResult {
        self.out.byte(match kind {
            ReturnKind::Return => 0,
            ReturnKind::Accept => 1,
            ReturnKind::Reject => 2,
        });
        self.maybe(value, Self::expr)
    }

    fn binary(
        &mut self,
        left: &Meta<Expr>,
        op: &Meta<BinOp>,
        right: &Meta<Expr>,
    ) -> WriteResult {
        self.expr(left)?;
        self.out
            .choice(kind::OPERATOR, self.span(op), op.node as u8)?;
        self.expr(right)
    }

    fn compound(&mut self, x: &CompoundAssign) -> WriteResult {
        self.path(&x.path)?;
        self.out
            .choice(kind::OPERATOR, self.span(&x.op), x.op.node as u8)?;
        self.expr(&x.expr)
    }

    fn if_else(
        &mut self,
        condition: &Meta<Expr>,
        then: &Meta<Block>,
        otherwise: Option<&Meta<Block>>,
    ) -> WriteResult {
        self.headed(condition, then)?;
        self.maybe(otherwise, Self::block)
    }

    /// An expression and the block that it leads.
    fn headed(
        &mut self,
        head: &Meta<Expr>,
        body: &Meta<Block>,
    ) -> WriteResult {
        self.expr(head)?;
        self.block(body)
    }

    fn literal(&mut self, literal: &Meta<Literal>) -> WriteResult {
        let payload = match &literal.node {
            Literal::Bool(true) => 1,
            Literal::Bool(false) => 2,
            Literal::Unit => 3,
            _ => 0,
        };
        self.out.choice(kind::LITERAL, self.span(literal), payload)
    }

    fn fields(&mut self, record: &Meta<Record>) -> WriteResult {
        self.record(kind::RECORD_FIELDS, self.span(record), |w| {
            w.each(&record.fields, |w, field| {
                w.record(kind::FIELD, w.span(field), |w| {
                    w.name(&field.name)?;
                    w.expr(&field.expr)
                })
            })
        })
    }

    fn r#match(&mut self, x: &Match) -> WriteResult {
        self.expr(&x.expr)?;
        self.list(self.span(&x.arms), &x.arms, Self::arm)
    }

    fn arm(&mut self, arm: &Meta<MatchArm>) -> WriteResult {
        self.record(kind::ARM, self.span(arm), |w| {
            w.pattern(&arm.pattern)?;
            w.maybe(arm.guard.as_ref(), Self::expr)?;
            w.expr(&arm.body)
        })
    }

    fn pattern(&mut self, pattern: &Meta<Pattern>) -> WriteResult {
        let span = self.span(pattern);
        match &pattern.node {
            Pattern::Underscore => self.out.leaf(kind::UNDERSCORE, span),
            Pattern::EnumVariant { variant, fields } => {
                self.record(kind::ENUM_VARIANT, span, |w| {
                    w.name(variant)?;
                    w.maybe(fields.as_ref(), Self::names)
                })
            }
        }
    }

    fn part(&mut self, part: &Meta<FStringPart>) -> WriteResult {
        let span = self.span(part);
        match &part.node {
            FStringPart::String(_) => self.out.leaf(kind::TEXT_PART, span),
            FStringPart::Expr(expr) => {
                self.record(kind::EXPR_PART, span, |w| w.expr(expr))
            }
        }
    }
}

/// The kind of an expression's record.
fn kind_of(expr: &Expr) -> u8 {
    match expr {
        Expr::Return(..) => kind::RETURN,
        Expr::Literal(_) => kind::LITERAL_EXPR,
        Expr::Block(_) => kind::BLOCK_EXPR,
        Expr::Match(_) => kind::MATCH,
        Expr::FunctionCall(..) => kind::FUNCTION_CALL,
        Expr::Access(..) => kind::ACCESS,
        Expr::Path(_) => kind::PATH_EXPR,
        Expr::Record(_) => kind::RECORD_EXPR,
        Expr::TypedRecord(..) => kind::TYPED_RECORD,
        Expr::List(_) => kind::LIST_EXPR,
        Expr::Not(_) => kind::NOT,
        Expr::Assign(..) => kind::ASSIGN,
        Expr::CompoundAssign(_) => kind::COMPOUND_ASSIGN,
        Expr::BinOp(..) => kind::BIN_OP,
        Expr::Negate(_) => kind::NEGATE,
        Expr::IfElse(..) => kind::IF_ELSE,
        Expr::While(..) => kind::WHILE,
        Expr::For(..) => kind::FOR,
        Expr::QuestionMark(_) => kind::QUESTION_MARK,
        Expr::FString(_) => kind::F_STRING,
        Expr::Parentheses(_) => kind::PARENTHESES,
    }
}
