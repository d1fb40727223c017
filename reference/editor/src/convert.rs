//! Roto's own tree as the types of the editor's crate, node by node: what an
//! engineer would write who doesn't use the plug. Timed beside it.

use judge::{
    ast::{
        self as roto, BinOp, CompoundAssignOp, Declaration, Expr, FloatType,
        IntType, Literal, ReturnKind, Stmt, TypeExpr,
    },
    parser::{
        Extras,
        meta::{self, Spans},
    },
};
use rrufthim::ast::{self, Meta};

/// A tree of the crate's own.
pub fn tree(tree: &roto::SyntaxTree, spans: &Spans) -> ast::SyntaxTree {
    let convert = Convert(spans);
    let declarations = tree.declarations.iter();
    ast::SyntaxTree {
        shebang: tree.shebang.clone(),
        declarations: declarations.map(|x| convert.declaration(x)).collect(),
    }
}

pub fn extras(extras: &Extras) -> ast::Extras {
    let comments = extras.comments.iter().map(|c| c.start..c.end);
    ast::Extras {
        comments: comments.collect(),
    }
}

struct Convert<'s>(&'s Spans);

/// What all nodes are made of.
impl Convert<'_> {
    fn meta<T, U>(
        &self,
        node: &meta::Meta<T>,
        convert: impl FnOnce(&Self, &T) -> U,
    ) -> Meta<U> {
        let span = self.0.get(node);
        Meta::new(convert(self, &node.node), span.start..span.end)
    }

    fn boxed(&self, expr: &meta::Meta<Expr>) -> Box<Meta<ast::Expr>> {
        Box::new(self.meta(expr, Self::expr))
    }

    fn list<T, U>(
        &self,
        nodes: &[meta::Meta<T>],
        convert: impl Fn(&Self, &T) -> U,
    ) -> Vec<Meta<U>> {
        let nodes = nodes.iter();
        nodes.map(|node| self.meta(node, &convert)).collect()
    }

    fn maybe<T, U>(
        &self,
        node: Option<&meta::Meta<T>>,
        convert: impl FnOnce(&Self, &T) -> U,
    ) -> Option<Meta<U>> {
        node.map(|node| self.meta(node, convert))
    }

    fn meta_list<T, U>(
        &self,
        nodes: &meta::Meta<Vec<meta::Meta<T>>>,
        convert: impl Fn(&Self, &T) -> U,
    ) -> Meta<Vec<Meta<U>>> {
        self.meta(nodes, |this, nodes| this.list(nodes, convert))
    }

    fn name(&self, name: &meta::Meta<roto::Identifier>) -> Name {
        self.meta(name, Self::identifier)
    }

    fn identifier(&self, name: &roto::Identifier) -> ast::Identifier {
        name.as_str().into()
    }

    fn names(
        &self,
        names: Option<&meta::Meta<Vec<meta::Meta<roto::Identifier>>>>,
    ) -> Option<Meta<Vec<Name>>> {
        names.map(|names| self.meta_list(names, Self::identifier))
    }

    fn path(&self, path: &roto::Path) -> ast::Path {
        ast::Path {
            idents: self.list(&path.idents, Self::identifier),
        }
    }
}

type Name = Meta<ast::Identifier>;

/// Declarations and types.
impl Convert<'_> {
    fn declaration(&self, declaration: &Declaration) -> ast::Declaration {
        match declaration {
            Declaration::FilterMap(x) => {
                ast::Declaration::FilterMap(Box::new(self.filter_map(x)))
            }
            Declaration::Const(x) => {
                ast::Declaration::Const(ast::ConstantDeclaration {
                    ident: self.name(&x.ident),
                    ty: self.meta(&x.ty, Self::type_expr),
                    expr: self.meta(&x.expr, Self::expr),
                })
            }
            Declaration::Record(x) => {
                ast::Declaration::Record(ast::RecordTypeDeclaration {
                    ident: self.name(&x.ident),
                    type_params: self.names(x.type_params.as_ref()),
                    record_type: self.record_type(&x.record_type),
                })
            }
            Declaration::Enum(x) => {
                ast::Declaration::Enum(ast::EnumTypeDeclaration {
                    ident: self.name(&x.ident),
                    type_params: self.names(x.type_params.as_ref()),
                    variants: self.meta_list(&x.variants, Self::variant),
                })
            }
            Declaration::Function(x) => {
                ast::Declaration::Function(self.function(x))
            }
            Declaration::Test(x) => ast::Declaration::Test(ast::Test {
                ident: self.name(&x.ident),
                body: self.meta(&x.body, Self::block),
            }),
            Declaration::Import(x) => {
                ast::Declaration::Import(self.meta(x, Self::import))
            }
        }
    }

    fn filter_map(&self, x: &roto::FilterMap) -> ast::FilterMap {
        ast::FilterMap {
            _filter_type: match x._filter_type {
                roto::FilterType::FilterMap => ast::FilterType::FilterMap,
                roto::FilterType::Filter => ast::FilterType::Filter,
            },
            ident: self.name(&x.ident),
            params: self.meta(&x.params, Self::params),
            body: self.meta(&x.body, Self::block),
        }
    }

    fn function(
        &self,
        x: &roto::FunctionDeclaration,
    ) -> ast::FunctionDeclaration {
        ast::FunctionDeclaration {
            ident: self.name(&x.ident),
            params: self.meta(&x.params, Self::params),
            ret: self.maybe(x.ret.as_ref(), Self::type_expr),
            body: self.meta(&x.body, Self::block),
        }
    }

    fn import(&self, x: &roto::ImportPath) -> ast::ImportPath {
        let group = x.group.as_ref();
        ast::ImportPath {
            path: self.maybe(x.path.as_ref(), Self::path),
            group: group.map(|group| self.meta_list(group, Self::import)),
        }
    }

    fn params(&self, params: &roto::Params) -> ast::Params {
        ast::Params(self.list(&params.0, |this, x| ast::Param {
            name: this.name(&x.name),
            ty: this.meta(&x.ty, Self::type_expr),
        }))
    }

    fn record_type(&self, record: &roto::RecordType) -> ast::RecordType {
        let field =
            |this: &Self, x: &roto::RecordFieldType| ast::RecordFieldType {
                name: this.name(&x.name),
                ty: this.meta(&x.ty, Self::type_expr),
            };
        ast::RecordType {
            fields: self.meta_list(&record.fields, field),
        }
    }

    fn variant(&self, variant: &roto::Variant) -> ast::Variant {
        ast::Variant {
            ident: self.name(&variant.ident),
            fields: self.list(&variant.fields, Self::type_expr),
        }
    }

    fn type_expr(&self, ty: &TypeExpr) -> ast::TypeExpr {
        match ty {
            TypeExpr::Option(inner) => ast::TypeExpr::Option(Box::new(
                self.meta(inner, Self::type_expr),
            )),
            TypeExpr::Path(path, arguments) => ast::TypeExpr::Path(
                self.meta(path, Self::path),
                arguments
                    .as_ref()
                    .map(|list| self.meta_list(list, Self::type_expr)),
            ),
            TypeExpr::Never => ast::TypeExpr::Never,
            TypeExpr::Unit => ast::TypeExpr::Unit,
            TypeExpr::Record(record) => {
                ast::TypeExpr::Record(self.record_type(record))
            }
        }
    }
}

/// Blocks, statements and expressions.
impl Convert<'_> {
    fn block(&self, block: &roto::Block) -> ast::Block {
        ast::Block {
            stmts: self.list(&block.stmts, Self::stmt),
            last: block.last.as_ref().map(|last| self.boxed(last)),
        }
    }

    fn stmt(&self, stmt: &Stmt) -> ast::Stmt {
        match stmt {
            Stmt::Let(name, ty, value) => ast::Stmt::Let(
                self.name(name),
                self.maybe(ty.as_ref(), Self::type_expr),
                self.meta(value, Self::expr),
            ),
            Stmt::Import(x) => ast::Stmt::Import(self.meta(x, Self::import)),
            Stmt::Expr(x) => ast::Stmt::Expr(self.meta(x, Self::expr)),
        }
    }

    fn expr(&self, expr: &Expr) -> ast::Expr {
        match expr {
            Expr::Literal(x) => {
                ast::Expr::Literal(self.meta(x, Self::literal))
            }
            Expr::Block(x) => ast::Expr::Block(self.meta(x, Self::block)),
            Expr::FunctionCall(callee, x) => ast::Expr::FunctionCall(
                self.boxed(callee),
                self.meta_list(x, Self::expr),
            ),
            Expr::Access(x, name) => {
                ast::Expr::Access(self.boxed(x), self.name(name))
            }
            Expr::Path(x) => ast::Expr::Path(self.meta(x, Self::path)),
            Expr::Record(x) => ast::Expr::Record(self.meta(x, Self::record)),
            Expr::TypedRecord(path, x) => ast::Expr::TypedRecord(
                self.meta(path, Self::path),
                self.meta(x, Self::record),
            ),
            Expr::List(x) => ast::Expr::List(self.list(x, Self::expr)),
            Expr::FString(x) => ast::Expr::FString(self.list(x, Self::part)),
            Expr::BinOp(left, op, right) => ast::Expr::BinOp(
                self.boxed(left),
                self.meta(op, |_, op| binary(*op)),
                self.boxed(right),
            ),
            Expr::Not(x) => ast::Expr::Not(self.boxed(x)),
            Expr::Negate(x) => ast::Expr::Negate(self.boxed(x)),
            Expr::QuestionMark(x) => ast::Expr::QuestionMark(self.boxed(x)),
            Expr::Parentheses(x) => ast::Expr::Parentheses(self.boxed(x)),
            other => self.other(other),
        }
    }

    /// What changes or chooses.
    fn other(&self, expr: &Expr) -> ast::Expr {
        match expr {
            Expr::Return(kind, value) => ast::Expr::Return(
                return_kind(kind),
                value.as_ref().map(|value| self.boxed(value)),
            ),
            Expr::Match(x) => {
                ast::Expr::Match(Box::new(self.meta(x, Self::r#match)))
            }
            Expr::Assign(path, x) => {
                ast::Expr::Assign(self.meta(path, Self::path), self.boxed(x))
            }
            Expr::CompoundAssign(x) => {
                ast::Expr::CompoundAssign(ast::CompoundAssign {
                    path: self.meta(&x.path, Self::path),
                    op: self.meta(&x.op, |_, op| compound(*op)),
                    expr: self.boxed(&x.expr),
                })
            }
            Expr::IfElse(x, then, otherwise) => ast::Expr::IfElse(
                self.boxed(x),
                self.meta(then, Self::block),
                self.maybe(otherwise.as_ref(), Self::block),
            ),
            Expr::While(x, body) => {
                ast::Expr::While(self.boxed(x), self.meta(body, Self::block))
            }
            Expr::For(name, x, body) => ast::Expr::For(
                self.name(name),
                self.boxed(x),
                self.meta(body, Self::block),
            ),
            _ => unreachable!("in `expr`"),
        }
    }

    fn record(&self, record: &roto::Record) -> ast::Record {
        let field = |this: &Self, x: &roto::RecordField| ast::RecordField {
            name: this.name(&x.name),
            expr: this.meta(&x.expr, Self::expr),
        };
        ast::Record {
            fields: self.list(&record.fields, field),
        }
    }

    fn r#match(&self, x: &roto::Match) -> ast::Match {
        let arm = |this: &Self, x: &roto::MatchArm| ast::MatchArm {
            pattern: this.meta(&x.pattern, Self::pattern),
            guard: this.maybe(x.guard.as_ref(), Self::expr),
            body: this.meta(&x.body, Self::expr),
        };
        ast::Match {
            expr: self.meta(&x.expr, Self::expr),
            arms: self.meta_list(&x.arms, arm),
        }
    }

    fn pattern(&self, pattern: &roto::Pattern) -> ast::Pattern {
        match pattern {
            roto::Pattern::Underscore => ast::Pattern::Underscore,
            roto::Pattern::EnumVariant { variant, fields } => {
                ast::Pattern::EnumVariant {
                    variant: self.name(variant),
                    fields: self.names(fields.as_ref()),
                }
            }
        }
    }

    fn part(&self, part: &roto::FStringPart) -> ast::FStringPart {
        match part {
            roto::FStringPart::String(text) => {
                ast::FStringPart::String(text.clone())
            }
            roto::FStringPart::Expr(x) => {
                ast::FStringPart::Expr(self.meta(x, Self::expr))
            }
        }
    }

    fn literal(&self, literal: &Literal) -> ast::Literal {
        match literal {
            Literal::String(text) => ast::Literal::String(text.clone()),
            Literal::Char(x) => ast::Literal::Char(*x),
            Literal::Asn(x) => ast::Literal::Asn(x.0),
            Literal::IpAddress(x) => ast::Literal::IpAddress(*x),
            Literal::Integer(x, ty) => {
                ast::Literal::Integer(*x, ty.as_ref().map(int_type))
            }
            Literal::Float(x, ty) => {
                ast::Literal::Float(*x, ty.as_ref().map(float_type))
            }
            Literal::Bool(x) => ast::Literal::Bool(*x),
            Literal::Unit => ast::Literal::Unit,
        }
    }
}

fn return_kind(kind: &ReturnKind) -> ast::ReturnKind {
    match kind {
        ReturnKind::Return => ast::ReturnKind::Return,
        ReturnKind::Accept => ast::ReturnKind::Accept,
        ReturnKind::Reject => ast::ReturnKind::Reject,
    }
}

fn int_type(ty: &IntType) -> ast::IntType {
    match ty {
        IntType::I8 => ast::IntType::I8,
        IntType::I16 => ast::IntType::I16,
        IntType::I32 => ast::IntType::I32,
        IntType::I64 => ast::IntType::I64,
        IntType::U8 => ast::IntType::U8,
        IntType::U16 => ast::IntType::U16,
        IntType::U32 => ast::IntType::U32,
        IntType::U64 => ast::IntType::U64,
    }
}

fn float_type(ty: &FloatType) -> ast::FloatType {
    match ty {
        FloatType::F32 => ast::FloatType::F32,
        FloatType::F64 => ast::FloatType::F64,
    }
}

fn compound(op: CompoundAssignOp) -> ast::CompoundAssignOp {
    match op {
        CompoundAssignOp::Add => ast::CompoundAssignOp::Add,
        CompoundAssignOp::Sub => ast::CompoundAssignOp::Sub,
        CompoundAssignOp::Mul => ast::CompoundAssignOp::Mul,
        CompoundAssignOp::Div => ast::CompoundAssignOp::Div,
        CompoundAssignOp::Mod => ast::CompoundAssignOp::Mod,
    }
}

fn binary(op: BinOp) -> ast::BinOp {
    match op {
        BinOp::And => ast::BinOp::And,
        BinOp::Or => ast::BinOp::Or,
        BinOp::Eq => ast::BinOp::Eq,
        BinOp::Ne => ast::BinOp::Ne,
        BinOp::Lt => ast::BinOp::Lt,
        BinOp::Le => ast::BinOp::Le,
        BinOp::Gt => ast::BinOp::Gt,
        BinOp::Ge => ast::BinOp::Ge,
        BinOp::Add => ast::BinOp::Add,
        BinOp::Sub => ast::BinOp::Sub,
        BinOp::Mul => ast::BinOp::Mul,
        BinOp::Div => ast::BinOp::Div,
        BinOp::Mod => ast::BinOp::Mod,
        BinOp::Exp => ast::BinOp::Exp,
    }
}
