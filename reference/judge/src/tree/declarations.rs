//! Declarations, imports, types and what they are made of.

use super::{Builder, child, maybe};
use crate::{
    ast::{self, Declaration, Identifier, TypeExpr},
    parser::meta::Meta,
    reader::Record,
};

impl Builder {
    pub(super) fn declaration(&mut self, r: &Record) -> Declaration {
        match r.kind {
            10 => Declaration::FilterMap(Box::new(ast::FilterMap {
                _filter_type: ast::FilterType::FilterMap,
                ident: self.ident(child(r, 0)),
                params: self.params(child(r, 1)),
                body: self.block(child(r, 2)),
            })),
            11 => Declaration::Const(ast::ConstantDeclaration {
                ident: self.ident(child(r, 0)),
                ty: self.type_expr(child(r, 1)),
                expr: self.expr(child(r, 2)),
            }),
            12 => Declaration::Record(ast::RecordTypeDeclaration {
                ident: self.ident(child(r, 0)),
                type_params: maybe(r, 1).map(|list| self.names(list)),
                record_type: self.record_type(child(r, 2)),
            }),
            13 => Declaration::Enum(ast::EnumTypeDeclaration {
                ident: self.ident(child(r, 0)),
                type_params: maybe(r, 1).map(|list| self.names(list)),
                variants: self.meta_list(child(r, 2), Self::variant),
            }),
            14 => Declaration::Function(ast::FunctionDeclaration {
                ident: self.ident(child(r, 0)),
                params: self.params(child(r, 1)),
                ret: maybe(r, 2).map(|ty| self.type_expr(ty)),
                body: self.block(child(r, 3)),
            }),
            15 => Declaration::Test(ast::Test {
                ident: self.ident(child(r, 0)),
                body: self.block(child(r, 1)),
            }),
            _ => Declaration::Import(self.import(r)),
        }
    }

    pub(super) fn import(&mut self, r: &Record) -> Meta<ast::ImportPath> {
        let path = maybe(r, 0).map(|path| self.path(path));
        let group =
            maybe(r, 1).map(|list| self.meta_list(list, Self::import));
        self.meta(r, ast::ImportPath { path, group })
    }

    pub(super) fn names(
        &mut self,
        list: &Record,
    ) -> Meta<Vec<Meta<Identifier>>> {
        self.meta_list(list, Self::ident)
    }

    fn params(&mut self, list: &Record) -> Meta<ast::Params> {
        let params = self.list(list, |this, r| {
            let name = this.ident(child(r, 0));
            let ty = this.type_expr(child(r, 1));
            this.meta(r, ast::Param { name, ty })
        });
        self.meta(list, ast::Params(params))
    }

    fn record_type(&mut self, list: &Record) -> ast::RecordType {
        let fields = self.meta_list(list, |this, r| {
            let name = this.ident(child(r, 0));
            let ty = this.type_expr(child(r, 1));
            this.meta(r, ast::RecordFieldType { name, ty })
        });
        ast::RecordType { fields }
    }

    fn variant(&mut self, r: &Record) -> Meta<ast::Variant> {
        let ident = self.ident(child(r, 0));
        let fields = self.list(child(r, 1), Self::type_expr);
        self.meta(r, ast::Variant { ident, fields })
    }

    pub(super) fn type_expr(&mut self, r: &Record) -> Meta<TypeExpr> {
        let node = match r.kind {
            40 => TypeExpr::Option(Box::new(self.type_expr(child(r, 0)))),
            41 => TypeExpr::Path(
                self.path(child(r, 0)),
                maybe(r, 1).map(|list| self.meta_list(list, Self::type_expr)),
            ),
            42 => TypeExpr::Never,
            43 => TypeExpr::Unit,
            _ => TypeExpr::Record(self.record_type(child(r, 0))),
        };
        self.meta(r, node)
    }
}
