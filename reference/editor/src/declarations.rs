//! Declarations, imports and types.

use judge::reader::Record;
use rrufthim::ast::{
    ConstantDeclaration, Declaration, EnumTypeDeclaration, FilterMap,
    FilterType, FunctionDeclaration, ImportPath, Meta, Param, Params,
    RecordFieldType, RecordType, RecordTypeDeclaration, Test, TypeExpr,
    Variant,
};

use crate::{
    child,
    expressions::{block, expr},
    ident, list, maybe, meta, meta_list, names, path,
};

pub fn declaration(r: &Record) -> Declaration {
    match r.kind {
        10 => Declaration::FilterMap(Box::new(FilterMap {
            _filter_type: FilterType::FilterMap,
            ident: ident(child(r, 0)),
            params: params(child(r, 1)),
            body: block(child(r, 2)),
        })),
        11 => Declaration::Const(ConstantDeclaration {
            ident: ident(child(r, 0)),
            ty: type_expr(child(r, 1)),
            expr: expr(child(r, 2)),
        }),
        12 => Declaration::Record(RecordTypeDeclaration {
            ident: ident(child(r, 0)),
            type_params: maybe(r, 1).map(names),
            record_type: record_type(child(r, 2)),
        }),
        13 => Declaration::Enum(EnumTypeDeclaration {
            ident: ident(child(r, 0)),
            type_params: maybe(r, 1).map(names),
            variants: meta_list(child(r, 2), variant),
        }),
        14 => Declaration::Function(FunctionDeclaration {
            ident: ident(child(r, 0)),
            params: params(child(r, 1)),
            ret: maybe(r, 2).map(type_expr),
            body: block(child(r, 3)),
        }),
        15 => Declaration::Test(Test {
            ident: ident(child(r, 0)),
            body: block(child(r, 1)),
        }),
        _ => Declaration::Import(import(r)),
    }
}

pub fn import(r: &Record) -> Meta<ImportPath> {
    let path = maybe(r, 0).map(path);
    let group = maybe(r, 1).map(|list| meta_list(list, import));
    meta(r, ImportPath { path, group })
}

fn params(r: &Record) -> Meta<Params> {
    let params = list(r, |r| {
        let (name, ty) = (ident(child(r, 0)), type_expr(child(r, 1)));
        meta(r, Param { name, ty })
    });
    meta(r, Params(params))
}

fn record_type(r: &Record) -> RecordType {
    let fields = meta_list(r, |r| {
        let (name, ty) = (ident(child(r, 0)), type_expr(child(r, 1)));
        meta(r, RecordFieldType { name, ty })
    });
    RecordType { fields }
}

fn variant(r: &Record) -> Meta<Variant> {
    let ident = ident(child(r, 0));
    let fields = list(child(r, 1), type_expr);
    meta(r, Variant { ident, fields })
}

pub fn type_expr(r: &Record) -> Meta<TypeExpr> {
    let node = match r.kind {
        40 => TypeExpr::Option(Box::new(type_expr(child(r, 0)))),
        41 => TypeExpr::Path(
            path(child(r, 0)),
            maybe(r, 1).map(|list| meta_list(list, type_expr)),
        ),
        42 => TypeExpr::Never,
        43 => TypeExpr::Unit,
        _ => TypeExpr::Record(record_type(child(r, 0))),
    };
    meta(r, node)
}
