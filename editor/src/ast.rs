//! The shapes of Roto's src/ast.rs, with spans in place of ids.
//!
//! Names and fields are the original's. What the formatter doesn't read is
//! left out: the ids of `CompoundAssign`, and `Signature`, which is no part
//! of a tree. The original's `Spans` are looked up by id; here each [`Meta`]
//! holds its own span.

use std::{
    net::IpAddr,
    ops::{Deref, DerefMut, Range},
};

/// Bytes of the source, from the start up to the end.
pub type Span = Range<usize>;

/// A node and where it stands in the source.
#[derive(Clone, Debug, PartialEq, Eq)]
pub struct Meta<T> {
    /// What stands there.
    pub node: T,
    /// Its bytes.
    pub span: Span,
}

impl<T> Meta<T> {
    /// A node at this span.
    pub fn new(node: T, span: Span) -> Self {
        Meta { node, span }
    }
}

impl<T> Deref for Meta<T> {
    type Target = T;

    fn deref(&self) -> &T {
        &self.node
    }
}

impl<T> DerefMut for Meta<T> {
    fn deref_mut(&mut self) -> &mut T {
        &mut self.node
    }
}

/// What the parser finds beside the tree.
#[derive(Clone, Debug, Default, PartialEq, Eq)]
pub struct Extras {
    /// The comments in the order of the source.
    pub comments: Vec<Span>,
}

/// A file.
#[derive(Clone, Debug, Default, PartialEq)]
pub struct SyntaxTree {
    /// The first line, if it starts with `#!`, as the lexer gives it.
    pub shebang: Option<String>,
    /// What the file declares, in its order.
    pub declarations: Vec<Declaration>,
}

/// A declaration at the top of a file.
#[derive(Clone, Debug, PartialEq)]
pub enum Declaration {
    /// `filtermap name(params) { … }`, or `filter`.
    FilterMap(Box<FilterMap>),
    /// `const NAME: Type = value;`
    Const(ConstantDeclaration),
    /// `record Name { field: Type }`
    Record(RecordTypeDeclaration),
    /// `enum Name { Variant(Type) }`
    Enum(EnumTypeDeclaration),
    /// `fn name(params) -> Type { … }`
    Function(FunctionDeclaration),
    /// `test name { … }`
    Test(Test),
    /// `import path.{ … };`
    Import(Meta<ImportPath>),
}

/// What an import names: a path, a group, or a path and the group below it.
#[derive(Clone, Debug, PartialEq)]
pub struct ImportPath {
    /// The names with dots between.
    pub path: Option<Meta<Path>>,
    /// What stands in braces.
    pub group: Option<Meta<Vec<Meta<ImportPath>>>>,
}

/// A parameter: `name: Type`.
#[derive(Clone, Debug, PartialEq)]
pub struct Param {
    /// Its name.
    pub name: Meta<Identifier>,
    /// Its type.
    pub ty: Meta<TypeExpr>,
}

/// The parameters of a function or a filtermap.
#[derive(Clone, Debug, PartialEq)]
pub struct Params(
    /// In their order.
    pub Vec<Meta<Param>>,
);

/// The declaration of a record type.
#[derive(Clone, Debug, PartialEq)]
pub struct RecordTypeDeclaration {
    /// Its name.
    pub ident: Meta<Identifier>,
    /// The names in brackets behind it.
    pub type_params: Option<Meta<Vec<Meta<Identifier>>>>,
    /// Its fields.
    pub record_type: RecordType,
}

/// The declaration of an enum.
#[derive(Clone, Debug, PartialEq)]
pub struct EnumTypeDeclaration {
    /// Its name.
    pub ident: Meta<Identifier>,
    /// The names in brackets behind it.
    pub type_params: Option<Meta<Vec<Meta<Identifier>>>>,
    /// Its variants.
    pub variants: Meta<Vec<Meta<Variant>>>,
}

/// A variant of an enum: `Name` or `Name(Type, Type)`.
#[derive(Clone, Debug, PartialEq)]
pub struct Variant {
    /// Its name.
    pub ident: Meta<Identifier>,
    /// The types of its fields.
    pub fields: Vec<Meta<TypeExpr>>,
}

/// The declaration of a constant.
#[derive(Clone, Debug, PartialEq)]
pub struct ConstantDeclaration {
    /// Its name.
    pub ident: Meta<Identifier>,
    /// Its type.
    pub ty: Meta<TypeExpr>,
    /// Its value.
    pub expr: Meta<Expr>,
}

/// The word that a filtermap starts with.
#[derive(Clone, Copy, Debug, PartialEq, Eq)]
pub enum FilterType {
    /// `filtermap`
    FilterMap,
    /// `filter`
    Filter,
}

/// The declaration of a filtermap.
#[derive(Clone, Debug, PartialEq)]
pub struct FilterMap {
    /// Not read: the original writes `filtermap` for both.
    pub _filter_type: FilterType,
    /// Its name.
    pub ident: Meta<Identifier>,
    /// Its parameters.
    pub params: Meta<Params>,
    /// What it does.
    pub body: Meta<Block>,
}

/// The declaration of a function.
#[derive(Clone, Debug, PartialEq)]
pub struct FunctionDeclaration {
    /// Its name.
    pub ident: Meta<Identifier>,
    /// Its parameters.
    pub params: Meta<Params>,
    /// The type of its result, if it is written.
    pub ret: Option<Meta<TypeExpr>>,
    /// What it does.
    pub body: Meta<Block>,
}

/// The declaration of a test.
#[derive(Clone, Debug, PartialEq)]
pub struct Test {
    /// Its name.
    pub ident: Meta<Identifier>,
    /// What it does.
    pub body: Meta<Block>,
}

/// Statements in braces.
#[derive(Clone, Debug, PartialEq)]
pub struct Block {
    /// The statements, each with its semicolon or block.
    pub stmts: Vec<Meta<Stmt>>,
    /// The expression at the end that gives the block's value.
    pub last: Option<Box<Meta<Expr>>>,
}

/// A statement.
#[derive(Clone, Debug, PartialEq)]
pub enum Stmt {
    /// `let name: Type = value;`
    Let(Meta<Identifier>, Option<Meta<TypeExpr>>, Meta<Expr>),
    /// An import within a block.
    Import(Meta<ImportPath>),
    /// An expression.
    Expr(Meta<Expr>),
}

/// Names with dots between; at least one.
#[derive(Clone, Debug, PartialEq)]
pub struct Path {
    /// The names.
    pub idents: Vec<Meta<Identifier>>,
}

/// A type.
#[derive(Clone, Debug, PartialEq)]
pub enum TypeExpr {
    /// `Type?`
    Option(Box<Meta<TypeExpr>>),
    /// `path` or `path[Type, Type]`
    Path(Meta<Path>, Option<Meta<Vec<Meta<TypeExpr>>>>),
    /// `!`
    Never,
    /// `()`
    Unit,
    /// `{ field: Type }`
    Record(RecordType),
}

/// An expression.
#[derive(Clone, Debug, PartialEq)]
pub enum Expr {
    /// `return`, `accept` or `reject`, with or without a value.
    Return(ReturnKind, Option<Box<Meta<Expr>>>),
    /// A literal.
    Literal(Meta<Literal>),
    /// A block.
    Block(Meta<Block>),
    /// A match. The span of the `Meta<Match>` is not read.
    Match(Box<Meta<Match>>),
    /// `callee(argument, argument)`
    FunctionCall(Box<Meta<Expr>>, Meta<Vec<Meta<Expr>>>),
    /// `value.field`
    Access(Box<Meta<Expr>>, Meta<Identifier>),
    /// A name, or names with dots between.
    Path(Meta<Path>),
    /// `{ field: value }`
    Record(Meta<Record>),
    /// `path { field: value }`
    TypedRecord(Meta<Path>, Meta<Record>),
    /// `[value, value]`
    List(Vec<Meta<Expr>>),
    /// `!value`
    Not(Box<Meta<Expr>>),
    /// `path = value`
    Assign(Meta<Path>, Box<Meta<Expr>>),
    /// `path += value`, and the like.
    CompoundAssign(CompoundAssign),
    /// `left + right`, and the like.
    BinOp(Box<Meta<Expr>>, Meta<BinOp>, Box<Meta<Expr>>),
    /// `-value`
    Negate(Box<Meta<Expr>>),
    /// `if condition { … } else { … }`
    IfElse(Box<Meta<Expr>>, Meta<Block>, Option<Meta<Block>>),
    /// `while condition { … }`
    While(Box<Meta<Expr>>, Meta<Block>),
    /// `for name in list { … }`
    For(Meta<Identifier>, Box<Meta<Expr>>, Meta<Block>),
    /// `value?`
    QuestionMark(Box<Meta<Expr>>),
    /// `f"text {value}"`
    FString(Vec<Meta<FStringPart>>),
    /// `(value)`
    Parentheses(Box<Meta<Expr>>),
}

/// An assignment with an operator.
#[derive(Clone, Debug, PartialEq)]
pub struct CompoundAssign {
    /// What is changed.
    pub path: Meta<Path>,
    /// The operator.
    pub op: Meta<CompoundAssignOp>,
    /// The value on the right.
    pub expr: Box<Meta<Expr>>,
}

/// A part of an f-string.
#[derive(Clone, Debug, PartialEq)]
pub enum FStringPart {
    /// Text. It is taken from the source by the part's span.
    String(String),
    /// An expression in braces.
    Expr(Meta<Expr>),
}

/// How a function is left.
#[derive(Clone, Copy, Debug, PartialEq, Eq)]
pub enum ReturnKind {
    /// `return`
    Return,
    /// `accept`
    Accept,
    /// `reject`
    Reject,
}

/// A field of a record: `name: value`.
#[derive(Clone, Debug, PartialEq)]
pub struct RecordField {
    /// Its name.
    pub name: Meta<Identifier>,
    /// Its value.
    pub expr: Meta<Expr>,
}

/// A record.
#[derive(Clone, Debug, PartialEq)]
pub struct Record {
    /// Its fields.
    pub fields: Vec<Meta<RecordField>>,
}

/// A match.
#[derive(Clone, Debug, PartialEq)]
pub struct Match {
    /// What is looked at.
    pub expr: Meta<Expr>,
    /// The arms in braces.
    pub arms: Meta<Vec<Meta<MatchArm>>>,
}

/// An arm of a match: `pattern if guard => body`.
#[derive(Clone, Debug, PartialEq)]
pub struct MatchArm {
    /// What it is for.
    pub pattern: Meta<Pattern>,
    /// The condition behind `if`.
    pub guard: Option<Meta<Expr>>,
    /// What it gives.
    pub body: Meta<Expr>,
}

/// A pattern of a match arm.
#[derive(Clone, Debug, PartialEq)]
pub enum Pattern {
    /// `_`
    Underscore,
    /// `Variant` or `Variant(name, name)`
    EnumVariant {
        /// The variant's name.
        variant: Meta<Identifier>,
        /// Names for its fields.
        fields: Option<Meta<Vec<Meta<Identifier>>>>,
    },
}

/// A name. The formatter writes it as it is here, not as in the source.
#[derive(Clone, Debug, PartialEq, Eq, PartialOrd, Ord, Hash)]
pub struct Identifier(String);

impl Identifier {
    /// The name.
    pub fn as_str(&self) -> &str {
        &self.0
    }
}

impl<T: Into<String>> From<T> for Identifier {
    fn from(value: T) -> Self {
        Identifier(value.into())
    }
}

/// A field of a record type: `name: Type`.
#[derive(Clone, Debug, PartialEq)]
pub struct RecordFieldType {
    /// Its name.
    pub name: Meta<Identifier>,
    /// Its type.
    pub ty: Meta<TypeExpr>,
}

/// A record type.
#[derive(Clone, Debug, PartialEq)]
pub struct RecordType {
    /// Its fields.
    pub fields: Meta<Vec<Meta<RecordFieldType>>>,
}

/// A literal. All but `Bool` and `Unit` are taken from the source by their
/// spans.
#[derive(Clone, Debug, PartialEq)]
pub enum Literal {
    /// A text in quotes.
    String(String),
    /// A character in quotes.
    Char(char),
    /// The number of an autonomous system.
    Asn(u32),
    /// The address of a machine.
    IpAddress(IpAddr),
    /// A whole number, with its type if it is written.
    Integer(i64, Option<IntType>),
    /// A number with a fraction, with its type if it is written.
    Float(f64, Option<FloatType>),
    /// `true` or `false`
    Bool(bool),
    /// `()`
    Unit,
}

/// A type written behind a whole number.
#[derive(Clone, Copy, Debug, PartialEq, Eq)]
pub enum IntType {
    /// `i8`
    I8,
    /// `i16`
    I16,
    /// `i32`
    I32,
    /// `i64`
    I64,
    /// `u8`
    U8,
    /// `u16`
    U16,
    /// `u32`
    U32,
    /// `u64`
    U64,
}

/// A type written behind a number with a fraction.
#[derive(Clone, Copy, Debug, PartialEq, Eq)]
pub enum FloatType {
    /// `f32`
    F32,
    /// `f64`
    F64,
}

/// The operator of a [`CompoundAssign`], in the order by which the image
/// counts them.
#[derive(Clone, Copy, Debug, PartialEq, Eq)]
pub enum CompoundAssignOp {
    /// `+=`
    Add,
    /// `-=`
    Sub,
    /// `*=`
    Mul,
    /// `/=`
    Div,
    /// `%=`
    Mod,
}

/// An operator between two values, in the order by which the image counts
/// them.
#[derive(Clone, Copy, Debug, PartialEq, Eq)]
pub enum BinOp {
    /// `&&`
    And,
    /// `||`
    Or,
    /// `==`
    Eq,
    /// `!=`
    Ne,
    /// `<`
    Lt,
    /// `<=`
    Le,
    /// `>`
    Gt,
    /// `>=`
    Ge,
    /// `+`
    Add,
    /// `-`
    Sub,
    /// `*`
    Mul,
    /// `/`
    Div,
    /// `%`
    Mod,
    /// `**`
    Exp,
}
