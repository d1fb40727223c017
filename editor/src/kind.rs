//! The kinds of records, by the names that crates/image has for them:
//! docs/01-scope.md, "Kinds and children", says what each holds.

macro_rules! kinds {
    ($($(#[$about:meta])* $name:ident = $number:literal;)*) => {
        $($(#[$about])* pub const $name: u8 = $number;)*

        /// All of them, with their names.
        const ALL: &[(u8, &str)] = &[$(($number, stringify!($name)),)*];
    };
}

kinds! {
    /// The tree.
    TREE = 1;
    /// A text, a name or the shebang: its width in columns, then its bytes.
    TEXT = 2;
    /// A list. Its place says of what.
    LIST = 3;
    /// Names with dots between.
    PATH = 4;

    /// `filtermap name(params) { … }`, or `filter`.
    FILTER_MAP = 10;
    /// `const NAME: Type = value;`
    CONST = 11;
    /// `record Name { field: Type }`
    RECORD = 12;
    /// `enum Name { Variant(Type) }`
    ENUM = 13;
    /// `fn name(params) -> Type { … }`
    FUNCTION = 14;
    /// `test name { … }`
    TEST = 15;
    /// `import path.{ … };`, and what an import names within another.
    IMPORT = 16;

    /// A parameter, or a field of a record type: `name: Type`.
    NAME_AND_TYPE = 20;
    /// A variant of an enum.
    VARIANT = 21;
    /// A field of a record: `name: value`.
    FIELD = 22;
    /// Statements in braces.
    BLOCK = 23;

    /// `let name: Type = value;`
    LET = 30;
    /// An import within a block.
    IMPORT_STMT = 31;
    /// An expression as a statement.
    EXPR_STMT = 32;

    /// `Type?`
    OPTION = 40;
    /// `path` or `path[Type, Type]`
    TYPE_PATH = 41;
    /// `!`
    NEVER = 42;
    /// `()`
    UNIT = 43;
    /// `{ field: Type }`
    RECORD_TYPE = 44;

    /// `return`, `accept` or `reject`: a payload byte, 0, 1 or 2.
    RETURN = 50;
    /// A literal.
    LITERAL_EXPR = 51;
    /// A block as an expression.
    BLOCK_EXPR = 52;
    /// `match value { … }`
    MATCH = 53;
    /// `callee(argument, argument)`
    FUNCTION_CALL = 54;
    /// `value.field`
    ACCESS = 55;
    /// A name, or names with dots between.
    PATH_EXPR = 56;
    /// `{ field: value }`
    RECORD_EXPR = 57;
    /// `path { field: value }`
    TYPED_RECORD = 58;
    /// `[value, value]`
    LIST_EXPR = 59;
    /// `!value`
    NOT = 60;
    /// `path = value`
    ASSIGN = 61;
    /// `path += value`, and the like.
    COMPOUND_ASSIGN = 62;
    /// `left + right`, and the like.
    BIN_OP = 63;
    /// `-value`
    NEGATE = 64;
    /// `if condition { … } else { … }`
    IF_ELSE = 65;
    /// `while condition { … }`
    WHILE = 66;
    /// `for name in list { … }`
    FOR = 67;
    /// `value?`
    QUESTION_MARK = 68;
    /// `f"text {value}"`
    F_STRING = 69;
    /// `(value)`
    PARENTHESES = 70;

    /// The fields of a record.
    RECORD_FIELDS = 80;
    /// An arm of a match.
    ARM = 81;
    /// The pattern `_`.
    UNDERSCORE = 82;
    /// The pattern `Variant` or `Variant(name, name)`.
    ENUM_VARIANT = 83;
    /// A text of an f-string.
    TEXT_PART = 84;
    /// An expression of an f-string.
    EXPR_PART = 85;
    /// An operator: a payload byte, its place in
    /// [`BinOp`](crate::ast::BinOp), or under [`COMPOUND_ASSIGN`] in
    /// [`CompoundAssignOp`](crate::ast::CompoundAssignOp).
    OPERATOR = 86;
    /// A literal's value: a payload byte, 0 if it is taken from the source, 1
    /// for `true`, 2 for `false`, 3 for `()`.
    LITERAL = 87;
}

/// The name of a kind, if there is such a kind: that of its constant.
///
/// ```
/// use rrufthim::kind;
///
/// assert_eq!(kind::name(kind::CONST), Some("CONST"));
/// assert_eq!(kind::name(99), None);
/// ```
pub fn name(kind: u8) -> Option<&'static str> {
    let known = ALL.iter().find(|(number, _)| *number == kind);
    known.map(|(_, name)| *name)
}
