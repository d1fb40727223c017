//! Records of which trees of operators are made, every span 0, 0.

use crate::image::{Tree, chosen, node, text};

/// A text record of ASCII.
pub fn name(content: &str) -> Tree {
    text(0..0, content.len(), content)
}

/// A path of one name as an expression: 56.
pub fn value(content: &str) -> Tree {
    node(56, 0..0, [Some(node(4, 0..0, [Some(name(content))]))])
}

/// `true`, the shortest expression that isn't of the original's own making.
pub fn truth() -> Tree {
    node(51, 0..0, [Some(chosen(87, 0..0, 1, []))])
}

/// A 63 with the operator of a place in `BinOp`.
pub fn operation(left: Tree, operator: u8, right: Tree) -> Tree {
    let operator = chosen(86, 0..0, operator, []);
    node(63, 0..0, [left, operator, right].map(Some))
}

/// A record of a kind over one expression.
pub fn over(kind: u8, inner: Tree) -> Tree {
    node(kind, 0..0, [Some(inner)])
}

/// A constant of the unit type.
pub fn constant(called: &str, value: Tree) -> Tree {
    let ty = node(43, 0..0, []);
    node(11, 0..0, [name(called), ty, value].map(Some))
}

/// A tree without a shebang.
pub fn file(declarations: impl IntoIterator<Item = Tree>) -> Tree {
    let shebang = std::iter::once(None);
    node(1, 0..0, shebang.chain(declarations.into_iter().map(Some)))
}
