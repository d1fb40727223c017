//! The small parser's tokens, as lexer.rs has them.

use judge::{
    image::Tree,
    program::{self, Widths},
    script,
};

/// One literal each, whose text isn't taken apart.
#[test]
fn literals() {
    let literals = [
        "10",
        "1_000u32",
        "0x1F",
        "1.5",
        "10.",
        "1e5",
        "1e-5",
        "1.5E+3f32",
        "10.0.0.0",
        "2001:db8::1",
        "::1",
        "AS65000",
        "\"a // b\"",
        "'\\''",
        "true",
    ];
    for literal in literals {
        let source = format!("const A: T = {literal};\n");
        let (comments, tree) = script::read(&source).expect(literal);
        assert_eq!(comments, []);
        assert_eq!(value(&tree).kind, 51, "{literal}");
        let frame = script::frame(&source).expect(literal);
        assert_eq!(program::output(&frame, Widths::Supplied), source);
    }
}

/// The value of a file's only constant.
fn value(tree: &Tree) -> &Tree {
    let constant = tree.children[1].as_ref().expect("a constant");
    constant.children[2].as_ref().expect("its value")
}

/// A number ends before a dot and a name; an escape has its own braces.
#[test]
fn other_tokens() {
    for (source, kind) in [("1.max(2)", 54), ("10/8", 63), ("AS", 56)] {
        let source = format!("const A: T = {source};");
        let (_, tree) = script::read(&source).expect("a script");
        assert_eq!(value(&tree).kind, kind, "{source}");
    }
    let (_, tree) = script::read("const A: T = f\"\\u{41}{a}\";").unwrap();
    let parts = value(&tree).children[0].as_ref().expect("parts");
    let kinds: Vec<u8> = parts
        .children
        .iter()
        .flatten()
        .map(|part| part.kind)
        .collect();
    assert_eq!(kinds, [84, 85]);
    assert_eq!(script::read("#! x"), Err(0));
}
