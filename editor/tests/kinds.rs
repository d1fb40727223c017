//! The names of kinds are those of crates/image, which docs/01-scope.md has.

use std::{fs, path::Path};

use rrufthim::kind;

/// A variant's name as a constant's: `NameAndType` as `NAME_AND_TYPE`.
fn constant(variant: &str) -> String {
    let mut name = String::new();
    for letter in variant.chars() {
        if letter.is_uppercase() && !name.is_empty() {
            name.push('_');
        }
        name.push(letter.to_ascii_uppercase());
    }
    name
}

/// Names and numbers of the variants of `Kind` in crates/image/src/kinds.rt.
fn proved() -> Vec<(String, u8)> {
    let here = Path::new(env!("CARGO_MANIFEST_DIR"));
    let file = here.join("../crates/image/src/kinds.rt");
    let text = fs::read_to_string(file).expect("a file");
    let (_, from) = text.split_once("pub enum Kind {").expect("the kinds");
    let (kinds, _) = from.split_once("\n}").expect("their end");
    let lines = kinds.lines().filter_map(|line| {
        let (variant, number) =
            line.trim().strip_suffix(',')?.split_once(" = ")?;
        Some((constant(variant), number.parse().expect("a kind")))
    });
    lines.collect()
}

#[test]
fn names_are_those_of_the_proved_reader() {
    let named = (0..=255).filter_map(|number| {
        let name = kind::name(number)?;
        Some((name.to_owned(), number))
    });
    let named: Vec<_> = named.collect();
    assert_eq!(named, proved());
    assert_eq!(named.len(), 52);
}

#[test]
fn constants_have_their_numbers() {
    let ends = [kind::TREE, kind::CONST, kind::PARENTHESES, kind::LITERAL];
    assert_eq!(ends, [1, 11, 70, 87]);
}
