//! Newlines of ranges, and the jump to the gap that made a blank line.

mod support;

use rrufthim::{File, InParts, Place, ast::*, calls::newlines, encode};
use support::path;

/// Between the imports are a blank line, `é` in a comment, U+0085 and U+2028.
const SOURCE: &str =
    "import a;\n\n// é\u{85}\u{2028}\r\nimport b;\n\n\nimport c;\n";

fn found(start: usize, end: usize) -> (usize, usize) {
    of(SOURCE.as_bytes(), start..end)
}

/// How many newlines, and where the last is.
fn of(source: &[u8], range: Span) -> (usize, usize) {
    let found = newlines(source, range);
    (found.count, found.place)
}

/// By `str::get` and `rfind`.
fn due(start: usize, end: usize) -> (usize, usize) {
    let part = SOURCE.get(start..end).unwrap_or("");
    let last = part.rfind('\n').map_or(end, |offset| start + offset);
    (part.matches('\n').count(), last)
}

#[test]
fn every_range() {
    for start in 0..=SOURCE.len() + 2 {
        for end in 0..=SOURCE.len() + 2 {
            assert_eq!(found(start, end), due(start, end), "{start}..{end}");
        }
    }
    for far in [1 << 31, 1 << 32, usize::MAX] {
        assert_eq!(found(0, far), (0, far));
        assert_eq!(found(far, 3), (0, 3));
    }
}

/// The imports of [`SOURCE`], and its comment, newline included.
fn imports() -> (SyntaxTree, Extras) {
    let import = |(at, word): (usize, &str)| {
        let span = at + word.len()..at + word.len() + 1;
        let path = Some(path(SOURCE, &span));
        let import = ImportPath { path, group: None };
        Declaration::Import(Meta::new(import, span))
    };
    let declarations = SOURCE.match_indices("import ").map(import).collect();
    let start = SOURCE.find("//").expect("there");
    let end = SOURCE.find("import b").expect("there");
    let tree = SyntaxTree {
        shebang: None,
        declarations,
    };
    (
        tree,
        Extras {
            comments: vec![start..end],
        },
    )
}

/// Of each declaration the gaps, as the text in them, and where to jump to
/// from the blank lines that they make.
#[test]
fn jump_to_the_gap() {
    let (tree, extras) = imports();
    let image = encode(&tree, &extras.comments).expect("an image");
    let mut parts =
        InParts::new(File::new(SOURCE, &image)).expect("accepted");
    let mut found = Vec::new();
    for stop in 1..=parts.declarations() {
        let gaps = parts.gaps();
        let blank = gaps.iter().filter_map(|gap| {
            let (count, place) = of(SOURCE.as_bytes(), gap.clone());
            let place = Place::new(SOURCE.as_bytes(), place..place);
            (count >= 2).then_some((place.line, place.column))
        });
        let blank: Vec<_> = blank.collect();
        let texts = gaps.into_iter().map(|gap| &SOURCE[gap]);
        found.push((texts.collect::<Vec<_>>(), blank));
        parts.lay_out(stop).expect("in order");
    }
    let due = [
        (vec![], vec![]),
        (vec!["a;\n\n", "\nimport "], vec![(2, 1)]),
        (vec!["b;\n\n\nimport "], vec![(6, 1)]),
    ];
    assert_eq!(found, due);
    assert!(parts.gaps().is_empty());
    let text = parts.render().expect("a text");
    let due = "import a;\n\n// é\nimport b;\n\nimport c;\n";
    assert_eq!(text, due);
}

/// Bytes that are no text have newlines too, in ranges without an end at a
/// byte that goes on with a character.
#[test]
fn not_utf8() {
    let source = b"\xFF\n\x80\n";
    assert_eq!(of(source, 0..2), (0, 2));
    assert_eq!(of(source, 0..3), (1, 1));
    assert_eq!(of(source, 2..4), (0, 4));
    assert_eq!(of(b"", 0..0), (0, 0));
}
