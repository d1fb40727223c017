//! The reader's tests and their places.

use judge::{
    image::{self, Tree, chosen, node, text},
    reader,
};

/// Number and place of the refusal, or `None`.
fn refused(source: &[u8], image: &[u8]) -> Option<(u8, u64)> {
    let refusal = reader::read(source, image).err()?;
    Some((refusal.number, refusal.place))
}

/// The tree starts here when there are no comments.
const TREE_AT: u64 = 7;
/// Length, kind and span.
const HEAD: u64 = 13;

fn tree(declarations: Vec<Tree>) -> Tree {
    let children = std::iter::once(None);
    node(1, 0..0, children.chain(declarations.into_iter().map(Some)))
}

fn of(declaration: Tree) -> Option<(u8, u64)> {
    refused(b"", &image::write(&[], &tree(vec![declaration])))
}

/// The first declaration starts after the absent shebang.
const FIRST: u64 = TREE_AT + HEAD + 4;

fn name() -> Option<Tree> {
    Some(text(0..0, 1, "a"))
}

fn unit() -> Option<Tree> {
    Some(node(51, 0..0, [Some(chosen(87, 0..0, 3, []))]))
}

fn constant(value: Option<Tree>) -> Tree {
    node(11, 0..0, [name(), Some(node(43, 0..0, [])), value])
}

/// Where the value of [`constant`] starts.
const VALUE: u64 = FIRST + HEAD + (HEAD + 3) + HEAD;

#[test]
fn source_and_header() {
    let good = image::write(&[], &tree(vec![]));
    assert_eq!(refused(b"", &good), None);
    assert_eq!(refused(&[b' '; 65_536], &good), None);
    assert_eq!(refused(&[0xFF; 65_537], b""), Some((1, 0)));
    assert_eq!(refused(b"ab\xC3\x28", b""), Some((2, 2)));
    assert_eq!(refused(b"\xE2\x82", b""), Some((2, 0)));
    assert_eq!(refused(b"", b"\x01\0\0\0"), Some((3, 0)));
    assert_eq!(refused(b"", &good[..good.len() - 1]), Some((3, 0)));
    assert_eq!(refused(b"", &[&good[..], b"x"].concat()), Some((3, 0)));
    for first in [0, 3, 255] {
        let other = [&[first], &good[1..]].concat();
        assert_eq!(refused(b"", &other), Some((3, 0)));
    }
    assert_eq!(refused(b"", b"\x02\0\0\0"), Some((3, 0)));
    // It has no text, so it is the same in version 2.
    assert_eq!(refused(b"", &[b"\x02", &good[1..]].concat()), None);
}

#[test]
fn comment_lists() {
    let empty = image::with_header;
    assert_eq!(refused(b"", &empty(b"")), Some((7, 5)));
    assert_eq!(refused(b"", &empty(b"\0")), Some((7, 5)));
    assert_eq!(refused(b"", &empty(b"\0\x01\0\0\0\0\0\0\0")), Some((7, 5)));
    // Cut off is tested before any pair is looked at.
    assert_eq!(
        refused(b"", &empty(b"\0\x02\0\0\0\0\0\0\0\0")),
        Some((7, 5))
    );
    let with = |source: &str, comments: &[std::ops::Range<usize>]| {
        let image = image::write(comments, &tree(vec![]));
        refused(source.as_bytes(), &image)
    };
    assert_eq!(with("abé", &[0..1, 1..4]), None);
    assert_eq!(with("abé", &[0..1, 1..1]), Some((7, 15)));
    #[allow(clippy::reversed_empty_ranges)]
    let reversed = 2..1;
    assert_eq!(with("abé", &[reversed]), Some((7, 7)));
    assert_eq!(with("abé", &[0..1, 1..2, 2..5]), Some((7, 23)));
    assert_eq!(with("abé", &[0..3]), Some((7, 7)));
    assert_eq!(with("abé", &[3..4]), Some((7, 7)));
}

#[test]
fn the_number_of_comments() {
    let source = [b' '; 8_193];
    let with = |count| {
        let comments: Vec<_> = (0..count).map(|at| at..at + 1).collect();
        image::write(&comments, &tree(vec![]))
    };
    assert_eq!(refused(&source, &with(8_192)), None);
    assert_eq!(refused(&source, &with(8_193)), Some((7, 5)));
}

#[test]
fn trees_missing_or_followed_by_bytes() {
    assert_eq!(refused(b"", &image::with_header(b"\0\0")), Some((4, 7)));
    assert_eq!(
        refused(b"", &image::with_header(b"\0\0\0\0\0\0")),
        Some((4, 7))
    );
    let good = image::write(&[], &tree(vec![]));
    let spare = image::with_header(&[&good[5..], b"\0"].concat());
    assert_eq!(refused(b"", &spare), Some((4, good.len() as u64)));
}

#[test]
fn an_optional_child_is_never_left_out() {
    let bare = node(1, 0..0, []);
    let image = image::write(&[], &bare);
    assert_eq!(refused(b"", &image), Some((4, image.len() as u64)));
    assert_eq!(of(node(16, 0..0, [None, None])), None);
    let lacking = node(16, 0..0, [None]);
    assert_eq!(of(lacking), Some((4, FIRST + HEAD + 4)));
}

#[test]
fn payloads() {
    let with = |value| of(constant(Some(value)));
    assert_eq!(with(chosen(50, 0..0, 2, [None])), None);
    assert_eq!(with(chosen(50, 0..0, 3, [None])), Some((4, VALUE)));
    assert_eq!(with(node(50, 0..0, [])), Some((4, VALUE)));
    let literal =
        |payload| node(51, 0..0, [Some(chosen(87, 0..0, payload, []))]);
    assert_eq!(with(literal(3)), None);
    assert_eq!(with(literal(4)), Some((4, VALUE + HEAD)));
    let path = Some(node(4, 0..0, [name()]));
    let compound = |payload| {
        let operator = Some(chosen(86, 0..0, payload, []));
        with(node(62, 0..0, [path.clone(), operator, unit()]))
    };
    assert_eq!(compound(4), None);
    assert_eq!(compound(5), Some((4, VALUE + HEAD + HEAD + HEAD + 3)));
    let binary = |payload| {
        let operator = Some(chosen(86, 0..0, payload, []));
        with(node(63, 0..0, [unit(), operator, unit()]))
    };
    assert_eq!(binary(13), None);
    assert_eq!(binary(14), Some((4, VALUE + HEAD + HEAD + HEAD + 1)));
}

#[test]
fn texts() {
    let test = |payload: &[u8]| {
        let shebang = Tree {
            payload: payload.to_vec(),
            ..node(2, 0..0, [])
        };
        refused(b"", &image::write(&[], &node(1, 0..0, [Some(shebang)])))
    };
    let at = TREE_AT + HEAD;
    assert_eq!(test(b"\xFF\xFF"), None);
    assert_eq!(test(b"\0\x01\xC3\xA9"), None);
    assert_eq!(test(b"\0"), Some((4, at)));
    assert_eq!(test(b""), Some((4, at)));
    assert_eq!(test(b"\0\x01a\xC3"), Some((4, at)));
}

#[test]
fn spare_bytes() {
    let with = |value| of(constant(Some(value)));
    let spare = Tree {
        payload: vec![3, 9],
        ..node(87, 0..0, [])
    };
    let expected = VALUE + HEAD + HEAD + 1;
    assert_eq!(with(node(51, 0..0, [Some(spare)])), Some((4, expected)));
    // In a list one to three bytes are a child cut off, at the same place.
    for count in 1..4 {
        let path = Tree {
            children: vec![name()],
            ..node(4, 0..0, [])
        };
        let tail = Tree {
            payload: vec![0; count],
            ..node(3, 0..0, [])
        };
        let ty = node(41, 0..0, [Some(path), Some(tail)]);
        let declaration = node(11, 0..0, [name(), Some(ty), unit()]);
        let list = FIRST + HEAD + HEAD + 3 + HEAD + HEAD + HEAD + 3;
        assert_eq!(of(declaration), Some((4, list + HEAD)));
    }
}

#[test]
fn kinds_have_their_places() {
    assert_eq!(of(node(17, 0..0, [])), Some((4, FIRST)));
    assert_eq!(of(constant(None)), Some((4, VALUE)));
    assert_eq!(of(constant(name())), Some((4, VALUE)));
    let part = |kind| {
        let list = node(3, 0..0, [Some(node(kind, 0..0, []))]);
        of(constant(Some(node(69, 0..0, [Some(list)]))))
    };
    assert_eq!(part(84), None);
    assert_eq!(part(86), Some((4, VALUE + HEAD + HEAD)));
}

#[test]
fn spans_are_tested_everywhere() {
    let with = |source: &str, span| {
        let image = image::write(&[], &node(1, span, [None]));
        refused(source.as_bytes(), &image)
    };
    assert_eq!(with("é", 0..2), None);
    assert_eq!(with("é", 2..2), None);
    assert_eq!(with("é", 0..1), Some((6, TREE_AT)));
    assert_eq!(with("é", 1..2), Some((6, TREE_AT)));
    assert_eq!(with("é", 0..3), Some((6, TREE_AT)));
    #[allow(clippy::reversed_empty_ranges)]
    let reversed = 2..0;
    assert_eq!(with("é", reversed), Some((6, TREE_AT)));
    // At one place 4 comes before 6, and a parent's 6 before a child's 4.
    let both = node(1, 0..9, [Some(node(9, 0..0, []))]);
    let image = image::write(&[], &both);
    assert_eq!(refused(b"", &image), Some((6, TREE_AT)));
}

/// Parentheses around parentheses; the outermost is 3 deep.
fn nested(count: usize, innermost: Option<Tree>) -> Tree {
    let inner =
        (1..count).fold(innermost, |inner, _| Some(node(70, 0..0, [inner])));
    constant(Some(node(70, 0..0, [inner])))
}

#[test]
fn depth() {
    // A unit literal is two records.
    assert_eq!(of(nested(60, unit())), None);
    let place = VALUE + HEAD * 62;
    assert_eq!(of(nested(61, unit())), Some((5, place)));
    // 4 before 5 before 6 at the record that is too deep.
    let deep =
        |literal| of(nested(61, Some(node(51, 0..0, [Some(literal)]))));
    assert_eq!(deep(chosen(87, 0..9, 3, [])), Some((5, place)));
    assert_eq!(deep(chosen(87, 0..0, 4, [])), Some((4, place)));
    // An absent child is no record.
    let empty_return = chosen(50, 0..0, 0, [None]);
    assert_eq!(of(nested(61, Some(empty_return))), None);
}
