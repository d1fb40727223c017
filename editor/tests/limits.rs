//! The encoder at its limits: at the value it writes an image that is
//! accepted, one past it an error.

mod support;

use std::thread;

use rrufthim::{
    EncodeError, File, Options, Refusal,
    ast::*,
    calls::{LayoutState, ROW, check, format_file, layout},
    encode, encode_written,
    figures::{Tallies, count},
    limits::{MAX_BODY, MAX_COMMENTS, MAX_DEPTH, MAX_SOURCE, MAX_WIDTH},
    write_tree,
};
use support::{Buffers, all, constants, path};

const SOURCE: &str = "const A: u32 = 1;";

/// The sizes of docs/01-scope.md.
#[test]
fn the_limits_are_those_of_the_document() {
    assert_eq!((MAX_SOURCE, MAX_BODY), (65_536, 1_048_576));
    assert_eq!((MAX_COMMENTS, MAX_DEPTH), (8_192, 64));
    assert_eq!(MAX_WIDTH, 65_535);
}

fn accepted(source: &str, image: &[u8]) -> bool {
    check(File::new(source, image)).is_ok()
}

/// The image of a tree whose texts are all so wide.
fn encode_at(
    tree: &SyntaxTree,
    width: usize,
) -> Result<Vec<u8>, EncodeError> {
    encode_written(|out| write_tree(out, tree, &[], |_| width))
}

#[test]
fn comments() {
    let tree = constants(SOURCE);
    let comments = |count| Vec::from_iter((0..count).map(|at| at..at + 1));
    let most = comments(MAX_COMMENTS);
    let image = encode(&tree, &most).expect("as many as there may be");
    let source = SOURCE.to_owned() + &" ".repeat(MAX_COMMENTS);
    assert!(accepted(&source, &image));

    let more = comments(MAX_COMMENTS + 1);
    let count = more.len();
    let error = EncodeError::TooManyComments { count };
    assert_eq!(encode(&tree, &more), Err(error));
}

#[test]
#[allow(clippy::reversed_empty_ranges)]
fn spans_of_comments() {
    let tree = SyntaxTree::default();
    for span in [1..1, 2..1, 0..MAX_SOURCE + 1, usize::MAX - 1..usize::MAX] {
        let comments = [0..1, span.clone()];
        let error = EncodeError::BadComment { index: 1, span };
        assert_eq!(encode(&tree, &comments), Err(error));
    }
    assert!(encode(&tree, &[0..MAX_SOURCE]).is_ok());
}

#[test]
#[allow(clippy::reversed_empty_ranges)]
fn spans_of_nodes() {
    for span in [2..1, 0..MAX_SOURCE + 1, usize::MAX..usize::MAX] {
        let mut tree = constants(SOURCE);
        let [Declaration::Const(constant)] = &mut tree.declarations[..]
        else {
            panic!("one constant");
        };
        constant.expr.span = span.clone();
        let error = EncodeError::BadSpan { span };
        assert_eq!(encode(&tree, &[]), Err(error));
    }
}

#[test]
fn widths() {
    let tree = constants(SOURCE);
    let image = encode_at(&tree, MAX_WIDTH);
    assert!(accepted(SOURCE, &image.expect("as wide as may be")));
    for width in [MAX_WIDTH + 1, usize::MAX] {
        let span = 6..7;
        let error = EncodeError::TooWide { span, width };
        assert_eq!(encode_at(&tree, width), Err(error));
    }
}

/// A constant whose value is a path in so many parentheses.
fn nested(parentheses: usize) -> SyntaxTree {
    let mut expr = Meta::new(Expr::Path(path(SOURCE, &(6..7))), 6..7);
    for _ in 0..parentheses {
        expr = Meta::new(Expr::Parentheses(Box::new(expr)), 6..7);
    }
    let mut tree = constants(SOURCE);
    let [Declaration::Const(constant)] = &mut tree.declarations[..] else {
        panic!("one constant");
    };
    constant.expr = expr;
    tree
}

#[test]
fn depth() {
    // Tree, constant, expression, path, name.
    let most = MAX_DEPTH - 5;
    let image = encode(&nested(most), &[]).expect("as deep as may be");
    assert!(accepted(SOURCE, &image));
    for parentheses in [most + 1, 10 * most, 5_000] {
        let error = encode(&nested(parentheses), &[]);
        assert_eq!(error, Err(EncodeError::TooDeep { span: 6..7 }));
    }
}

/// The deepest trees need a quarter of a megabyte of stack at most.
#[test]
fn a_small_stack() {
    let image = encode(&nested(MAX_DEPTH - 5), &[]).expect("an image");
    let run = move || {
        let mut buffers = Buffers::ample();
        let (file, options) = (File::new(SOURCE, &image), Options::default());
        buffers.format(file).is_ok()
            && format_file(file, &options, &mut buffers.output).is_ok()
            && count(file, &mut Tallies::default()).is_ok()
    };
    let thread = thread::Builder::new().stack_size(256 << 10).spawn(run);
    assert!(thread.expect("a thread").join().expect("no panic"));
}

/// `const A: ! = [[..]];`, lists in lists so many deep.
fn lists(deep: usize) -> SyntaxTree {
    let mut expr = Meta::new(Expr::List(vec![]), 6..7);
    for _ in 1..deep {
        expr = Meta::new(Expr::List(vec![expr]), 6..7);
    }
    let mut tree = constants(SOURCE);
    let [Declaration::Const(constant)] = &mut tree.declarations[..] else {
        panic!("one constant");
    };
    constant.ty = Meta::new(TypeExpr::Never, 6..7);
    constant.expr = expr;
    tree
}

/// Five rows for each 13 bytes of image are enough (crates/layout_facts). A
/// list in a list is 26 bytes and ten rows, so that these images need all but
/// 22 of the rows, and the deepest more than five for each 14 bytes.
#[test]
fn rows_come_near_their_bound() {
    // Tree, constant, and two records a list.
    let most = (MAX_DEPTH - 2) / 2;
    for deep in 1..=most {
        let image = encode(&lists(deep), &[]).expect("an image");
        assert!(accepted(SOURCE, &image));
        let bound = image.len() * 5 / 13;
        let mut store = vec![0; bound * ROW];
        let (fresh, options) = (LayoutState::default(), Options::default());
        let file = File::new(SOURCE, &image);
        let laid = layout(file, &mut store, &fresh, &all(1), &options);
        let rows = laid.expect("room enough").state.next_row;
        assert_eq!(rows, bound - 22, "{deep} deep");
        assert!(deep < most || rows > image.len() * 5 / 14);
    }
}

/// A tree with nothing but a shebang: its image's body is 30 bytes longer.
fn shebang(length: usize) -> SyntaxTree {
    SyntaxTree {
        shebang: Some("x".repeat(length)),
        declarations: vec![],
    }
}

#[test]
fn length() {
    let most = MAX_BODY - 30;
    let image = encode_at(&shebang(most), 1).expect("as long as may be");
    assert_eq!(image.len(), MAX_BODY + 5);
    assert!(accepted("", &image));
    for length in [most + 1, most + 3, most + 4, 4 * MAX_BODY] {
        let error = encode_at(&shebang(length), 1);
        assert_eq!(error, Err(EncodeError::TooLong));
    }
}

/// The last bytes of an image may be those of absent children.
#[test]
fn length_with_many_children() {
    let import = Meta::new(
        ImportPath {
            path: None,
            group: None,
        },
        0..0,
    );
    let tree = |count| SyntaxTree {
        shebang: None,
        declarations: vec![Declaration::Import(import.clone()); count],
    };
    let most = (MAX_BODY - 2 - 17) / 21;
    let image = encode(&tree(most), &[]).expect("as many as may be");
    assert!(accepted("", &image));
    assert_eq!(encode(&tree(most + 1), &[]), Err(EncodeError::TooLong));
    assert_eq!(encode(&tree(9 * most), &[]), Err(EncodeError::TooLong));
}

#[test]
fn a_path_has_a_name() {
    let path = Meta::new(Path { idents: vec![] }, 3..4);
    let import = ImportPath {
        path: Some(path),
        group: None,
    };
    let declaration = Declaration::Import(Meta::new(import, 0..5));
    let tree = SyntaxTree {
        shebang: None,
        declarations: vec![declaration],
    };
    let error = encode(&tree, &[]).expect_err("no name");
    assert_eq!(error, EncodeError::EmptyPath { span: 3..4 });
    assert_eq!(error.to_string(), "the path at 3..4 has no name");
}

/// The encoder doesn't see the source; the reader does.
#[test]
fn spans_past_the_source_are_for_the_reader() {
    let image = encode(&constants(SOURCE), &[0..5]).expect("an image");
    let refusal = check(File::new("cons", &image));
    assert_eq!(refusal, Err(Refusal::BadComment { at: 7 }));
}
