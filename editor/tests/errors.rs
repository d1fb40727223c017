//! Errors say where in the source they are.

mod support;

use std::error::Error;

use rrufthim::{
    Cause, EncodeError, File, FormatError, Formatter, ImageWriter, Options,
    Place, Refusal, WriteResult, ast::*, calls::check, encode, fmt_parsed,
    fmt_written, kind, limits::MAX_SOURCE, simple_width, write_tree,
};
use support::{constants, tariff};

/// é takes two bytes: the second constant's value is at line 2, column 17.
const SOURCE: &str = "const A: u32 = 1;\nconst é: u32 =  2;\n";

fn tree() -> SyntaxTree {
    let mut tree = constants("const A: u32 = 1;\nconst BB: u32 =  2;\n");
    *value(&mut tree) = literal(35..36);
    tree
}

/// The second constant's value.
fn value(tree: &mut SyntaxTree) -> &mut Meta<Expr> {
    let Some(Declaration::Const(constant)) = tree.declarations.get_mut(1)
    else {
        panic!("two constants");
    };
    &mut constant.expr
}

fn literal(span: Span) -> Meta<Expr> {
    let literal = Literal::Integer(2, None);
    Meta::new(Expr::Literal(Meta::new(literal, span.clone())), span)
}

fn refused(
    tree: &SyntaxTree,
    source: &str,
    comments: &[Span],
) -> FormatError {
    let comments = comments.to_vec();
    let answer = fmt_parsed(tree, source, &Extras { comments });
    answer.expect_err("it is refused")
}

fn at(error: &FormatError) -> (Span, usize, usize) {
    let place = error.place.clone().expect("a place");
    (place.span, place.line, place.column)
}

#[test]
fn a_span_is_named() {
    let fine = fmt_parsed(&tree(), SOURCE, &Extras::default());
    assert!(fine.is_ok(), "{fine:?}");
    for (span, column) in [(35..39, 17), (40..41, 20), (25..26, 8)] {
        let mut tree = tree();
        *value(&mut tree) = literal(span.clone());
        let error = refused(&tree, SOURCE, &[]);
        assert!(matches!(
            error.cause,
            Cause::Refused(Refusal::BadSpan { .. })
        ));
        let line = if span.start > 38 { 3 } else { 2 };
        let column = if line == 3 { 1 } else { column };
        assert_eq!(at(&error), (span.clone(), line, column));
        let shown = error.to_string();
        let start = format!("line {line}, column {column}: ");
        assert!(shown.starts_with(&start), "{shown}");
        assert!(shown.contains(&format!("{span:?}")), "{shown}");
    }
}

/// An error's source says what the error itself doesn't: the offset in the
/// image, where the words are about the source.
#[test]
fn sources_do_not_repeat() {
    let said = |error: &FormatError| {
        let source = error.source().map(ToString::to_string);
        let shown = error.to_string();
        assert!(source.is_none_or(|words| !shown.contains(&words)));
        error.source().is_some()
    };
    let comment = refused(&tree(), SOURCE, &[0..5, 34..90]);
    assert!(said(&comment));
    let source = comment.source().expect("a refusal").to_string();
    assert!(source.ends_with("in the image: 15)"), "{source}");
    let mut wrong = tree();
    *value(&mut wrong) = literal(40..41);
    assert!(said(&refused(&wrong, SOURCE, &[])));

    // Those whose words hold all of the cause.
    let file = File::new(SOURCE, "");
    let refusals = [
        Refusal::SourceTooLong,
        Refusal::SourceNotUtf8 { at: 20 },
        Refusal::NoImage,
        Refusal::MoreOutput { needed: 7 },
        Refusal::BadComment { at: 5 },
    ];
    for refusal in refusals {
        let error = file.error(refusal);
        assert!(!said(&error));
        assert!(error.to_string().ends_with(&refusal.to_string()));
    }
    let many = refused(&tree(), SOURCE, &vec![0..1; 8_193]);
    assert!(!said(&many));
    #[allow(clippy::reversed_empty_ranges)]
    let reversed = refused(&tree(), SOURCE, &[9..3]);
    assert!(reversed.place.is_some() && !said(&reversed));
}

#[test]
fn a_comment_is_named() {
    let error = refused(&tree(), SOURCE, &[0..5, 34..90]);
    assert_eq!(error.cause, Cause::Refused(Refusal::BadComment { at: 15 }));
    assert_eq!(at(&error), (34..90, 2, 16));
    let shown = error.to_string();
    assert!(shown.starts_with("line 2, column 16: the comment 34..90 "));
}

/// The encoder's own errors have a place too.
#[test]
#[allow(clippy::reversed_empty_ranges)]
fn encoding_errors_are_placed() {
    let mut reversed = tree();
    *value(&mut reversed) = literal(35..20);
    let error = refused(&reversed, SOURCE, &[]);
    let cause = EncodeError::BadSpan { span: 35..20 };
    assert_eq!(error.cause, Cause::Encode(cause));
    assert_eq!(at(&error), (35..20, 2, 17));
    let long = MAX_SOURCE + 1;
    let error = refused(&tree(), SOURCE, &[0..long]);
    assert_eq!(at(&error), (0..long, 1, 1));
    let none = refused(&tree(), SOURCE, &vec![0..1; 8_193]);
    assert_eq!(none.place, None);
}

#[test]
fn bytes_that_are_no_text_are_placed() {
    let mut formatter = Formatter::new();
    let image = encode(&tree(), &[]).expect("an image");
    let bad = [&SOURCE.as_bytes()[..20], b"\xFF"].concat();
    let error = formatter.format_file(File::new(&bad, &image));
    let error = error.expect_err("it isn't UTF-8");
    assert_eq!(
        error.cause,
        Cause::Refused(Refusal::SourceNotUtf8 { at: 20 })
    );
    assert_eq!(at(&error), (20..21, 2, 3));
}

/// The span of a refusal is read from the image, and from no other bytes.
#[test]
fn spans_of_refusals() {
    let image = encode(&tree(), &[0..5, 6..7]).expect("an image");
    let file = File::new("const ", &image);
    let comment = check(file).expect_err("a comment");
    assert_eq!(comment.span(file), Some(6..7));
    assert_eq!(Refusal::BadComment { at: 5 }.span(file), None);
    assert_eq!(Refusal::NoImage.span(file), None);
    let bytes = Refusal::SourceNotUtf8 { at: 2 };
    assert_eq!(bytes.span(file), Some(2..6));
    for at in [image.len(), usize::MAX - 3, usize::MAX] {
        assert_eq!(Refusal::BadSpan { at }.span(file), None);
        assert_eq!(Refusal::BadComment { at }.span(file), None);
    }
}

#[test]
fn places_in_a_source() {
    let lines = "a\n\nžb".as_bytes();
    let found: Vec<_> = (0..8)
        .map(|start| Place::new(lines, start..start))
        .map(|place| (place.line, place.column))
        .collect();
    let due = [(1, 1), (1, 2), (2, 1), (3, 1), (3, 2), (3, 2), (3, 3)];
    assert_eq!(found[..7], due);
    assert_eq!(found[7], (3, 3));
}

/// A text that is longer than a source may be says so.
#[test]
fn an_outgrown_text_says_so() {
    for (lines, outgrown) in [(3_640, false), (3_641, true)] {
        // 17 bytes of source give 18 of text.
        let source = "const A:u32 = 1;\n".repeat(lines);
        let spread = "const A: u32 = 1;\n".repeat(lines);
        let mut tree = constants(&spread);
        for (line, declaration) in tree.declarations.iter_mut().enumerate() {
            let Declaration::Const(constant) = declaration else {
                panic!("constants");
            };
            shift(constant, line * 17);
        }
        let formatted = fmt_parsed(&tree, &source, &Extras::default());
        let formatted = formatted.expect("a text");
        assert_eq!(formatted.text, spread);
        assert_eq!(formatted.outgrown, outgrown);
        assert_eq!(formatted.text.len() > MAX_SOURCE, outgrown);
        // What the next save of that text gets.
        let again = fmt_parsed(&tree, &spread, &Extras::default());
        let refusal = Cause::Refused(Refusal::SourceTooLong);
        let cause = again.err().map(|error| error.cause);
        assert_eq!(cause, outgrown.then_some(refusal));
    }
}

/// The limit to the byte: a shebang is followed by two newlines.
#[test]
fn a_text_at_the_limit_is_not_outgrown() {
    for (length, outgrown) in [(65_534, false), (65_535, true)] {
        let tree = SyntaxTree {
            shebang: Some("x".repeat(length)),
            declarations: vec![],
        };
        let formatted = fmt_parsed(&tree, "", &Extras::default());
        let formatted = formatted.expect("a text");
        assert_eq!(formatted.text.len(), length + 2);
        assert_eq!(formatted.outgrown, outgrown);
    }
}

/// Puts a constant where its line `const A:u32 = 1;` starts.
fn shift(constant: &mut ConstantDeclaration, start: usize) {
    let value = literal(start + 14..start + 15);
    let Expr::Literal(literal) = value.node else {
        panic!("a literal");
    };
    constant.ident.span = start + 6..start + 7;
    constant.ty.span = start + 8..start + 11;
    let TypeExpr::Path(path, _) = &mut constant.ty.node else {
        panic!("a path");
    };
    path.span = constant.ty.span.clone();
    path.idents[0].span = constant.ty.span.clone();
    constant.expr = Meta::new(Expr::Literal(literal), value.span);
}

/// The function for widths, or what writes an image, may format too.
#[test]
fn calls_within_calls() {
    let (tree, extras) = tariff();
    let source = support::SOURCE;
    let due = fmt_parsed(&tree, source, &extras).expect("a text");
    let width = |text: &str| {
        let inner = fmt_parsed(&tree, source, &extras);
        assert_eq!(inner.expect("a text"), due);
        simple_width(text)
    };
    let outer = fmt_written(source, &Options::default(), |out| {
        write_tree(out, &tree, &extras.comments, width)
    });
    assert_eq!(outer.expect("a text"), due);
}

/// What is no image is refused like any other bytes.
#[test]
fn badly_written_images_are_refused() {
    type Write = fn(&mut ImageWriter<'_>) -> WriteResult;
    let cause = |write: Write| {
        let error = fmt_written("", &Options::default(), write);
        error.expect_err("no image").cause
    };
    let no_list = Cause::Refused(Refusal::BadComment { at: 5 });
    assert_eq!(cause(|_| Ok(())), no_list);
    let no_tree = Cause::Refused(Refusal::BadRecord { at: 7 });
    assert_eq!(cause(|out| out.comments([].into_iter())), no_tree);
    let left_open = cause(|out| {
        out.comments([].into_iter())?;
        let _ = out.open(kind::TREE, 0..0)?;
        out.absent();
        Ok(())
    });
    assert_eq!(left_open, no_tree);
}

/// The encoder doesn't see the source; with it, its errors have a place.
#[test]
fn what_the_encoder_says_gets_a_place() {
    let source = "// a\n// b\n";
    let error = encode(&SyntaxTree::default(), &[5..9, 0..4]);
    let error = error.expect_err("out of order").in_source(source);
    let place = error.place.as_ref().expect("a comment");
    assert_eq!((place.line, place.column), (1, 1));
    assert!(
        error
            .to_string()
            .starts_with("line 1, column 1: comment 1 ")
    );
}
