//! Whole files: trees in, texts out, and the comments that are left.

mod support;

use rrufthim::{
    Cause, EncodeError, File, Formatter, Refusal, ast::*, encode,
    encode_written, fmt_parsed, simple_width, write_tree,
};
use support::{SOURCE, constants, tariff, tariff_image};

const TARIFF: &str = "\
// Tariff 2026, members only.
const BASE: u32 = 5; // per cent

fn discount(years: u32) -> u32 {
    if years > 10 {
        BASE * 3
    } else {
        BASE
    }
}
// Filing reference 44-B.
";

fn extras(comments: &[Span]) -> Extras {
    let comments = comments.to_vec();
    Extras { comments }
}

#[test]
fn the_tariff_is_formatted_with_its_last_line() {
    let (tree, extras) = tariff();
    let formatted = fmt_parsed(&tree, SOURCE, &extras).expect("a text");
    assert_eq!(formatted.text, TARIFF);
    assert_eq!(formatted.complete().as_deref(), Ok(TARIFF));
}

/// An edge of document 01: a comment between declarations comes back.
#[test]
fn comments_stand_where_they_stood() {
    let source = "const A: u32 = 1; # ok\nconst B: u32 = 2;";
    let both = fmt_parsed(&constants(source), source, &extras(&[18..23]));
    let text = both.expect("a text").complete().expect("none left");
    assert_eq!(text, "const A: u32 = 1; # ok\nconst B: u32 = 2;\n");
    assert_eq!(text.len(), 41);
}

/// Document 01's worked frame.
#[test]
fn the_worked_image_is_written() {
    let tree = SyntaxTree {
        shebang: Some("#!/x".into()),
        declarations: vec![],
    };
    let image = encode(&tree, &[]).expect("within the limits");
    let due = [
        &[1, 0, 0, 0, 0x22, 0, 0][..],
        &[0, 0, 0, 0x1C, 1, 0, 0, 0, 0, 0, 0, 0, 0],
        &[0, 0, 0, 0x0F, 2, 0, 0, 0, 0, 0, 0, 0, 0],
        &[0, 4, 0x23, 0x21, 0x2F, 0x78],
    ];
    assert_eq!(image, due.concat());
    let mut formatter = Formatter::new();
    let written = formatter.format_file(File::new("", &image));
    assert_eq!(written.expect("a text").text, "#!/x\n\n");
}

#[test]
fn widths_are_asked_for_in_order_and_the_shebang_trimmed() {
    let mut tree = constants("const A: u32 = 1;");
    tree.shebang = Some("#!/x \n".into());
    let mut asked = Vec::new();
    let measure = |text: &str| {
        asked.push(text.to_owned());
        simple_width(text)
    };
    encode_written(|out| write_tree(out, &tree, &[], measure))
        .expect("within the limits");
    assert_eq!(asked, ["#!/x", "A", "u32"]);
    assert_eq!(simple_width("größe\t"), 5);
}

#[test]
fn a_formatter_serves_file_after_file() {
    let image = tariff_image();
    let small = encode(&SyntaxTree::default(), &[]).expect("an image");
    let mut formatter = Formatter::default();
    for _ in 0..2 {
        let written = formatter.format_file(File::new(SOURCE, &image));
        let written = written.expect("a text");
        assert_eq!(written.text, TARIFF);
        assert_eq!(written.comments_left.len(), 0);
        let written = formatter.format_file(File::new("", &small));
        assert_eq!(written.expect("a text").text, "");
    }
}

#[test]
fn a_text_over_the_bound_is_refused() {
    let image = tariff_image();
    let mut formatter = Formatter::new().with_max_output(10);
    let refusal = formatter.format_file(File::new(SOURCE, &image));
    let needed = TARIFF.len();
    let cause = Cause::Refused(Refusal::MoreOutput { needed });
    assert_eq!(refusal.expect_err("too long").cause, cause);
}

/// Each literal of a list spans the whole source: over a gigabyte of text.
#[test]
fn a_text_of_gigabytes_is_refused() {
    let source = " ".repeat(65_536);
    let literal = Meta::new(Literal::Integer(0, None), 0..source.len());
    let literal = Meta::new(Expr::Literal(literal), 0..0);
    let mut tree = constants("const A: u32 = 1;");
    let [Declaration::Const(constant)] = &mut tree.declarations[..] else {
        panic!("one constant");
    };
    constant.expr = Meta::new(Expr::List(vec![literal; 20_000]), 0..0);
    let error = fmt_parsed(&tree, &source, &Extras::default());
    let Cause::Refused(Refusal::MoreOutput { needed }) =
        error.expect_err("too long").cause
    else {
        panic!("it is refused by 10");
    };
    assert!(needed > 20_000 * 65_536);
}

#[test]
fn trees_that_do_not_fit_their_source_are_refused() {
    let tree = constants("const A: u32 = 1;");
    let error = fmt_parsed(&tree, "const", &Extras::default());
    let error = error.expect_err("spans past the source");
    assert!(matches!(
        error.cause,
        Cause::Refused(Refusal::BadSpan { .. })
    ));
    // é takes two bytes: 15 is in its middle.
    let error = fmt_parsed(&tree, "const A: u32 =é1;", &Extras::default());
    let error = error.expect_err("a span off a boundary");
    assert!(error.to_string().contains("span"), "{error}");

    let error = fmt_parsed(&tree, "const A: u32 = 1;", &extras(&[3..3]));
    assert!(matches!(
        error.expect_err("an empty comment").cause,
        Cause::Encode(EncodeError::BadComment { .. })
    ));
    let long = " ".repeat(65_537);
    let error = fmt_parsed(&tree, &long, &Extras::default());
    let cause = Cause::Refused(Refusal::SourceTooLong);
    assert_eq!(error.expect_err("too long").cause, cause);
}
