//! Files formatted a part at a time, with what is carried in one place.

mod support;

use rrufthim::{
    Cause, File, Formatter, InParts, Options, Refusal, Widths, ast::Extras,
    encode,
};
use support::{DECLARATIONS, SOURCE, constants, tariff_image};

/// The parts of a file, so many declarations at a time.
fn texts(source: &str, image: &[u8], each: usize) -> Vec<String> {
    let file = File::new(source, image);
    let mut parts = InParts::new(file).expect("accepted");
    let mut texts = Vec::new();
    while let Some(part) = parts.advance(each).expect("a part") {
        texts.push(part.to_owned());
    }
    assert!(parts.layout_state().closed);
    assert_eq!(parts.render_state().next_row, parts.layout_state().next_row);
    texts
}

#[test]
fn the_parts_are_the_whole() {
    let source = "const A: u32 = 1;\n".repeat(300);
    let image = encode(&constants(&source), &[]).expect("an image");
    for (each, count) in [(0, 300), (1, 300), (7, 43), (300, 1), (900, 1)] {
        let texts = texts(&source, &image, each);
        assert_eq!(texts.len(), count);
        assert_eq!(texts.concat(), source);
    }
}

#[test]
fn comments_are_left_as_in_one_run() {
    let image = tariff_image();
    let file = File::new(SOURCE, &image);
    let mut formatter = Formatter::new();
    for (options, left) in [(Options::default(), 0), (Options::AS_ROTO, 1)] {
        formatter = formatter.with_options(options.clone());
        let whole = formatter.format_file(file).expect("a text");
        assert_eq!(whole.comments_left.len(), left);

        let parts = InParts::new(file).expect("accepted");
        let mut parts = parts.with_options(options);
        assert_eq!(parts.declarations(), DECLARATIONS);
        assert_eq!(parts.comments_left().len(), 3);
        let mut text = String::new();
        text += parts.advance(1).expect("accepted").expect("a part");
        assert_eq!(parts.comments_left().len(), 2);
        text += parts.advance(1).expect("accepted").expect("the last");
        assert_eq!(parts.comments_left(), whole.comments_left);
        assert_eq!(parts.advance(1), Ok(None));
        assert_eq!(text, whole.text);
    }
}

/// Rendering may come after several layouts; a refused part changes nothing.
#[test]
fn parts_out_of_order_are_refused() {
    let image = tariff_image();
    let file = File::new(SOURCE, &image);
    let mut parts = InParts::new(file).expect("accepted");
    assert_eq!(parts.render().expect("no row yet"), "");
    parts.lay_out(1).expect("the first");
    let state = parts.layout_state().clone();
    for stop in [0, DECLARATIONS + 1, usize::MAX] {
        let error = parts.lay_out(stop).expect_err("out of order");
        assert_eq!(error.cause, Cause::Refused(Refusal::BadState));
        assert_eq!(*parts.layout_state(), state);
    }
    parts.lay_out(DECLARATIONS).expect("all");
    let error = parts.lay_out(DECLARATIONS).expect_err("closed");
    assert_eq!(error.cause, Cause::Refused(Refusal::BadState));
    let text = parts.render().expect("a text").to_owned();
    assert_eq!(text, texts(SOURCE, &image, 1).concat());
    assert_eq!(parts.advance(1), Ok(None));
}

/// Options are chosen before the first part: others are refused after it, and
/// the first ones go on.
#[test]
fn options_are_chosen_once() {
    let image = tariff_image();
    let mut parts =
        InParts::new(File::new(SOURCE, &image)).expect("accepted");
    parts.advance(1).expect("a part");
    let wider = Options::default().with_width(100);
    let measured = Options::default().with_widths(Widths::Unicode16_0);
    for (other, refusal) in [
        (Options::AS_ROTO, Refusal::BadState),
        (measured, Refusal::BadState),
        (wider, Refusal::BadWidth),
    ] {
        parts = parts.with_options(other);
        let error = parts.advance(1).expect_err("another choice");
        assert_eq!(error.cause, Cause::Refused(refusal));
    }
    parts = parts.with_options(Options::default());
    let rest = parts.advance(1).expect("accepted").expect("the last");
    assert!(rest.ends_with("44-B.\n"), "{rest}");
}

#[test]
fn an_empty_file_has_an_empty_part() {
    let image = encode(&Default::default(), &Extras::default().comments);
    assert_eq!(texts("", &image.expect("an image"), 5), [""]);
}

#[test]
fn a_file_that_is_refused_has_no_parts() {
    let image = tariff_image();
    let file = File::new("const", &image);
    let error = InParts::new(file).expect_err("too short");
    assert_eq!(error.cause, Cause::Refused(Refusal::BadComment { at: 7 }));
    assert_eq!(error.place.expect("a place").span, 0..30);
}
