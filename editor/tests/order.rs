//! The order of comments (docs/02-change-requests.md, 10): each starts at or
//! after the end of the one before, but in archived images.

mod support;

use rrufthim::{
    Batch, Cause, EncodeError, File, FormatError, Formatter, InParts,
    Options, Refusal, Span, Version, Widths, archive,
    ast::*,
    calls::{
        self, LayoutArgs, LayoutState, ROW, RenderArgs, RenderState, check,
        layout, layout_archived,
    },
    encode, encode_as, figures, fmt_parsed,
    generator::{self, Builder},
    kind,
};
use support::constants;

/// The two constants of `SOURCE` stand at 0 and 28.
const SOURCE: &str = "const A: u32 = 1; // a\n// b\nconst B: u32 = 2;\n";
const FIRST: Span = 18..22;
const SECOND: Span = 23..27;
/// The comments of an image start here, with so many bytes each.
const LIST: usize = 7;
const PAIR: usize = 8;

fn tree() -> SyntaxTree {
    constants(&SOURCE.replace("// a", "    ").replace("// b", "    "))
}

/// An image with both comments, the later one first.
fn backwards(version: Version) -> Vec<u8> {
    let image = encode_as(version, &tree(), &[FIRST, SECOND]);
    let mut image = image.expect("in order");
    image[LIST..LIST + 2 * PAIR].rotate_left(PAIR);
    image
}

/// 7 with the second pair.
const UNORDERED: Refusal = Refusal::BadComment { at: LIST + PAIR };

fn refused(error: FormatError) -> (Cause, Span, String) {
    let words = error.to_string();
    let place = error.place.expect("a place");
    (error.cause, place.span, words)
}

#[test]
fn a_list_that_runs_backwards_is_refused() {
    let image = backwards(Version::One);
    let file = File::new(SOURCE, &image);
    assert_eq!(check(file), Err(UNORDERED));
    let mut tallies = figures::Tallies::default();
    let counted = figures::count(file, &mut tallies).map(|_| ());
    assert_eq!(counted, Err(UNORDERED));
    assert_eq!(tallies, figures::Tallies::default());
    assert_eq!(generator::steps(file), Err(file.error(UNORDERED)));
    let mut output = [0; 200];
    let whole = calls::format_file(file, &Options::default(), &mut output);
    assert_eq!(whole, Err(UNORDERED));
    assert_eq!(output, [0; 200]);
    let error = Formatter::new().format_file(file).expect_err("refused");
    let (cause, span, words) = refused(error);
    assert_eq!((cause, span), (Cause::Refused(UNORDERED), FIRST));
    let due = "line 1, column 19: the comment 18..22 is ";
    assert!(words.starts_with(due), "{words}");
    assert!(
        words.ends_with("before the end of the one before"),
        "{words}"
    );
    let parts = InParts::new(file).expect_err("refused");
    assert_eq!(parts.cause, Cause::Refused(UNORDERED));
    let batch = &Batch::new().format_files([file, file])[1];
    let error = batch.as_ref().expect_err("refused");
    assert_eq!(error.cause, Cause::Refused(UNORDERED));
}

/// As in the original: each comment comes where the list has it.
const ARCHIVED: &str = "const A: u32 = 1;\n// b\n// a\n\nconst B: u32 = 2;\n";

#[test]
fn an_archived_list_comes_in_its_order() {
    let mut formatter = Formatter::new();
    for (version, widths) in [
        (Version::One, Widths::Supplied),
        (Version::One, Widths::Unicode16_0),
        (Version::Two, Widths::Unicode16_0),
    ] {
        let image = backwards(version);
        let options = Options::default().with_widths(widths);
        formatter = formatter.with_options(options);
        let file = File::new(SOURCE, &image);
        let formatted = formatter.format_archived(file).expect("a text");
        assert_eq!(formatted.text, ARCHIVED);
        assert!(formatted.comments_left.is_empty());
        assert!(formatter.format_file(file).is_err());
    }
}

/// Of a list in order both are alike.
#[test]
fn a_list_in_order_is_formatted_alike() {
    for comments in [vec![], vec![FIRST], vec![FIRST, SECOND]] {
        let image = encode(&tree(), &comments).expect("in order");
        let file = File::new(SOURCE, &image);
        let mut formatter = Formatter::new();
        let by_archive = formatter.format_archived(file).expect("a text");
        let by_archive = by_archive.text.to_owned();
        let plain = formatter.format_file(file).expect("a text");
        assert_eq!(plain.text, by_archive);
    }
}

/// The archive entry refuses what else 7 does, and all that `layout` does.
#[test]
fn the_archive_entry_refuses_the_rest() {
    let mut image = backwards(Version::One);
    let all = LayoutArgs::up_to(2).with_close(true);
    let fresh = LayoutState::default();
    let lay = |source: &str, image: &[u8], state: &LayoutState| {
        let file = File::new(source, image);
        let mut store = [7; 50 * ROW];
        let options = Options::default();
        let answer = layout_archived(file, &mut store, state, &all, &options);
        assert!(answer.is_ok() || store == [7; 50 * ROW]);
        answer.map(|laid| laid.comments_left)
    };
    assert_eq!(lay(SOURCE, &image, &fresh), Ok(0));
    assert_eq!(
        lay("", &image, &fresh),
        Err(Refusal::BadComment { at: LIST })
    );
    assert_eq!(lay(SOURCE, &image[..9], &fresh), Err(Refusal::NoImage));
    let mut closed = fresh.clone();
    closed.closed = true;
    assert_eq!(lay(SOURCE, &image, &closed), Err(Refusal::BadState));
    let two = backwards(Version::Two);
    assert_eq!(lay(SOURCE, &two, &fresh), Err(Refusal::BadRule));
    // The second comment becomes empty.
    image[LIST + PAIR + 7] = image[LIST + PAIR + 3];
    assert_eq!(lay(SOURCE, &image, &fresh), Err(UNORDERED));
}

/// A run that mixes both entries gives the rows of one, and its text.
#[test]
fn both_entries_in_one_run() {
    let image = encode(&tree(), &[FIRST, SECOND]).expect("in order");
    let file = File::new(SOURCE, &image);
    let options = Options::default();
    let calls = [layout_archived, layout];
    let mut stores = Vec::new();
    for first in [0, 1] {
        let mut store = [0; 50 * ROW];
        let mut state = LayoutState::default();
        for (turn, stop) in [0, 1, 2, 2].into_iter().enumerate() {
            let args = LayoutArgs::up_to(stop).with_close(turn == 3);
            let call = calls[(turn + first) % 2];
            let laid = call(file, &mut store, &state, &args, &options);
            state = laid.expect("laid out").state;
        }
        let rows = RenderArgs::up_to(state.next_row);
        let (mut marks, mut output) = ([0; 50], [0; 200]);
        let fresh = RenderState::default();
        let written = calls::render(
            file,
            &mut store,
            &mut marks,
            &mut output,
            &fresh,
            &rows,
            &options,
        );
        let bytes = written.expect("rendered").bytes;
        let due = fmt_parsed(
            &tree(),
            SOURCE,
            &Extras {
                comments: vec![FIRST, SECOND],
            },
        );
        assert_eq!(output[..bytes], *due.expect("a text").text.as_bytes());
        stores.push((store, state));
    }
    assert_eq!(stores[0], stores[1]);
}

/// A strict call in a run that the archive entry has begun.
#[test]
fn no_state_holds_the_entry() {
    let image = backwards(Version::One);
    let file = File::new(SOURCE, &image);
    let options = Options::default();
    let mut store = [0; 50 * ROW];
    let fresh = LayoutState::default();
    let args = LayoutArgs::up_to(1);
    let laid = layout_archived(file, &mut store, &fresh, &args, &options);
    let state = laid.expect("laid out").state;
    let args = LayoutArgs::up_to(2);
    let answer = layout(file, &mut store, &state, &args, &options);
    assert_eq!(answer, Err(UNORDERED));
    let answer = layout_archived(file, &mut store, &state, &args, &options);
    assert!(answer.is_ok());
}

#[test]
fn moves_take_archived_lists() {
    let image = backwards(Version::One);
    let file = File::new(SOURCE, &image);
    let kept = archive::forward(file).expect("moved");
    assert_eq!(kept, backwards(Version::Two));
    assert_eq!(archive::back(File::new(SOURCE, &kept)), Ok(image));
}

/// The encoder says which, and where the one before ends.
#[test]
fn the_encoder_refuses_them() {
    for version in [Version::One, Version::Two] {
        let refused = |comments: &[Span]| {
            encode_as(version, &tree(), comments).expect_err("unordered")
        };
        for (span, end_before) in [(18..22, 27), (26..27, 27), (23..27, 27)] {
            let due = EncodeError::UnorderedComment {
                index: 2,
                span: span.clone(),
                end_before,
            };
            assert_eq!(refused(&[0..1, SECOND, span.clone()]), due);
            assert_eq!(due.span(), Some(span));
        }
        // What is wrong with a comment by itself comes first, and the first
        // comment at fault.
        let due = EncodeError::BadComment {
            index: 1,
            span: 5..5,
        };
        assert_eq!(refused(&[SECOND, 5..5, FIRST]), due);
        let touching = [18..22, 22..23, 23..27];
        assert!(encode_as(version, &tree(), &touching).is_ok());
    }
    let extras = Extras {
        comments: vec![SECOND, FIRST],
    };
    let error = fmt_parsed(&tree(), SOURCE, &extras).expect_err("refused");
    let (cause, span, words) = refused(error);
    assert!(matches!(cause, Cause::Encode(_)), "{cause:?}");
    assert_eq!(span, FIRST);
    assert_eq!(
        words,
        "line 1, column 19: comment 1 at 18..22 starts before 27, where the \
         one before it ends"
    );
}

/// The builder turns such a step down at once, and so does the proved writer.
#[test]
fn the_builder_refuses_them() {
    let mut builder = Builder::new();
    builder.comment(5..9).expect("the first");
    for span in [0..4, 4..6, 5..9, 8..20] {
        let answer = builder.comment(span).map(|_| ());
        assert_eq!(answer, Err(Refusal::BadStep { at: 9 }));
    }
    builder.comment(9..10).expect("it may touch");
    builder.open(kind::TREE, 0..0).expect("the tree");
    builder.absent().expect("no shebang");
    builder.close().expect("its end");
    let image = builder.finish().expect("an image");
    assert_eq!(
        check(File::new("0123456789", &image)).map(|a| a.comments),
        Ok(2)
    );
    // The same list with its first two steps exchanged.
    let mut list = builder.list().to_vec();
    list[..18].rotate_left(9);
    let answer = generator::write_image(&list, &mut [0; 50]);
    assert_eq!(answer, Err(Refusal::BadStep { at: 9 }));
}
