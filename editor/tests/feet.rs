//! Request 4: comments after the last declaration, a filing reference at the
//! foot among them, are kept by default; left out, they are named.

mod support;

use rrufthim::{
    Comments, CommentsLeft, File, Formatted, Formatter, InParts, Options,
    Place, Refusal,
    ast::*,
    calls::{LayoutArgs, LayoutState, format_file, layout},
    encode, fmt_parsed, fmt_written, simple_width, write_tree,
};

use support::{
    Buffers, DECLARATIONS, SOURCE, Whole, constants, tariff, tariff_image,
};

const FOOT: &str = "// Filing reference 44-B.\n";

/// Each choice, its mode, and how many comments of the tariff it leaves.
fn choices() -> [(Options, usize, usize); 2] {
    [(Options::AS_ROTO, 0, 1), (Options::default(), 1, 0)]
}

/// What is written of a tree of the crate's.
fn written(
    tree: &SyntaxTree,
    source: &str,
    extras: &Extras,
    options: &Options,
) -> Formatted {
    let formatted = fmt_written(source, options, |out| {
        write_tree(out, tree, &extras.comments, simple_width)
    });
    formatted.expect("a text")
}

fn extras(comments: &[Span]) -> Extras {
    let comments = comments.to_vec();
    Extras { comments }
}

/// With all comments, then as Roto's own formatter has it.
fn both(source: &str, comments: &[Span]) -> [Formatted; 2] {
    let (tree, extras) = (constants(source), extras(comments));
    let kept = fmt_parsed(&tree, source, &extras).expect("a text");
    [kept, written(&tree, source, &extras, &Options::AS_ROTO)]
}

#[test]
fn the_default_keeps_the_last_line() {
    let default = Options::default();
    assert_eq!((default.width, default.comments), (80, Comments::All));
    let (tree, extras) = tariff();
    let kept = fmt_parsed(&tree, SOURCE, &extras).expect("a text");
    assert!(kept.text.ends_with(&format!("}}\n{FOOT}")), "{}", kept.text);
    assert!(kept.comments_left.is_empty());
    let roto = written(&tree, SOURCE, &extras, &Options::AS_ROTO);
    assert_eq!(format!("{}{FOOT}", roto.text), kept.text);
    let [left] = &roto.comments_left[..] else {
        panic!("{roto:?}");
    };
    assert_eq!(&SOURCE[left.span.clone()], FOOT);
    assert_eq!(left.to_string(), "line 7, column 1");
    assert_eq!(
        roto.clone().complete(),
        Err(CommentsLeft(vec![left.clone()]))
    );
    assert_eq!(kept.clone().complete(), Ok(kept.text));
}

/// The comments that a text lacks.
fn spans(formatted: &Formatted) -> Vec<Span> {
    let places = formatted.comments_left.iter();
    places.map(|place| place.span.clone()).collect()
}

/// Line and column are those of each comment by itself, in whatever order
/// they come; where the text is asked for alone, the first is named.
#[test]
fn comments_that_are_dropped_have_places() {
    let source = "const A: u32 = 1; // é\n\n// a\n// b, ünd // c\n";
    let comments = [18..24, 25..30, 30..39, 39..44];
    let [_, roto] = both(source, &comments);
    assert_eq!(spans(&roto), comments);
    let due = comments.map(|span| Place::new(source.as_bytes(), span));
    assert_eq!(roto.comments_left, due);
    let shown = roto.comments_left.iter().map(Place::to_string);
    let due = ["1, column 19", "3, column 1", "4, column 1", "4, column 9"];
    assert_eq!(
        shown.collect::<Vec<_>>(),
        due.map(|it| format!("line {it}"))
    );
    let left = roto.complete().expect_err("dropped").to_string();
    let due = "the formatted text drops 4 comments, the first at line 1, \
        column 19";
    assert_eq!(left, due);
    let [_, one] = both("# ok", &[0..4]);
    let left = one.complete().expect_err("dropped").to_string();
    let due = "the formatted text drops the comment at line 1, column 1";
    assert_eq!(left, due);
}

/// The second answers of document 02, beside those of document 01.
#[test]
fn second_answers() {
    let [kept, roto] = both("const A: u32 = 1; # ok\n", &[18..23]);
    assert_eq!(kept.text, "const A: u32 = 1; # ok\n");
    assert!(kept.comments_left.is_empty());
    assert_eq!(roto.text, "const A: u32 = 1;\n");
    assert_eq!(spans(&roto), [18..23]);
    let [kept, roto] = both("# ok\n", &[0..5]);
    assert_eq!((&kept.text[..], spans(&kept)), ("# ok\n", vec![]));
    assert_eq!((&roto.text[..], spans(&roto)), ("", vec![0..5]));
}

/// Blank lines before a comment at the foot are one, behind it none, and none
/// comes first in a file that declares nothing.
#[test]
fn blank_lines_at_the_foot() {
    let source = "const A: u32 = 1;\n\n\n\n# a\n# b\n\n\n";
    let [kept, _] = both(source, &[21..25, 25..29]);
    assert_eq!(kept.text, "const A: u32 = 1;\n\n# a\n# b\n");
    let [kept, _] = both("\n\n\n# a\n\n\n# b", &[3..7, 9..12]);
    assert_eq!(kept.text, "# a\n\n# b\n");
    let [kept, roto] = both("const A: u32 = 1;\n\n\n", &[]);
    assert_eq!(kept, roto);
}

/// A text that is formatted again stays as it is.
#[test]
fn a_foot_stays() {
    let source = "const A: u32 = 1;\n\n# a\n# b\n";
    let [kept, _] = both(source, &[19..23, 23..27]);
    assert_eq!(kept.text, source);
}

/// The doors agree on the text and on what it lacks.
#[test]
fn every_door_takes_the_choice() {
    let image = tariff_image();
    let (tree, extras) = tariff();
    let file = File::new(SOURCE, &image);
    for (options, mode, left) in choices() {
        let due = written(&tree, SOURCE, &extras, &options);
        assert_eq!(due.comments_left.len(), left);
        let mut formatter = Formatter::new().with_options(options.clone());
        assert_eq!(formatter.options(), &options);
        let got = formatter.format_file(file).expect("a text");
        assert_eq!(got.into_owned(), due);
        let got = formatter.format_tree(&tree, SOURCE, &extras);
        assert_eq!(got.expect("a text").into_owned(), due);
        let mut output = vec![0; 4_000];
        let whole = format_file(file, &options, &mut output);
        let whole = Whole::from(whole.expect("a text"));
        assert_eq!(&output[..whole.bytes], due.text.as_bytes());
        assert_eq!(whole.comments_left, left);
        let two = Buffers::ample().format_as(file, &options);
        assert_eq!(two, Ok(whole));
        let parts = InParts::new(file).expect("accepted");
        let mut parts = parts.with_options(options);
        let mut text = String::new();
        while let Some(part) = parts.advance(1).expect("a part") {
            text.push_str(part);
        }
        assert_eq!(text, due.text);
        assert_eq!(parts.comments_left(), due.comments_left);
        assert_eq!(parts.layout_state().mode, mode);
    }
}

/// The formatter that a thread keeps doesn't keep its options.
#[test]
fn a_choice_is_for_one_call() {
    let (tree, extras) = tariff();
    let roto = written(&tree, SOURCE, &extras, &Options::AS_ROTO);
    assert_eq!(roto.comments_left.len(), 1);
    let kept = fmt_parsed(&tree, SOURCE, &extras).expect("a text");
    assert_eq!(kept.comments_left.len(), 0);
}

/// One choice for a run, that of its accepted calls; a call that lays nothing
/// chooses too.
#[test]
fn a_run_has_one_choice() {
    let image = tariff_image();
    let file = File::new(SOURCE, &image);
    let store = &mut Buffers::ample().store;
    let mut call = |state: &LayoutState, stop, options: &Options| {
        let close = stop == DECLARATIONS;
        let args = LayoutArgs::up_to(stop).with_close(close);
        layout(file, store, state, &args, options)
    };
    let fresh = LayoutState::default();
    for (options, mode, left) in choices() {
        let (other, ..) = &choices()[1 - mode];
        let begun = call(&fresh, 0, &options).expect("accepted").state;
        assert_eq!(begun.mode, mode);
        let refused = call(&begun, DECLARATIONS, other);
        assert_eq!(refused, Err(Refusal::BadState));
        let closed = call(&begun, DECLARATIONS, &options);
        assert_eq!(closed.expect("accepted").comments_left, left);
        // No call left such states.
        for mode in [2, usize::MAX] {
            let mut state = begun.clone();
            state.mode = mode;
            let refused = call(&state, DECLARATIONS, &options);
            assert_eq!(refused, Err(Refusal::BadState));
        }
        let mut early = fresh.clone();
        early.mode = 1;
        assert_eq!(call(&early, 1, &options), Err(Refusal::BadState));
    }
    let words = Refusal::BadState.to_string();
    assert!(words.contains("comments at the foot"), "{words}");
}

/// As many comments as a file may have, all of them at the foot.
#[test]
fn the_longest_foot() {
    let count = rrufthim::limits::MAX_COMMENTS;
    let source = "#\n".repeat(count);
    let comments: Vec<Span> = (0..count).map(|n| 2 * n..2 * n + 1).collect();
    let image = encode(&SyntaxTree::default(), &comments).expect("an image");
    let mut formatter = Formatter::new();
    let kept = formatter.format_file(File::new(&source, &image));
    let kept = kept.expect("a text");
    assert_eq!((kept.text, kept.comments_left.len()), (&source[..], 0));
}
