//! Request 3: lines of 40 to 200 columns, through every door.

mod support;

use rrufthim::{
    Cause, File, FormatError, Formatted, Formatter, InParts, Options,
    Refusal,
    ast::*,
    calls::{LayoutState, RenderState, format_file, layout},
    encode, fmt_parsed, fmt_written, simple_width, write_tree,
};

use support::{Buffers, all};

const SOURCE: &str = "import rates.{aaaaaaaaaa, bbbbbbbbbb, cccccccccc, \
    dddddddddd, eeeeeeeeee, ffffffffff, gggggggggg, hhhhhhhhhh};\n";

/// The columns up to the semicolon, which isn't counted.
const COLUMNS: usize = SOURCE.len() - 2;

/// The tree of the source: an import of a group.
fn tree() -> SyntaxTree {
    let name = |span: Span| {
        let ident = Meta::new(SOURCE[span.clone()].into(), span.clone());
        let idents = vec![ident];
        Meta::new(Path { idents }, span)
    };
    let import = |span: Span, group| {
        let path = Some(name(span.clone()));
        Meta::new(ImportPath { path, group }, span)
    };
    let named = (0..8).map(|place| 14 + 12 * place);
    let group = named.map(|at| import(at..at + 10, None)).collect();
    let all = 7..SOURCE.len() - 2;
    let group = Some(Meta::new(group, 13..all.end));
    let Meta { node, .. } = import(7..12, group);
    SyntaxTree {
        shebang: None,
        declarations: vec![Declaration::Import(Meta::new(node, all))],
    }
}

fn image() -> Vec<u8> {
    encode(&tree(), &[]).expect("within the limits")
}

fn at(width: usize) -> Options {
    Options::default().with_width(width)
}

fn written_at(width: usize) -> Result<Formatted, FormatError> {
    fmt_written(SOURCE, &at(width), |out| {
        write_tree(out, &tree(), &[], simple_width)
    })
}

fn text_at(width: usize) -> String {
    written_at(width).expect("a text").text
}

#[test]
fn a_line_as_wide_as_chosen_stays() {
    assert_eq!(text_at(COLUMNS), SOURCE);
    assert_eq!(text_at(200), SOURCE);
    for width in [40, 80, 100, COLUMNS - 1] {
        let text = text_at(width);
        assert_eq!(text.lines().count(), 10, "{width}: {text}");
    }
}

#[test]
fn the_default_is_the_reference() {
    let plain = fmt_parsed(&tree(), SOURCE, &Extras::default());
    assert_eq!(plain.expect("a text").text, text_at(80));
    assert_eq!(Options::default(), at(80));
}

fn refused(answer: Result<Formatted<impl AsRef<str>>, FormatError>) -> bool {
    let cause = answer.err().map(|error| error.cause);
    cause == Some(Cause::Refused(Refusal::BadWidth))
}

/// The doors agree on the text.
#[test]
fn every_door_takes_the_width() {
    let image = image();
    let file = File::new(SOURCE, &image);
    let mut formatter = Formatter::new();
    let mut output = vec![0; 4_000];
    for width in [40, 57, 80, 100, COLUMNS - 1, COLUMNS, 200] {
        let due = text_at(width);
        formatter = formatter.with_options(at(width));
        let got = formatter.format_file(file).expect("a text");
        assert_eq!(got.text, due);
        let written = format_file(file, &at(width), &mut output);
        let bytes = written.expect("a text").bytes;
        assert_eq!(&output[..bytes], due.as_bytes());
        let parts = InParts::new(file).expect("accepted");
        let mut parts = parts.with_options(at(width));
        let mut text = String::new();
        while let Some(part) = parts.advance(1).expect("a part") {
            text.push_str(part);
        }
        assert_eq!(text, due);
        assert_eq!(parts.render_state().width, width);
    }
}

/// All of them refuse by 15.
#[test]
fn every_door_refuses_other_widths() {
    let image = image();
    let file = File::new(SOURCE, &image);
    let mut formatter = Formatter::new();
    let mut output = vec![0; 4_000];
    for width in [0, 39, 201, usize::MAX] {
        formatter = formatter.with_options(at(width));
        assert!(refused(formatter.format_file(file)));
        assert!(refused(written_at(width)));
        let written = format_file(file, &at(width), &mut output);
        assert_eq!(written, Err(Refusal::BadWidth));
        let parts = InParts::new(file).expect("accepted");
        let error = parts.with_options(at(width)).advance(1).unwrap_err();
        assert_eq!(error.cause, Cause::Refused(Refusal::BadWidth));
    }
}

/// The formatter that a thread keeps doesn't keep its options.
#[test]
fn a_choice_is_for_one_call() {
    let plain = || fmt_parsed(&tree(), SOURCE, &Extras::default());
    let due = text_at(80);
    assert_ne!(text_at(200), due);
    assert_eq!(plain().expect("a text").text, due);
    let none = fmt_written(SOURCE, &at(7), |_| Ok(()));
    assert!(none.is_err());
    assert_eq!(plain().expect("a text").text, due);
}

/// One width for a run, that of its accepted calls; an empty one chooses too.
#[test]
fn a_run_has_one_width() {
    let image = image();
    let file = File::new(SOURCE, &image);
    let mut buffers = Buffers::ample();
    let fresh = LayoutState::default();
    let laid = layout(file, &mut buffers.store, &fresh, &all(1), &at(100));
    let rows = laid.expect("accepted").state.next_row;
    let mut call = |state: &RenderState, stop, width| {
        buffers.render(file, state, stop, &at(width))
    };
    let fresh = RenderState::default();
    let empty = call(&fresh, 0, 100).expect("accepted");
    assert_eq!(empty.bytes, 0);
    assert_eq!(empty.state.width, 100);
    assert_eq!(call(&empty.state, rows, 80), Err(Refusal::BadWidth));
    let all = call(&empty.state, rows, 100).expect("accepted");
    assert_eq!(all.bytes, text_at(100).len());
    let mut seven = fresh;
    seven.width = 7;
    for width in [7, 40, 80] {
        assert_eq!(call(&seven, rows, width), Err(Refusal::BadWidth));
    }
}

/// 15 comes after what is wrong with the image, and before 10.
#[test]
fn a_whole_file_reads_one_table() {
    let image = image();
    let file = File::new(SOURCE, &image);
    let cut_off = File::new(SOURCE, &image[..image.len() - 1]);
    let none = &mut [];
    let got = format_file(cut_off, &at(39), none);
    assert_eq!(got, Err(Refusal::NoImage));
    let got = format_file(file, &at(39), none);
    assert_eq!(got, Err(Refusal::BadWidth));
    let got = format_file(file, &at(40), none);
    assert!(matches!(got, Err(Refusal::MoreOutput { .. })));
}
