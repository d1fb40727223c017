//! The gaps that the crate's `InParts` names make the blank lines of the text,
//! and no other gaps do.

use judge::{
    choice::Choice,
    frame::{self, Frame},
    generate::{self, Class},
    mode::NEW,
    program::{self, Widths},
    reader, script,
};
use rrufthim::{
    File, InParts, Options, Span,
    calls::{LayoutArgs, LayoutState, ROW, layout, newlines},
};

const SEED: u64 = 11;
const FRAMES: u64 = 2_000;

/// Two or more newlines make a blank line.
fn is_blank(source: &[u8], gap: Span) -> bool {
    newlines(source, gap).count >= 2
}

/// What a declaration gets in front of it, by its gaps and in the text.
#[derive(Debug, PartialEq, Eq)]
struct Before {
    gaps: Vec<Span>,
    blank_lines: usize,
}

/// Each declaration of a file whose comments start with `//`, and the text,
/// which is the original's.
fn declarations(frame: Frame) -> (Vec<Before>, String) {
    let file = File::new(frame.source, frame.image);
    let mut parts = InParts::new(file).expect("accepted");
    let mut text = String::new();
    if parts.declarations() > 0 {
        parts.lay_out(0).expect("the shebang");
        text.push_str(parts.render().expect("its line"));
    }
    let mut found = Vec::new();
    for stop in 1..=parts.declarations() {
        let gaps = parts.gaps();
        parts.lay_out(stop).expect("in order");
        let part = parts.render().expect("a part");
        let lines = part.split('\n').skip((stop > 1).into());
        let is_before =
            |line: &&str| line.is_empty() || line.starts_with("//");
        let before = lines.take_while(is_before);
        let blank_lines = before.filter(|line| line.is_empty()).count();
        text.push_str(part);
        found.push(Before { gaps, blank_lines });
    }
    assert!(parts.gaps().is_empty());
    while let Some(part) = parts.advance(1).expect("the end") {
        text.push_str(part);
    }
    let choice = Choice {
        mode: NEW,
        ..Choice::REFERENCE
    };
    let due = program::format_as(frame, Widths::Supplied, choice);
    assert_eq!(text, due.expect("accepted").text);
    (found, text)
}

/// The gaps of a text that hold two newlines or more, each as the text in it.
/// They make the blank lines in front of each declaration, and there are no
/// others.
fn blank_gaps(source: &str) -> Vec<&str> {
    let bytes = script::frame(source).expect("it can be read");
    let frame = frame::split(&bytes).expect("a frame");
    let (declarations, text) = declarations(frame);
    let mut blank = Vec::new();
    for Before { gaps, blank_lines } in declarations {
        let known = blank.len();
        for gap in gaps {
            if is_blank(frame.source, gap.clone()) {
                blank.push(&source[gap]);
            }
        }
        assert_eq!(blank.len() - known, blank_lines, "{source}");
    }
    let all = text.lines().filter(|line| line.is_empty()).count();
    assert_eq!(blank.len(), all, "{text}");
    blank
}

/// The newlines between the end of one text and the start of another, which
/// look as if they made a blank line or none.
fn between(source: &str, end: &str, start: &str) -> usize {
    let end = source.find(end).expect("there") + end.len();
    let start = source.find(start).expect("there");
    newlines(source.as_bytes(), end..start).count
}

/// A blank line between the arms of a `match` goes: no gap is counted there.
#[test]
fn arms() {
    let source = "fn f(x: u32) -> u32 {\n    match x {\n        A => 1,\n\n        \
                  B => 2,\n    }\n}\nconst C: u32 = 1;\n";
    assert_eq!(between(source, "1,", "B"), 2);
    assert_eq!(blank_gaps(source), [""; 0]);
}

/// The gap starts at the name of the declaration before, so that a newline
/// inside that one counts.
#[test]
fn newline_inside() {
    let source = "const A: u32 =\n    a;\nconst B: u32 = 1;\n";
    assert_eq!(between(source, ";", "const B"), 1);
    assert_eq!(blank_gaps(source), ["A: u32 =\n    a;\nconst "]);
}

/// Comments part a gap; the newline at a comment's end belongs to the gap
/// behind it.
#[test]
fn comments_between() {
    let source = "const A: u32 = 1;\n// a\nconst B: u32 = 2;\n";
    assert_eq!(between(source, ";", "const B"), 2);
    assert_eq!(blank_gaps(source), [""; 0]);

    let source = "const A: u32 = 1;\n// a\n\nconst B: u32 = 2;\n";
    assert_eq!(between(source, "// a\n", "const B"), 1);
    assert_eq!(blank_gaps(source), ["\n\nconst "]);

    let source = "const A: u32 = 1;\n\n\n// a\n\n// b\nconst B: u32 = 2;\n";
    assert_eq!(blank_gaps(source), [";\n\n\n", "\n\n"]);
}

/// Up to the first comment of a file, or its first declaration, nothing is
/// counted.
#[test]
fn first() {
    assert_eq!(blank_gaps("\n\n\nimport a;\n"), [""; 0]);
    let source = "\n\n\n// a\n\n\nimport a;\n";
    assert_eq!(blank_gaps(source), ["\n\n\nimport "]);
}

/// As many blank lines stand before a declaration as gaps make them.
#[test]
fn generated_texts() {
    let [mut blank, mut other] = [0, 0];
    for bytes in generate::frames(Class::Realistic, SEED, FRAMES) {
        let frame = frame::split_any_size(&bytes).expect("a frame");
        for Before { gaps, blank_lines } in declarations(frame).0 {
            let all = gaps.len();
            let gaps = gaps.into_iter();
            let due = gaps.filter(|gap| is_blank(frame.source, gap.clone()));
            assert_eq!(due.count(), blank_lines);
            blank += blank_lines;
            other += all - blank_lines;
        }
    }
    assert!(blank > 1_000 && other > 1_000, "{blank}, {other}");
}

const COMMENT: u32 = 4;
const LINE: u32 = 7;
const EMPTY_LINE: u32 = 8;

/// The kinds of the rows in front of a declaration, by its gaps.
fn kinds(source: &[u8], gaps: &[Span], first: bool) -> Vec<u32> {
    let commented = gaps.len() > (!first).into();
    let mut kinds = Vec::new();
    for (place, gap) in gaps.iter().enumerate() {
        if place > 0 || first {
            kinds.push(COMMENT);
        }
        match newlines(source, gap.clone()).count {
            0 if commented => (),
            0 | 1 => kinds.push(LINE),
            _ => kinds.push(EMPTY_LINE),
        }
    }
    kinds
}

/// Whatever spans and comments are, the rows in front of a declaration are
/// those that its gaps make.
#[test]
fn generated_rows() {
    let mut blank = 0;
    for class in [Class::Realistic, Class::Wild, Class::Edges] {
        for bytes in generate::frames(class, SEED, FRAMES) {
            let frame = frame::split_any_size(&bytes).expect("a frame");
            // A part at a time no list is taken that runs backwards.
            if reader::read(frame.source, frame.image).is_err() {
                continue;
            }
            let rows = rows(frame);
            let is_blank = |kind: &&u32| **kind == EMPTY_LINE;
            blank += rows.iter().filter(is_blank).count();
        }
    }
    assert!(blank > 1_500, "{blank}");
}

/// The kinds of the rows in front of all declarations.
fn rows(Frame { source, image }: Frame) -> Vec<u32> {
    let file = File::new(source, image);
    let mut parts = InParts::new(file).expect("accepted");
    let mut store = vec![0; ROW * (5 * image.len() / 13 + 1)];
    let lay_out = |state: &LayoutState, stop, rows: &mut [u32]| {
        let args = LayoutArgs::up_to(stop);
        let laid = layout(file, rows, state, &args, &Options::default());
        laid.expect("accepted").state
    };
    // The shebang's rows.
    let mut state = lay_out(&LayoutState::default(), 0, &mut store);
    let mut all = Vec::new();
    for stop in 1..=parts.declarations() {
        let due = kinds(source, &parts.gaps(), stop == 1);
        parts.lay_out(stop).expect("in order");
        let next = lay_out(&state, stop, &mut store);
        let rows = store.chunks(ROW).skip(state.next_row);
        let found = rows.map(|row| row[0]).take(due.len());
        assert_eq!(found.collect::<Vec<_>>(), due);
        state = next;
        all.extend(due);
    }
    all
}
