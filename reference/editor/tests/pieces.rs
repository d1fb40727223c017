//! Files rendered so many rows at a time: the original's text.

use judge::{
    choice::Choice,
    frame::{self, Frame},
    generate::{self, Class},
    mode::NEW,
    program::{self, Widths},
};
use rrufthim::{File, InParts};

const SEED: u64 = 17;
const FRAMES: u64 = 40;

/// The text of a file whose declarations are laid out one by one, each
/// rendered in pieces.
fn in_pieces(frame: Frame, rows: usize) -> (String, usize) {
    let source = std::str::from_utf8(frame.source).expect("accepted");
    let file = File::new(source, frame.image);
    let mut parts = InParts::new(file).expect("accepted");
    let (mut text, mut pieces) = (String::new(), 0);
    for stop in 0..=parts.declarations() {
        parts.lay_out(stop).expect("laid out");
        while !parts.is_rendered() {
            text += parts.render_rows(rows).expect("a piece");
            pieces += 1;
        }
    }
    (text, pieces)
}

#[test]
fn pieces_are_the_originals_text() {
    let choice = Choice {
        mode: NEW,
        ..Choice::REFERENCE
    };
    let mut tried = 0;
    for class in [Class::Realistic, Class::Wild, Class::Edges] {
        for bytes in generate::frames(class, SEED, FRAMES) {
            let frame = frame::split(&bytes).expect("a frame");
            let due = program::format_as(frame, Widths::Supplied, choice);
            let Ok(due) = due else {
                continue;
            };
            for rows in [1, 7, 100] {
                let (text, pieces) = in_pieces(frame, rows);
                assert_eq!(text, due.text, "{class:?}, {rows}");
                assert!(pieces * rows >= due.entered, "{class:?}, {rows}");
            }
            tried += 1;
        }
    }
    assert!(tried > FRAMES, "{tried}");
}
