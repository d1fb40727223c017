//! Renderings in pieces of so many rows (request 12).

mod support;

use rrufthim::{
    Cause, File, Formatter, InParts, Options, Refusal, Rendering,
    calls::{LayoutArgs, LayoutState, ROW, RenderArgs, layout},
    limits::{ALL_ROWS, MAX_LISTED_ROWS},
};
use support::{DECLARATIONS, SOURCE, tariff_image};

/// A file that is laid out whole: its store, and how many rows it has.
fn laid(file: File<'_>) -> (Vec<u32>, usize) {
    let mut store = vec![0; 2_000 * ROW];
    let args = LayoutArgs::up_to(file.declarations()).with_close(true);
    let (fresh, options) = (LayoutState::default(), Options::default());
    let laid = layout(file, &mut store, &fresh, &args, &options);
    (store, laid.expect("room enough").state.next_row)
}

fn in_one_go(file: File<'_>) -> String {
    let mut formatter = Formatter::new();
    let formatted = formatter.format_file(file).expect("a text");
    formatted.text.to_owned()
}

/// The tariff in pieces of 1, 7 and 100 rows is the save in one go, with the
/// same marks and state in the end.
#[test]
fn the_pieces_are_the_whole() {
    let image = tariff_image();
    let file = File::new(SOURCE, &image);
    let options = Options::default();
    let due = in_one_go(file);
    let (mut store, rows) = laid(file);
    let mut output = vec![0; 10_000];
    let mut ends = Vec::new();
    let mut all_entered = Vec::new();
    for each in [ALL_ROWS, 1, 7, 100] {
        let mut rendering = Rendering::new();
        let args = RenderArgs::up_to(rows).with_allotment(each);
        let (mut text, mut entered, mut inside) = (Vec::new(), 0, 0);
        while !rendering.is_done(rows) {
            let piece = rendering
                .piece(file, &mut store, &mut output, &args, &options)
                .expect("room enough");
            text.extend(&output[..piece.bytes]);
            let is_last = rendering.is_done(rows);
            assert!(piece.entered == each || is_last, "{each}");
            entered += piece.entered;
            inside += usize::from(!piece.state.listed.is_empty());
            assert!(piece.state.listed.len() < MAX_LISTED_ROWS);
        }
        assert_eq!(String::from_utf8(text).expect("UTF-8"), due);
        assert_eq!(inside > 0, each < 10, "{each}: {inside}");
        ends.push(rendering.state().clone());
        all_entered.push(entered);
    }
    assert!(ends.iter().all(|end| *end == ends[0]), "{ends:?}");
    assert_eq!(ends[0].listed, []);
    assert_eq!((ends[0].indent, ends[0].next_indent), (0, 0));
    assert!(all_entered.iter().all(|one| *one == all_entered[0]));
    // An `IfWrap` leaves out a part of its rows.
    assert!(all_entered[0] < rows, "{all_entered:?} of {rows}");
}

/// A piece that is refused for its room (10) is asked again with more and the
/// same state; one that is kept elsewhere goes on there.
#[test]
fn a_refused_piece_is_asked_again() {
    let image = tariff_image();
    let file = File::new(SOURCE, &image);
    let options = Options::default();
    let (mut store, rows) = laid(file);
    let args = RenderArgs::up_to(rows).with_allotment(7);
    let mut rendering = Rendering::new();
    let (mut text, mut refused) = (Vec::new(), 0);
    let mut output = Vec::new();
    while !rendering.is_done(rows) {
        let before = rendering.clone();
        let answer =
            rendering.piece(file, &mut store, &mut output, &args, &options);
        match answer {
            Ok(piece) => {
                text.extend(&output[..piece.bytes]);
                output.clear();
                let state = rendering.state().clone();
                let marks = rendering.marks().to_vec();
                rendering = Rendering::resumed(state, marks);
            }
            Err(Refusal::MoreOutput { needed }) => {
                assert_eq!(rendering.state(), before.state());
                assert!(output.len() < needed);
                output.resize(needed, 0);
                refused += 1;
            }
            Err(other) => panic!("{other}"),
        }
    }
    assert_eq!(String::from_utf8(text).expect("UTF-8"), in_one_go(file));
    assert!(refused > 3, "{refused}");
}

/// Parts that are laid out declaration by declaration, each rendered a few rows
/// at a time.
#[test]
fn parts_in_pieces() {
    let image = tariff_image();
    let file = File::new(SOURCE, &image);
    let mut parts = InParts::new(file).expect("accepted");
    let (mut text, mut pieces) = (String::new(), 0);
    for stop in 1..=DECLARATIONS {
        parts.lay_out(stop).expect("laid out");
        while !parts.is_rendered() {
            text += parts.render_rows(5).expect("a piece");
            pieces += 1;
        }
    }
    assert_eq!(text, in_one_go(file));
    assert!(pieces > 2 * DECLARATIONS, "{pieces}");
    assert_eq!(parts.render_rows(5), Ok(""));
}

/// No row is no piece, and rows that don't enclose the next one are refused.
#[test]
fn what_is_refused() {
    let image = tariff_image();
    let file = File::new(SOURCE, &image);
    let options = Options::default();
    let (mut store, rows) = laid(file);
    let mut output = vec![0; 10_000];
    let args = RenderArgs::up_to(rows);
    let mut call = |rendering: &mut Rendering, allotment| {
        let args = args.clone().with_allotment(allotment);
        rendering.piece(file, &mut store, &mut output, &args, &options)
    };
    let mut rendering = Rendering::new();
    let none = call(&mut rendering, 0);
    assert_eq!(none, Err(Refusal::NoAllotment));
    while rendering.state().listed.is_empty() {
        call(&mut rendering, 1).expect("a row");
    }
    let marks = rendering.marks().to_vec();
    let state = rendering.state().clone();
    let right = Rendering::resumed(state.clone(), marks.clone());
    assert!(call(&mut right.clone(), ALL_ROWS).is_ok());
    let mut other = state.clone();
    other.listed.push(other.listed[0].clone());
    let mut far = state.clone();
    far.listed[0].row = usize::MAX;
    let mut many = state;
    many.listed = vec![many.listed[0].clone(); MAX_LISTED_ROWS + 1];
    for state in [other, far, many] {
        let mut wrong = Rendering::resumed(state, marks.clone());
        let answer = call(&mut wrong, ALL_ROWS);
        assert_eq!(answer, Err(Refusal::BadListedRows));
    }
    let mut parts = InParts::new(file).expect("accepted");
    parts.lay_out(DECLARATIONS).expect("all");
    let error = parts.render_rows(0).expect_err("no row");
    assert_eq!(error.cause, Cause::Refused(Refusal::NoAllotment));
}
