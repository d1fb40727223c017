//! Calls, their refusals, and the cut rule on the original itself.

use judge::{
    allotment::ALL_ROWS,
    calls::{
        self, Answer, Call, Given, LayoutArgs, LayoutState, RenderArgs,
        RenderState, World,
    },
    driver::{Page, Pen, Start, Texts, render_rows},
    examples,
    frame::{self, Frame},
    generate::{self, CallCase, Class},
    mode::{NEW, OLD},
    program::{self, Widths},
    rows::{self, Row},
    rule::SUPPLIED,
    width::REFERENCE,
};

const SEED: u64 = 5;

/// The two constants with a comment between: 21 rows, 2 group numbers.
fn two_constants() -> Vec<u8> {
    examples::frame("two-consts").unwrap()
}

fn world(rows: usize, marks: usize) -> World {
    World {
        store: vec![0xDEAD; rows * Row::CELLS + 2],
        marks: vec![9; marks],
        ..World::default()
    }
}

fn given<'g>(frame: &Frame<'g>) -> Given<'g> {
    Given {
        source: frame.source,
        image: frame.image,
    }
}

fn layout(stop: usize, close: bool) -> Call {
    layout_in(OLD, stop, close)
}

fn layout_in(mode: usize, stop: usize, close: bool) -> Call {
    Call::Layout(LayoutArgs {
        stop,
        close,
        mode,
        rule: SUPPLIED,
        archive: false,
    })
}

fn render(stop: usize) -> Call {
    render_at(REFERENCE, stop)
}

fn render_at(width: usize, stop: usize) -> Call {
    Call::Render(RenderArgs {
        stop,
        room: 1_000,
        width,
        rule: SUPPLIED,
        allotment: ALL_ROWS,
    })
}

/// Number and place of each refusal, or `None`.
fn refusals(world: &mut World, calls: &[Call]) -> Vec<Option<(u8, u64)>> {
    let bytes = two_constants();
    let frame = frame::split(&bytes).unwrap();
    let answers = calls::run(given(&frame), world, calls);
    let number = |answer: Result<Answer, judge::refusal::Refusal>| {
        answer.err().map(|refusal| (refusal.number, refusal.place))
    };
    answers.into_iter().map(number).collect()
}

#[test]
fn layout_and_rendering_in_pieces() {
    let bytes = two_constants();
    let run = program::answer(&bytes, Widths::Supplied).unwrap();
    let mut world = world(25, 3);
    let calls = [
        layout(0, false),
        layout(1, false),
        render(9),
        layout(1, false),
        layout(2, false),
        layout(2, true),
        render(20),
        render(21),
    ];
    assert_eq!(refusals(&mut world, &calls), [None; 8]);
    assert_eq!(world.text, run.text.as_bytes());
    assert_eq!(world.rows(21), run.rows);
    assert_eq!(world.store[21 * Row::CELLS..], [0xDEAD; 4 * 9 + 2]);
    assert_eq!(world.marks, [0, 0, 9]);
    assert_eq!(world.laying.at, run.closed);
    assert!(world.laying.closed);
}

#[test]
fn refused_calls_leave_all_as_it_was() {
    let mut world_ = world(20, 1);
    let calls = [layout(2, true), layout(3, false), layout(1, true)];
    let refused = [Some((8, 21)), Some((12, 0)), Some((12, 0))];
    assert_eq!(refusals(&mut world_, &calls), refused);
    assert_eq!(world_, world(20, 1));
    let calls = [layout(2, false), layout(1, false), layout(2, true)];
    let refused = [None, Some((12, 0)), Some((8, 21))];
    assert_eq!(refusals(&mut world_, &calls), refused);
    let before = world_.clone();
    let short = Call::Render(RenderArgs {
        stop: 9,
        room: 16,
        width: REFERENCE,
        rule: SUPPLIED,
        allotment: ALL_ROWS,
    });
    let calls = [render(20), render(21), short];
    let refused = [Some((9, 2)), Some((11, 0)), Some((10, 17))];
    assert_eq!(refusals(&mut world_, &calls), refused);
    assert_eq!(world_, before);
}

#[test]
fn a_closed_layout_takes_no_more_calls() {
    let mut world = world(21, 2);
    let calls = [layout(2, true), layout(2, false), layout(2, true)];
    let refused = [None, Some((12, 0)), Some((12, 0))];
    assert_eq!(refusals(&mut world, &calls), refused);
}

#[test]
fn rendering_states_are_tested() {
    let mut laid = world(21, 2);
    refusals(&mut laid, &[layout(2, true)]);
    let with = |state: RenderState, marks: [u8; 2]| {
        let mut world = laid.clone();
        world.rendering = state;
        world.marks = marks.to_vec();
        refusals(&mut world, &[render(9)])[0]
    };
    let fresh = RenderState::default();
    assert_eq!(with(fresh, [9, 9]), None);
    let past = RenderState {
        next_row: 10,
        ..fresh
    };
    assert_eq!(with(past, [0, 0]), Some((12, 0)));
    let mut pen = fresh;
    (pen.pen.indent, pen.pen.next_indent, pen.pen.column) = (64, 64, 1 << 56);
    assert_eq!(with(pen, [0, 0]), None);
    pen.pen.column += 1;
    assert_eq!(with(pen, [0, 0]), Some((12, 0)));
    let marks = |marks_in_use| RenderState {
        marks_in_use,
        ..fresh
    };
    assert_eq!(with(marks(1), [1, 2]), None);
    assert_eq!(with(marks(2), [1, 2]), Some((12, 0)));
    assert_eq!(with(marks(3), [1, 1]), Some((12, 0)));
}

/// Each cause of 15, directly after 12 and before 9 and 10.
#[test]
fn widths_are_tested() {
    let mut laid = world(21, 2);
    refusals(&mut laid, &[layout(2, true)]);
    let with = |carried: usize, width: usize| {
        let mut world = laid.clone();
        world.rendering.width = carried;
        refusals(&mut world, &[render_at(width, 9)])[0]
    };
    let refused = Some((15, 0));
    for width in [0, 1, 39, 201, usize::MAX] {
        assert_eq!(with(0, width), refused, "{width}");
        assert_eq!(with(width, width), refused, "{width}");
    }
    for width in [40, 80, 100, 200] {
        assert_eq!(with(0, width), None, "{width}");
        assert_eq!(with(width, width), None, "{width}");
        assert_eq!(with(120, width), refused, "{width}");
        assert_eq!(with(7, width), refused, "{width}");
    }
    let mut world = laid;
    world.rendering.next_row = 10;
    assert_eq!(refusals(&mut world, &[render_at(39, 9)]), [Some((12, 0))]);
    world.rendering.next_row = 0;
    world.marks.clear();
    let calls = [render_at(39, 9), render(9)];
    assert_eq!(refusals(&mut world, &calls), [refused, Some((9, 1))]);
}

/// An accepted call chooses, also one that reads nothing; a refused one
/// doesn't.
#[test]
fn an_accepted_call_chooses_the_width() {
    let mut world = world(21, 2);
    let calls = [
        layout(2, true),
        render_at(201, 0),
        render_at(100, 0),
        render(9),
        render_at(100, 9),
        render(21),
        render_at(100, 21),
    ];
    let refused = Some((15, 0));
    assert_eq!(
        refusals(&mut world, &calls),
        [None, refused, None, refused, None, refused, None]
    );
    assert_eq!(world.rendering.width, 100);
}

#[test]
fn layout_states_are_tested() {
    let with = |change: fn(&mut LayoutState)| {
        let mut world = world(30, 2);
        refusals(&mut world, &[layout(1, false)]);
        change(&mut world.laying);
        refusals(&mut world, &[layout(2, false)])[0]
    };
    assert_eq!(with(|_| ()), None);
    assert_eq!(with(|s| s.at.position = 40), None);
    assert_eq!(with(|s| s.at.position = 41), Some((12, 0)));
    assert_eq!(with(|s| s.at.comments_placed = 1), None);
    assert_eq!(with(|s| s.at.comments_placed = 2), Some((12, 0)));
    assert_eq!(with(|s| s.at.next_number = 1_048_576), None);
    assert_eq!(with(|s| s.at.next_number = 1_048_577), Some((12, 0)));
    assert_eq!(with(|s| s.at.next_row = 30), Some((8, 41)));
    assert_eq!(with(|s| s.at.next_row = 31), Some((12, 0)));
    assert_eq!(with(|s| s.begun = false), Some((12, 0)));
    assert_eq!(with(|s| s.closed = true), Some((12, 0)));
    assert_eq!(with(|s| s.next_declaration = 3), Some((12, 0)));
    assert_eq!(with(|s| s.mode = 1), Some((12, 0)));
    assert_eq!(with(|s| s.mode = 7), Some((12, 0)));
}

/// Each cause of 12 by the mode: over 1, another than the carried one once
/// begun, and one carried before that. It comes before 8.
#[test]
fn modes_are_tested() {
    let with = |state: LayoutState, mode: usize| {
        let mut world = world(30, 2);
        world.laying = state;
        refusals(&mut world, &[layout_in(mode, 2, true)])[0]
    };
    let refused = Some((12, 0));
    let fresh = LayoutState::default();
    let begun = |mode| LayoutState {
        begun: true,
        mode,
        ..fresh
    };
    for mode in [OLD, NEW] {
        assert_eq!(with(fresh, mode), None);
        assert_eq!(with(begun(mode), mode), None);
        assert_eq!(with(begun(1 - mode), mode), refused);
        assert_eq!(with(begun(2), mode), refused);
        assert_eq!(with(LayoutState { mode: 1, ..fresh }, mode), refused);
    }
    for mode in [2, 3, 1 << 32, usize::MAX] {
        assert_eq!(with(fresh, mode), refused, "{mode}");
        assert_eq!(with(begun(mode), mode), refused, "{mode}");
    }
    let calls = [layout_in(2, 2, true), layout(2, true)];
    let refused = [refused, Some((8, 21))];
    assert_eq!(refusals(&mut world(20, 1), &calls), refused);
}

/// An accepted call chooses, also one that lays nothing; a refused one
/// doesn't.
#[test]
fn an_accepted_call_chooses_the_mode() {
    let mut world = world(25, 2);
    let calls = [
        layout_in(2, 0, false),
        layout_in(OLD, 3, false),
        layout_in(NEW, 0, false),
        layout_in(OLD, 1, false),
        layout_in(NEW, 1, false),
        layout_in(OLD, 2, true),
        layout_in(NEW, 2, true),
    ];
    let refused = Some((12, 0));
    assert_eq!(
        refusals(&mut world, &calls),
        [refused, refused, None, refused, None, refused, None]
    );
    assert_eq!(world.laying.mode, NEW);
    assert!(world.laying.closed);
}

/// The first wrong row among these, by a rendering from row 0.
fn wrong_row(rows: &[Row]) -> Option<u64> {
    let mut world = world(rows.len(), 4);
    world.put_rows(0, rows);
    let answer = refusals(&mut world, &[render(rows.len())])[0];
    answer.map(|(number, place)| {
        assert_eq!(number, 11);
        place
    })
}

fn row(kind: u32, second_part: u32, after: u32) -> Row {
    Row {
        kind,
        second_part,
        after,
        ..Row::default()
    }
}

#[test]
fn whose_fault_a_wrong_row_is() {
    let line = |after| row(rows::LINE, 0, after);
    assert_eq!(wrong_row(&[line(1), line(2)]), None);
    assert_eq!(wrong_row(&[line(1), line(3)]), Some(1));
    assert_eq!(wrong_row(&[line(1), line(1)]), Some(1));
    assert_eq!(wrong_row(&[row(12, 0, 1)]), Some(0));
    // A group's part that outgrows it is at fault itself.
    let group = |after| row(rows::GROUP, 0, after);
    assert_eq!(wrong_row(&[group(2), line(3), line(3)]), Some(1));
    assert_eq!(wrong_row(&[group(3), group(4), line(3), line(4)]), Some(1));
    // The part of an `IfWrap` that misses the second part is the parent's.
    let choice = |second, after| row(rows::IF_WRAP, second, after);
    assert_eq!(wrong_row(&[choice(2, 3), line(2), line(3)]), None);
    assert_eq!(wrong_row(&[choice(2, 3), line(3), line(3)]), Some(0));
    assert_eq!(wrong_row(&[choice(1, 3), line(2), line(3)]), Some(0));
    assert_eq!(wrong_row(&[choice(2, 2), line(2), line(3)]), Some(0));
    let three = [choice(2, 4), line(2), line(3), line(4)];
    assert_eq!(wrong_row(&three), Some(0));
    // A `Call`'s second part starts at a part or at the end.
    let call = |second, after| row(rows::CALL, second, after);
    for second in 1..=3 {
        assert_eq!(wrong_row(&[call(second, 3), line(2), line(3)]), None);
    }
    assert_eq!(wrong_row(&[call(0, 3), line(2), line(3)]), Some(0));
    assert_eq!(wrong_row(&[call(4, 3), line(2), line(3)]), Some(0));
    assert_eq!(wrong_row(&[call(2, 3), group(3), line(3)]), Some(0));
    assert_eq!(wrong_row(&[call(1, 3), line(2), line(4), line(4)]), Some(2));
}

/// Document 01: "a `Call`'s second part not starting at a part or the end".
/// One that starts at the end is right, whatever its parts are.
#[test]
fn a_second_part_at_the_end_answers_for_no_part() {
    let line = |after| row(rows::LINE, 0, after);
    let group = |after| row(rows::GROUP, 0, after);
    let call = |second, after| row(rows::CALL, second, after);
    let cells = [
        [rows::CALL, 0, 1, 2, 2, 0, 0, 0, 0],
        [rows::ASCII, 0, 0, 0, 3, 0, 0, 0, 0],
    ];
    assert_eq!(wrong_row(&cells.map(Row::from_cells)), Some(1));
    // No part, and right ones.
    assert_eq!(wrong_row(&[call(1, 1)]), None);
    assert_eq!(wrong_row(&[call(2, 2), line(2)]), None);
    assert_eq!(wrong_row(&[call(3, 3), group(3), line(3)]), None);
    // A row after that is the row itself, or one before it.
    assert_eq!(wrong_row(&[call(2, 2), line(1)]), Some(1));
    assert_eq!(wrong_row(&[call(3, 3), line(2), group(1)]), Some(2));
    // A part that outgrows the call, the stop, or its own parent.
    assert_eq!(wrong_row(&[call(2, 2), line(3), line(3)]), Some(1));
    assert_eq!(wrong_row(&[call(2, 2), group(u32::MAX)]), Some(1));
    assert_eq!(
        wrong_row(&[call(4, 4), group(3), group(4), line(4)]),
        Some(2)
    );
    // A leaf with parts.
    assert_eq!(wrong_row(&[call(3, 3), line(3), line(3)]), Some(1));
    // The call's own range is wrong.
    assert_eq!(wrong_row(&[call(2, 2)]), Some(0));
    assert_eq!(wrong_row(&[call(0, 0)]), Some(0));
}

/// One that is meant to be a part isn't, where going from part to part
/// doesn't reach it.
#[test]
fn a_second_part_inside_answers_for_the_way_there() {
    let line = |after| row(rows::LINE, 0, after);
    let group = |after| row(rows::GROUP, 0, after);
    let call = |second, after| row(rows::CALL, second, after);
    assert_eq!(wrong_row(&[call(2, 3), line(2), line(3)]), None);
    assert_eq!(wrong_row(&[call(2, 3), group(3), line(3)]), Some(0));
    assert_eq!(wrong_row(&[call(2, 3), line(1), line(3)]), Some(0));
    assert_eq!(wrong_row(&[call(2, 3), line(4), line(3)]), Some(0));
    assert_eq!(wrong_row(&[call(2, 3), line(2), line(2)]), Some(2));
    assert_eq!(wrong_row(&[call(1, 3), line(1), line(3)]), Some(1));
    assert_eq!(wrong_row(&[call(0, 2), line(2)]), Some(0));
    assert_eq!(wrong_row(&[call(3, 2), line(2), line(3)]), Some(0));
}

#[test]
fn rows_nest_256_deep() {
    let nested = |count: u32| -> Vec<Row> {
        (0..count).map(|_| row(rows::INDENT, 0, count)).collect()
    };
    assert_eq!(wrong_row(&nested(256)), None);
    assert_eq!(wrong_row(&nested(257)), Some(256));
}

#[test]
fn the_cut_rule_holds_of_the_original() {
    assert!(cut_rule_holds(generate::call_case, 600) > 200);
    assert!(cut_rule_holds(generate::foot_case, 600) > 400);
    assert!(cut_rule_holds(generate::rule_case, 600) > 200);
}

/// Holds calls one by one against the plain run, on lists of which the rule
/// speaks; how many they were.
fn cut_rule_holds(make: fn(u64, u64) -> CallCase, count: u64) -> usize {
    let mut spoken_of = 0;
    for index in 0..count {
        let case = make(SEED, index);
        let given = Given {
            source: &case.source,
            image: &case.image,
        };
        let (store, marks) = (&case.world.store, &case.world.marks);
        let fresh = case.world.laying == LayoutState::default()
            && case.world.rendering == RenderState::default();
        if !fresh
            || !calls::reads_laid_rows_alone(given, store, marks, &case.calls)
        {
            continue;
        }
        spoken_of += 1;
        let mut world = case.world.clone();
        let answers = calls::run(given, &mut world, &case.calls);
        let plain = calls::plain_run(given, store, marks, &case.calls);
        assert_eq!((answers, world), plain, "case {index}");
    }
    spoken_of
}

/// docs/ARCHITECTURE.md, "The way of a save": the smallest list on which the
/// cut rule is false, since it renders a row before that is laid out.
#[test]
fn the_cut_rule_needs_rows_that_are_laid_out() {
    let bytes = examples::frame("shebang").unwrap();
    let frame = frame::split(&bytes).unwrap();
    let first =
        Row::from_cells([rows::ASCII, 0, 0, 0, 1, rows::IMAGE, 8, 1, 0]);
    let mut world = World {
        store: vec![0; 2 * Row::CELLS],
        ..World::default()
    };
    world.put_rows(0, &[first]);
    let (store, marks) = (world.store.clone(), world.marks.clone());
    let calls = [render(1), layout(0, false)];
    let given = given(&frame);
    assert!(!calls::reads_laid_rows_alone(given, &store, &marks, &calls));
    let answers = calls::run(given, &mut world, &calls);
    let (due_answers, due) = calls::plain_run(given, &store, &marks, &calls);
    assert!(answers.iter().chain(&due_answers).all(Result::is_ok));
    assert_eq!(world.text, b"\0");
    assert_eq!(due.text, b"#!/x");
}

#[test]
fn rows_render_as_the_nodes_they_came_from() {
    let words = rows::fixed_words();
    for (class, _) in Class::ALL {
        for bytes in generate::frames(class, SEED, 200) {
            let Ok(run) = program::answer(&bytes, Widths::Supplied) else {
                continue;
            };
            let frame = frame::split(&bytes).unwrap();
            let texts = Texts {
                source: frame.source,
                image: frame.image,
                words: words.as_bytes(),
            };
            let rendered = render_rows(
                texts,
                &run.rows,
                Start::at(0, Pen::default()),
                Page::REFERENCE,
                ALL_ROWS,
            );
            assert_eq!(rendered.text, run.text.as_bytes());
            assert_eq!(rendered.marks, run.marks);
            assert_eq!(rendered.pen, run.pen);
        }
    }
}

#[test]
fn no_row_lies_past_the_limit() {
    let limit = calls::MOST_ROWS;
    let mut world = World {
        store: vec![0; (limit + 2) * Row::CELLS],
        ..World::default()
    };
    world.rendering.next_row = limit;
    assert_eq!(
        refusals(&mut world, &[render(limit), render(limit + 1)]),
        [None, Some((11, 0))]
    );
    world.laying.begun = true;
    world.laying.at.next_row = limit;
    assert_eq!(refusals(&mut world, &[layout(0, false)]), [None]);
    world.laying.at.next_row = limit + 1;
    assert_eq!(refusals(&mut world, &[layout(0, false)]), [Some((12, 0))]);
}
