//! Renderings by allotment (request 12): the two forms against each other, the
//! refusals, the comments at a stop inside, and the cut rule on the original
//! itself.

use std::collections::{BTreeMap, BTreeSet};

use judge::{
    allotment::ALL_ROWS,
    calls::{self, Answer, Call, Given, RenderArgs, RenderState, World},
    driver::{
        Page, Pen, RenderedRows, Start, Texts, margins_tried, render_rows,
    },
    generate::{self, Document, Twist},
    listed::{self, Cause, Listed, OpenRow, Way},
    refusal::Refusal,
    rows::{self, Row},
    rule::SUPPLIED,
};

const SEED: u64 = 5;

fn texts<'t>(document: &'t Document, words: &'t str) -> Texts<'t> {
    Texts {
        source: &document.source,
        image: &document.image,
        words: words.as_bytes(),
    }
}

/// Goes on from a stop by the second form.
fn onward(
    document: &Document,
    stop: &RenderedRows,
    allotment: usize,
) -> RenderedRows {
    let words = rows::fixed_words();
    let listed = stop.listed.rows();
    let start = Start {
        row: stop.next_row,
        listed: &listed,
        pen: stop.pen,
        marks: &stop.marks,
    };
    let (rows, page) = (&document.rows, document.page);
    render_rows(texts(document, &words), rows, start, page, allotment)
}

/// The second form from each stop of the first, by one row and by some, comes
/// to the first's stop behind, with the rest of its text.
#[test]
fn the_second_form_goes_on_as_the_original() {
    let mut ways = BTreeSet::new();
    let mut deepest = 0;
    for index in 0..600 {
        let document = generate::document(SEED, index);
        let stops = document.stops();
        let end = &stops[stops.len() - 1];
        for (place, stop) in stops.iter().enumerate() {
            assert_eq!(stop.entered, place);
            for allotment in [1, 2 + place % 9, ALL_ROWS] {
                if allotment == ALL_ROWS && place % 5 != index as usize % 5 {
                    continue;
                }
                let due = place.saturating_add(allotment);
                let due = stops.get(due).unwrap_or(end);
                let got = onward(&document, stop, allotment);
                let text = [&stop.text[..], &got.text].concat();
                assert_eq!(text, due.text, "document {index}, {place}");
                assert_eq!(got.entered, due.entered - place);
                let got = RenderedRows {
                    text,
                    entered: due.entered,
                    greatest_column: due.greatest_column,
                    ..got
                };
                assert_eq!(&got, due, "document {index}, {place}");
            }
            deepest = deepest.max(stop.listed.count);
            for open in stop.listed.rows() {
                let kind = document.rows[open.row].kind;
                ways.insert((kind, open.wraps, open.way));
            }
        }
    }
    assert!(deepest >= 12, "{deepest}");
    let facts: BTreeSet<_> = ways
        .iter()
        .filter(|(kind, ..)| *kind == rows::CALL)
        .collect();
    assert_eq!(facts.len(), 6, "{facts:?}");
    for kind in [rows::GROUP, rows::INDENT, rows::INDENT_NEXT, rows::IF_WRAP]
    {
        for wraps in [false, true] {
            assert!(ways.contains(&(kind, wraps, Way::Trailing)), "{kind}");
        }
    }
}

/// Request 13's sentence is tried on each row that a call enters, also where
/// rows are listed that calls before entered.
#[test]
fn the_margin_is_tried_from_a_stop() {
    let mut listed = 0;
    for index in 0..100 {
        let document = generate::document(SEED, index);
        for stop in document.stops().iter().step_by(7) {
            margins_tried();
            let halves = match document.page.rule {
                SUPPLIED => 2,
                _ => 1,
            };
            let entered = onward(&document, stop, ALL_ROWS).entered;
            let least = halves * entered as u64;
            let tried = margins_tried();
            assert!(least <= tried, "document {index}: {tried} of {least}");
            listed += u64::from(stop.listed.count > 0) * tried;
        }
    }
    assert!(listed > 10_000, "{listed}");
}

/// What a stop lists are the rows around its row, and can be closed.
#[test]
fn a_stop_is_one_that_23_lets_pass() {
    for index in 0..600 {
        let document = generate::document(SEED + 1, index);
        for stop in document.stops() {
            let RenderedRows {
                next_row,
                listed,
                pen,
                ..
            } = stop;
            let rows = &document.rows;
            let fault = listed::fault(rows, &listed, next_row, pen);
            assert_eq!(fault, None, "document {index}, row {next_row}");
            let own: Vec<usize> =
                listed.rows().iter().map(|open| open.row).collect();
            assert_eq!(own, listed::around(rows, 0, next_row));
        }
    }
}

/// "The comments among the rows ahead of the next one are the first so many of
/// the list, in order, each once", in rows that layout wrote from fresh.
#[test]
fn comments_at_a_stop_are_the_first_of_the_list() {
    let mut inside = 0;
    for index in 0..1_500 {
        let document = generate::document(SEED + 2, index);
        let given = document.given();
        let Ok(read) = judge::reader::read(given.source, given.image) else {
            continue;
        };
        let source = std::str::from_utf8(given.source).expect("accepted");
        let listed: Vec<&str> = read
            .comments
            .iter()
            .map(|range| source[range.clone()].trim_end())
            .collect();
        for stop in document.stops() {
            let ahead = document.rows[..stop.next_row].iter();
            let placed: Vec<&str> = ahead
                .filter(|row| row.kind == rows::COMMENT)
                .map(|row| {
                    let start = row.start as usize;
                    &source[start..start + row.length as usize]
                })
                .collect();
            assert_eq!(placed, listed[..placed.len()], "document {index}");
            let under_way = placed.len() < listed.len();
            inside += usize::from(stop.listed.count > 0 && under_way);
        }
    }
    assert!(inside > 1_000, "{inside}");
}

fn with_calls<T>(
    given: Given,
    world: &World,
    list: &[Call],
    mut look: impl FnMut(&World, RenderArgs, &Result<Answer, Refusal>) -> T,
) -> World {
    let mut world = world.clone();
    for one in list {
        let before = world.clone();
        let answer = calls::call(given, &mut world, *one);
        if let Call::Render(args) = *one {
            look(&before, args, &answer);
        }
    }
    world
}

/// Demand 3 with allotments: the calls one by one leave and answer what the
/// plain run has due, refused calls among them, nearer stops behind further
/// ones, and ends inside a row.
#[test]
fn the_plain_run_is_what_the_calls_leave() {
    let [mut tried, mut nearer, mut inside] = [0; 3];
    let mut numbers = BTreeMap::new();
    for index in 0..1_200 {
        let case = generate::allotment_list(SEED, index);
        let given = Given {
            source: &case.source,
            image: &case.image,
        };
        let fresh = World {
            laying: Default::default(),
            rendering: Default::default(),
            ..case.world.clone()
        };
        let calls = &case.calls;
        let (store, marks) = (&fresh.store, &fresh.marks);
        if !calls::reads_laid_rows_alone(given, store, marks, calls) {
            continue;
        }
        let mut furthest = 0;
        let world = with_calls(given, &fresh, calls, |_, args, answer| {
            let number = answer.err().map_or(0, |refusal| refusal.number);
            *numbers.entry(number).or_insert(0) += 1;
            if number == 0 {
                nearer += usize::from(args.stop < furthest);
                furthest = furthest.max(args.stop);
            }
        });
        let mut one_by_one = fresh.clone();
        let answers = calls::run(given, &mut one_by_one, calls);
        let (due, left) = calls::plain_run(given, store, marks, calls);
        let same = due.iter().zip(&answers).all(|(due, got)| due == got);
        assert!(same, "list {index}\n  due {due:?}\n  got {answers:?}");
        assert_eq!(left, world, "list {index}");
        tried += 1;
        inside += usize::from(world.rendering.listed.count > 0);
    }
    assert!(tried > 600, "{tried}");
    assert!(nearer > 20, "{nearer}");
    assert!(inside > 50, "{inside}");
    for number in [0, 10, 11, 12, 15, 22] {
        assert!(numbers.contains_key(&number), "{number}: {numbers:?}");
    }
}

/// Every twist of a state is accepted and refused as it should be, and 23 by
/// all of its causes.
#[test]
fn states_handed_in_are_tested() {
    let mut counts: BTreeMap<(Twist, Option<u8>), usize> = BTreeMap::new();
    let mut causes: BTreeMap<Cause, usize> = BTreeMap::new();
    for index in 0..6_000 {
        let (twist, case) = generate::handed_case(SEED, index);
        let given = Given {
            source: &case.source,
            image: &case.image,
        };
        let state = case.world.rendering;
        let look =
            |before: &World, args: RenderArgs, answer: &Result<_, _>| {
                let number = answer
                    .as_ref()
                    .err()
                    .map(|refusal: &Refusal| refusal.number);
                *counts.entry((twist, number)).or_default() += 1;
                if number == Some(23) {
                    let rows = before.rows(args.stop);
                    let RenderState {
                        listed,
                        next_row,
                        pen,
                        ..
                    } = state;
                    let cause = listed::fault(&rows, &listed, next_row, pen);
                    *causes.entry(cause.expect("a cause")).or_default() += 1;
                }
            };
        with_calls(given, &case.world, &case.calls, look);
    }
    let refused = |twist| counts.contains_key(&(twist, Some(23)));
    let accepted = |twist| counts.contains_key(&(twist, None));
    for twist in [Twist::None, Twist::Wraps, Twist::Way, Twist::Enough] {
        assert!(accepted(twist), "{twist:?}: {counts:?}");
    }
    for twist in [
        Twist::LeftOut,
        Twist::Doubled,
        Twist::Moved,
        Twist::Exchanged,
        Twist::Added,
        Twist::NextRow,
        Twist::Short,
        Twist::FarRow,
        Twist::TooMany,
    ] {
        assert!(refused(twist), "{twist:?}: {counts:?}");
    }
    assert!(!refused(Twist::None), "{counts:?}");
    assert!(!refused(Twist::Enough), "{counts:?}");
    assert_eq!(causes.len(), 3, "{causes:?}");
}

#[test]
fn numbers_are_listed_rows_and_back() {
    for number in [0, 1, 5, 6, 77, u64::from(u32::MAX)] {
        assert_eq!(OpenRow::from_number(number).number(), number);
    }
    let open = OpenRow {
        row: 7,
        wraps: true,
        way: Way::MadeWrapped,
    };
    // Row * 6 + way * 2 + wraps.
    assert_eq!(open.number(), 7 * 6 + 2 * 2 + 1);
    let far = OpenRow::from_number(u64::from(u32::MAX) + 1);
    assert!(far.row > calls::MOST_ROWS);
}

/// 22 and 23 stand behind 15 and before 9, in this order.
#[test]
fn the_order_of_the_refusals() {
    let document = generate::document(SEED, 3);
    let end = document.rows.len();
    let needed = rows::marks_needed(&document.rows);
    assert!(needed > 0, "else 9 isn't tried");
    for causes in 0..16 {
        let chosen = |cause: usize| causes >> cause & 1 == 1;
        let mut world = document.world();
        if chosen(3) {
            world.marks.clear();
        }
        let open = [OpenRow::from_number(0)];
        if chosen(2) {
            world.rendering.listed = Listed::new(&open);
        }
        let args = RenderArgs {
            stop: end,
            room: 1 << 16,
            width: if chosen(0) { 39 } else { document.page.width },
            rule: document.page.rule,
            allotment: usize::from(!chosen(1)),
        };
        let answer =
            calls::call(document.given(), &mut world, Call::Render(args));
        let due = [(0, 15), (1, 22), (2, 23), (3, 9)];
        let due = due.into_iter().find(|(cause, _)| chosen(*cause));
        let number = answer.err().map(|refusal| refusal.number);
        assert_eq!(number, due.map(|(_, number)| number), "{causes}");
    }
}

/// 12's bounds on `indent` and `next_indent`, with rows listed or not.
#[test]
fn the_bounds_of_the_margin() {
    let document = generate::document(SEED, 3);
    let with = |indent, next_indent| {
        let mut world = document.world();
        world.rendering.pen = Pen {
            indent,
            next_indent,
            column: 0,
        };
        let args = RenderArgs {
            stop: 0,
            room: 0,
            width: 80,
            rule: document.page.rule,
            allotment: 1,
        };
        let answer =
            calls::call(document.given(), &mut world, Call::Render(args));
        answer.err().map(|refusal| refusal.number)
    };
    assert_eq!(with(384, 384), None);
    assert_eq!(with(385, 0), Some(12));
    assert_eq!(with(0, 385), Some(12));
}

/// From `indent` 384 a call that goes one row into an `Indent` that wraps
/// answers 385, which 12 refuses.
#[test]
fn a_state_past_the_bound_is_not_handed_on() {
    let line = |after| Row {
        kind: rows::LINE,
        after,
        ..Row::default()
    };
    let indent = Row {
        kind: rows::INDENT,
        after: 3,
        ..Row::default()
    };
    let document = Document {
        source: Vec::new(),
        image: b"\x01\0\0\0\x02\0\0".to_vec(),
        rows: vec![indent, line(2), line(3)],
        page: Page::REFERENCE,
        ends: vec![0, 3],
    };
    let mut world = document.world();
    world.rendering.pen.indent = 384;
    let one = Call::Render(RenderArgs {
        stop: 3,
        room: 0,
        width: 80,
        rule: SUPPLIED,
        allotment: 1,
    });
    let answers = calls::run(document.given(), &mut world, &[one, one]);
    let numbers = answers.iter().map(|answer| match answer {
        Ok(Answer::Written { entered, .. }) => *entered as u8,
        Ok(_) => unreachable!("a rendering call"),
        Err(refusal) => refusal.number,
    });
    assert_eq!(numbers.collect::<Vec<_>>(), [1, 12]);
    assert_eq!(world.rendering.pen.indent, 385);
    assert_eq!(world.rendering.listed.numbers(), [1]);
}

/// The fixed list: what the words of the law say of each kind of stop.
#[test]
fn the_fixed_list_has_every_kind_of_stop() {
    let mut seen = BTreeSet::new();
    let mut deepest = 0;
    for case in generate::allotment_cases() {
        let given = Given {
            source: &case.source,
            image: &case.image,
        };
        let look =
            |before: &World, args: RenderArgs, answer: &Result<_, _>| {
                let written = match answer {
                    Ok(Answer::Written { state, .. }) => state,
                    _ => return,
                };
                let rows = before.rows(args.stop);
                let Some(last) = written.listed.rows().pop() else {
                    return;
                };
                let row = rows[last.row];
                let second = row.second_part as usize;
                let first = written.next_row == second;
                let part = match row.kind {
                    rows::CALL | rows::IF_WRAP => written.next_row >= second,
                    _ => false,
                };
                let indented = written.pen.next_indent == 0;
                seen.insert((row.kind, last.way, part, first, indented));
                deepest = deepest.max(written.listed.count);
            };
        with_calls(given, &case.world, &case.calls, look);
    }
    assert_eq!(deepest, calls::MOST_ROW_DEPTH - 1);
    let has = |kind, part, first| {
        Way::ALL.map(|way| {
            let found = |one: &&(u32, Way, bool, bool, bool)| {
                (one.0, one.1, one.2, one.3) == (kind, way, part, first)
            };
            seen.iter().any(|one| found(&one))
        })
    };
    // In the callee, at the first argument and behind it, each way.
    assert_eq!(has(rows::CALL, false, false), [true; 3]);
    assert_eq!(has(rows::CALL, true, true), [true; 3]);
    assert_eq!(has(rows::CALL, true, false), [true; 3]);
    // Either part of an `IfWrap`, as its row is next.
    assert!(has(rows::IF_WRAP, false, false)[0]);
    assert!(has(rows::IF_WRAP, true, true)[0]);
    // Inside an `IndentNext` after a new line, and before.
    let next =
        |indented| (rows::INDENT_NEXT, Way::Trailing, false, false, indented);
    assert!(seen.contains(&next(true)) && seen.contains(&next(false)));
}
