//! A fixed list of calls with allotments.

use super::super::{
    CallCase,
    rendering::parts::{
        PLENTY, Part, comment, group, if_wrap, on, pen, render, wide, word,
    },
};
use crate::{
    allotment::ALL_ROWS,
    calls::{Call, MOST_ROW_DEPTH},
    listed::{Listed, MOST_LISTED, OpenRow, Way},
};

/// All cases: stops of every kind, then what is refused.
pub fn cases() -> Vec<CallCase> {
    let parts = [
        calls(),
        parts_of_two(),
        margins(),
        depths(),
        marks(),
        rooms(),
        changing_stops(),
        allotments(),
        other_rows(),
        closing(),
        from_the_first_listed(),
        order(),
    ];
    parts.into_iter().flatten().collect()
}

/// A document by calls of so many rows each.
fn pieces(parts: &[Part], allotments: &[usize]) -> CallCase {
    let mut case = on(parts);
    let rows = case.world.room_for_rows();
    case.world.marks = vec![5; 6];
    let calls = allotments.iter().map(|rows_| piece(rows, *rows_));
    case.calls = calls.collect();
    case
}

fn piece(stop: usize, allotment: usize) -> Call {
    allotted(render(stop, PLENTY), allotment)
}

/// A rendering call with another allotment.
fn allotted(call: Call, allotment: usize) -> Call {
    match call {
        Call::Render(mut args) => {
            args.allotment = allotment;
            Call::Render(args)
        }
        other => other,
    }
}

/// The same by one row a call, and by two.
fn by_one_and_two(parts: &[Part]) -> [CallCase; 2] {
    let rows = on(parts).world.room_for_rows();
    [1, 2].map(|each| pieces(parts, &vec![each; rows + 1]))
}

/// `Call`s each way: stops in the callee, at the first argument and behind; and
/// with an empty callee, without arguments, with neither.
fn calls() -> Vec<CallCase> {
    let arguments = |count| vec![Part::Line, wide(count), Part::Line];
    let call = |callee, arguments| Part::Call(0, callee, 1, arguments);
    let ways = [
        call(vec![word(), Part::LineOrSpace], arguments(3)),
        call(vec![wide(70)], arguments(20)),
        call(vec![comment(), wide(50)], arguments(40)),
        call(vec![wide(90), Part::LineOrSpace], vec![]),
        call(vec![word()], vec![]),
        call(vec![], arguments(8)),
        call(vec![], vec![]),
    ];
    let inner = call(vec![wide(75)], arguments(9));
    let nested = call(vec![inner, word()], arguments(60));
    let ways = ways.into_iter().chain([nested]);
    ways.flat_map(|way| by_one_and_two(&[way, word()]))
        .collect()
}

/// Either part of an `IfWrap`, before its end and behind it.
fn parts_of_two() -> Vec<CallCase> {
    let chosen = || {
        let first = group(1, [word(), Part::Line]);
        if_wrap(0, first, Part::Indent(vec![word(), Part::Line]))
    };
    let long = group(0, [wide(60), Part::LineOrSpace, wide(60)]);
    let short = group(0, [word()]);
    let nested = if_wrap(1, chosen(), chosen());
    [[long, chosen(), word()], [short, chosen(), nested]]
        .iter()
        .flat_map(|parts| by_one_and_two(parts))
        .collect()
}

/// Inside `Indent` and `IndentNext`, before a new line and after it.
fn margins() -> Vec<CallCase> {
    let lines = || vec![word(), Part::Line, word(), Part::EmptyLine, word()];
    let inner = vec![Part::Indent(lines()), Part::Line, word()];
    [
        vec![Part::IndentNext(lines()), Part::Line, word()],
        vec![Part::IndentNext(inner), word()],
        vec![group(0, [Part::WrapParent, Part::IndentNext(lines())])],
    ]
    .iter()
    .map(|parts| by_one_and_two(parts)[0].clone())
    .collect()
}

/// As deep as rows may be: 255 enclose the innermost.
fn depths() -> Vec<CallCase> {
    let around = |inner, level: usize| match level % 5 {
        0 => group(0, [inner]),
        1 => Part::Indent(vec![inner]),
        2 => Part::IndentNext(vec![inner]),
        3 => Part::Call(0, vec![inner], 1, vec![]),
        _ => Part::Call(0, vec![], 1, vec![inner]),
    };
    let deep = (1..MOST_ROW_DEPTH).fold(word(), around);
    vec![pieces(&[deep], &[MOST_ROW_DEPTH - 1, 1, 1])]
}

/// Marks in use rise over the rows up to the stop, entered or not.
fn marks() -> Vec<CallCase> {
    let rows = [group(1, [word()]), word(), group(4, [word()])];
    vec![
        pieces(&rows, &[1, 1, ALL_ROWS]),
        pieces(&[group(0, [wide(90), Part::Line]), word()], &[2, 1, 1]),
    ]
}

/// Too little room: the same call again, with enough.
fn rooms() -> Vec<CallCase> {
    let parts =
        [Part::Indent(vec![word(), Part::EmptyLine, wide(9), word()])];
    let mut case = pieces(&parts, &[]);
    let rows = case.world.room_for_rows();
    for room in [0, 6, PLENTY] {
        case.calls.push(allotted(render(rows, room), 3));
    }
    vec![case]
}

/// A nearer stop behind a further one, and a further one from inside.
fn changing_stops() -> Vec<CallCase> {
    let indent = || Part::Indent(vec![word(), Part::Line, word()]);
    let parts = [indent(), indent(), indent()];
    let mut case = pieces(&parts, &[]);
    case.calls = [(12, 2), (4, 9), (12, 1), (8, 2), (4, 1), (8, 9), (12, 9)]
        .map(|(stop, allotment)| piece(stop, allotment))
        .into();
    vec![case]
}

/// None, one, as many as are left, one more, and the largest.
fn allotments() -> Vec<CallCase> {
    let parts = [group(0, [word(), Part::LineOrSpace]), word()];
    let largest = ALL_ROWS;
    vec![
        pieces(&parts, &[0, 1, 0, 3]),
        pieces(&parts, &[4, 1, 0]),
        pieces(&parts, &[5]),
        pieces(&parts, &[largest]),
        pieces(&parts, &[1, largest]),
        pieces(&parts, &[1 << 32, 1]),
        pieces(&[], &[1, 0, largest]),
    ]
}

/// Rows in each other: a group, an `Indent` in it, a text in that; and more
/// behind.
fn nested() -> CallCase {
    let indent = Part::Indent(vec![word(), Part::Line, word()]);
    let mut case = pieces(&[group(0, [indent, word()]), word()], &[]);
    case.calls = vec![piece(case.world.room_for_rows(), 1)];
    case.world.rendering.next_row = 2;
    case
}

fn open(row: usize, wraps: bool, way: Way) -> OpenRow {
    OpenRow { row, wraps, way }
}

/// [`nested`] with these rows listed.
fn listing(rows: &[usize]) -> CallCase {
    let mut case = nested();
    let open: Vec<OpenRow> = rows
        .iter()
        .map(|row| open(*row, false, Way::Trailing))
        .collect();
    case.world.rendering.listed = Listed::new(&open);
    case
}

/// Those that enclose the next row, from the first or a later one on; and
/// others: refusal 23.
fn other_rows() -> Vec<CallCase> {
    let lists: [&[usize]; 10] = [
        &[],
        &[0, 1],
        &[1],
        &[0],
        &[0, 1, 2],
        &[0, 0, 1],
        &[1, 0],
        &[0, 2],
        &[2],
        &[7, 8],
    ];
    let mut cases: Vec<CallCase> =
        lists.iter().map(|rows| listing(rows)).collect();
    for next_row in [1, 5, 6, 7] {
        let mut case = listing(&[0, 1]);
        case.world.rendering.next_row = next_row;
        cases.push(case);
    }
    let rows = [
        open(0, true, Way::MadeWrapped),
        open(1, true, Way::MadeFlat),
    ];
    let mut facts = listing(&[]);
    facts.world.rendering.pen = pen([1, 0, 0]);
    facts.world.rendering.listed = Listed::new(&rows);
    cases.push(facts);
    let mut many = listing(&[]);
    many.world.rendering.listed =
        Listed::of_numbers(MOST_LISTED + 1, &[0; MOST_LISTED]);
    cases.push(many);
    let mut far = listing(&[]);
    far.world.rendering.listed =
        Listed::of_numbers(1, &[u64::from(u32::MAX)]);
    cases.push(far);
    cases
}

/// Steps just enough for closing, and one less: refusal 23. What is in
/// `next_indent` closes an `IndentNext` and no `Indent`.
fn closing() -> Vec<CallCase> {
    let inner = Part::IndentNext(vec![word(), Part::Line, word()]);
    let callee = vec![Part::Indent(vec![inner]), word()];
    let parts = [Part::Call(0, callee, 1, vec![word()])];
    let rows = [0, 1, 2].map(|row| open(row, row > 0, Way::MadeWrapped));
    let mut cases = Vec::new();
    for steps in [
        [3, 0, 0],
        [2, 0, 0],
        [1, 2, 0],
        [0, 3, 0],
        [1, 1, 0],
        [2, 1, 5],
        [384, 384, 0],
        [385, 0, 0],
    ] {
        let mut case = pieces(&parts, &[2, ALL_ROWS]);
        case.world.rendering.next_row = 4;
        case.world.rendering.pen = pen(steps);
        case.world.rendering.listed = Listed::new(&rows);
        cases.push(case);
    }
    // From the bound a call goes past it, and the next is refused by 12.
    let mut past = pieces(&[Part::Indent(vec![word(), word()])], &[1, 1]);
    past.world.rendering.pen = pen([384, 0, 0]);
    cases.push(past);
    cases
}

/// 9 and 11 read from the first listed row.
fn from_the_first_listed() -> Vec<CallCase> {
    let mut faulty = listing(&[0, 1]);
    // The group's row after.
    faulty.world.store[4] = 9;
    let mut passed = listing(&[1]);
    passed.world.store[4] = 9;
    let mut marks = listing(&[0, 1]);
    marks.world.marks.clear();
    let mut fewer = listing(&[1]);
    fewer.world.marks.clear();
    let mut past = listing(&[0, 1]);
    past.calls = vec![piece(5, 1), piece(4, 1), piece(2, 1)];
    vec![faulty, passed, marks, fewer, past]
}

/// Several causes at once: 15, 22, 23, 9 in this order.
fn order() -> Vec<CallCase> {
    let mut cases = Vec::new();
    for causes in 0..16 {
        let chosen = |cause: usize| causes >> cause & 1 == 1;
        let mut case = listing(if chosen(2) { &[0] } else { &[0, 1] });
        if chosen(3) {
            case.world.marks.clear();
        }
        if let Call::Render(args) = &mut case.calls[0] {
            args.allotment = usize::from(!chosen(1));
            args.width = if chosen(0) { 39 } else { args.width };
        }
        cases.push(case);
    }
    cases
}
