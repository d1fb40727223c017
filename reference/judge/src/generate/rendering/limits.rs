//! Depth, states, marks and output at their limits and one more.

use super::{
    super::CallCase,
    parts::{
        PLENTY, Part, group, if_wrap, on, on_from, on_rows, pen, render,
        render_at, rows, wide, word,
    },
};
use crate::{
    calls::{Call, MOST_ROW_DEPTH},
    rows::Row,
};

/// Rows 257 deep: refused from the first one on, and 256 deep from the
/// second.
pub fn depth() -> Vec<CallCase> {
    let around = |inner, level: usize| match level % 5 {
        0 => group(0, [inner]),
        1 => Part::Indent(vec![inner]),
        2 => Part::IndentNext(vec![inner]),
        3 => Part::Call(0, vec![inner], 1, vec![]),
        _ => Part::Call(0, vec![], 1, vec![inner]),
    };
    let first = on(&[(0..MOST_ROW_DEPTH).fold(word(), around)]);
    let mut second = first.clone();
    second.world.rendering.next_row = 1;
    vec![first, second]
}

/// How many rows [`few`] has.
const FEW: usize = 5;

/// A few rows for states to try.
fn few() -> [Part; 2] {
    let line = Part::IndentNext(vec![Part::Line, word()]);
    [group(0, [word()]), line]
}

/// Indents and columns at their limits and one more: refusal 12.
pub fn pens() -> Vec<CallCase> {
    let column = 1 << 56;
    let mut cases = Vec::new();
    for of_pen in [
        [64, 0, 0],
        [65, 0, 0],
        [384, 0, 0],
        [385, 0, 0],
        [0, 384, 7],
        [0, 385, 7],
        [384, 384, 0],
        [0, 0, column],
        [0, 0, column + 1],
        [384, 384, column],
        [u32::MAX as usize, 0, 0],
        [0, u32::MAX as usize, 0],
        [0, 0, usize::MAX],
    ] {
        cases.push(on_from(of_pen, &few()));
        cases.push(on_from(of_pen, &[]));
    }
    cases
}

/// Marks in use over the buffer, or not 0 or 1, with junk behind them; and
/// the next row at the stop and past it, where no row is tested.
pub fn states() -> Vec<CallCase> {
    let marks: [(usize, &[u8]); 9] = [
        (2, &[0, 1]),
        (3, &[0, 1]),
        (2, &[0, 2]),
        (1, &[0, 2]),
        (1, &[255, 0]),
        (4, &[1, 1, 1, 1, 77]),
        (4, &[1, 1, 1, 3, 77]),
        (u32::MAX as usize, &[0, 0]),
        (0, &[6, 7, 8]),
    ];
    let mut cases = Vec::new();
    for (in_use, marks) in marks {
        let mut case = on(&few());
        case.world.marks = marks.to_vec();
        case.world.rendering.marks_in_use = in_use;
        cases.push(case);
    }
    for next_row in [4, 5, 6, u32::MAX as usize] {
        let mut case = on(&few());
        case.world.rendering.next_row = next_row;
        // The first row is faulty.
        case.world.store[4] = 0;
        cases.push(case);
    }
    cases
}

/// Group numbers up to the largest: refusal 9, and the marks just enough.
pub fn numbers() -> Vec<CallCase> {
    let mut cases = Vec::new();
    for number in [2, 3, u32::MAX - 1, u32::MAX] {
        let chosen = |inner| if_wrap(0, word(), inner);
        let shapes = [
            group(number, [word()]),
            if_wrap(number, word(), wide(3)),
            Part::Call(number, vec![word()], 0, vec![wide(3)]),
            Part::Call(0, vec![word()], number, vec![]),
            Part::Indent(vec![chosen(group(number, []))]),
            if_wrap(1, group(number, []), word()),
        ];
        for shape in shapes {
            let mut case = on(&[word(), shape]);
            case.world.marks = vec![3; 3];
            cases.push(case);
        }
    }
    // No number, no marks; the largest is not the last.
    let mut none = on(&[word(), Part::Line]);
    none.world.marks.clear();
    cases.push(none);
    let mut first =
        on(&[group(9, [group(4, [])]), if_wrap(6, word(), word())]);
    first.world.marks = vec![2; 9];
    cases.push(first);
    // A number before the next row doesn't count.
    let mut before = on(&[group(50, []), group(1, [])]);
    before.world.rendering.next_row = 1;
    cases.push(before);
    cases
}

/// Output just enough, one byte short, and none: refusal 10.
pub fn output() -> Vec<CallCase> {
    let documents: [&[Part]; 6] = [
        &[],
        &[Part::Line, Part::WrapParent],
        &[Part::EmptyLine],
        &[group(0, [wide(90)]), if_wrap(0, wide(9), word())],
        &[Part::Indent(vec![wide(178), Part::EmptyLine, word()])],
        &[Part::Call(0, vec![wide(70)], 1, vec![wide(20), Part::Line])],
    ];
    let mut cases = Vec::new();
    for parts in documents {
        let plenty = on_from([2, 1, 0], parts);
        let rows = plenty.world.room_for_rows();
        let bytes = written(&plenty);
        for room in [0, bytes.saturating_sub(1), bytes, bytes + 1] {
            let mut case = plenty.clone();
            case.world.marks = vec![1, 0, 5];
            case.world.rendering.marks_in_use = 1;
            case.calls = vec![render(rows, room), render(rows, PLENTY)];
            cases.push(case);
        }
    }
    cases
}

/// The bytes that a case's only call writes.
fn written(case: &CallCase) -> usize {
    let given = crate::calls::Given {
        source: &case.source,
        image: &case.image,
    };
    let mut world = case.world.clone();
    for one in &case.calls {
        crate::calls::call(given, &mut world, *one).expect("no fault");
    }
    world.text.len()
}

/// Widths at their limits and one more, from states that carry none, the
/// same and another; and a carried one that no call could have chosen:
/// refusal 15.
pub fn widths() -> Vec<CallCase> {
    let most = u32::MAX as usize;
    let mut cases = Vec::new();
    for width in [0, 1, 39, 40, 41, 80, 199, 200, 201, most] {
        for carried in [0, width, 100 + width % 2] {
            let mut case = on(&few());
            case.world.rendering.width = carried;
            case.calls = vec![render_at(width, FEW, PLENTY)];
            cases.push(case);
        }
    }
    for width in [7, 40, 80] {
        let mut case = on(&few());
        case.world.rendering.width = 7;
        case.calls = vec![render_at(width, FEW, PLENTY)];
        cases.push(case);
    }
    cases
}

/// An accepted call that reads nothing chooses too, and so does one that
/// reads rows; a refused one doesn't.
pub fn choices() -> Vec<CallCase> {
    let of = |calls: Vec<Call>| {
        let mut case = on(&few());
        case.calls = calls;
        case
    };
    let at = render_at;
    vec![
        of(vec![at(100, 0, 0), at(80, 4, PLENTY), at(100, 4, PLENTY)]),
        of(vec![
            at(100, 2, PLENTY),
            at(80, 4, PLENTY),
            at(100, 4, PLENTY),
        ]),
        of(vec![at(100, 5, PLENTY), at(100, 4, 0), at(80, 4, PLENTY)]),
        of(vec![
            at(201, 4, PLENTY),
            at(40, 4, PLENTY),
            at(41, 4, PLENTY),
        ]),
    ]
}

/// Images that are no image, before any row is looked at: refusal 3, and 20
/// for a first byte 2.
pub fn headers() -> Vec<CallCase> {
    let images: [&[u8]; 7] = [
        b"\x01\0\0\0\x02im",
        b"",
        b"\x01\0\0\0",
        b"\x02\0\0\0\x02im",
        b"\x03\0\0\0\x02im",
        b"\x01\0\0\0\x02imm",
        b"\x01\0\0\0\x03im",
    ];
    let case = |image: &[u8]| {
        let mut case = on_rows(&wide_group(0));
        case.image = image.to_vec();
        case
    };
    images.map(case).into()
}

/// A group too wide for a line and its text; the row after it is given, and
/// 2 is right.
fn wide_group(after: u32) -> [Row; 2] {
    let rows = rows(&[group(7, [wide(90)])], 0);
    [Row { after, ..rows[0] }, rows[1]]
}

/// Several causes at once: 11, 12, 15, 9, 10 in this order.
pub fn order() -> Vec<CallCase> {
    let mut cases = Vec::new();
    for causes in 0..32 {
        let chosen = |cause: usize| causes >> cause & 1;
        let mut case = on_rows(&wide_group([2, 0][chosen(0)]));
        case.world.rendering.pen = pen([[0, 385][chosen(1)], 0, 0]);
        case.world.marks = vec![4; [8, 2][chosen(2)]];
        let stop = [2, 3][chosen(3)];
        let width = [80, 39][chosen(4)];
        case.calls =
            vec![render_at(width, stop, 3), render_at(width, stop, PLENTY)];
        cases.push(case);
    }
    cases
}
