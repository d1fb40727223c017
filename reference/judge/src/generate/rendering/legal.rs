//! Rows without fault: what is written, and which groups wrap.

use super::{
    super::CallCase,
    parts::{
        IMAGE, PLENTY, Part, SOURCE, comment, each_kind, group, if_wrap, on,
        on_from, render, render_at, wide, word,
    },
};
use crate::rows;

/// Every kind at column 0 and not, in a group and not, with indents.
pub fn kinds() -> Vec<CallCase> {
    let pens = [[0, 0, 0], [2, 1, 5], [2, 3, 0]];
    let mut cases = Vec::new();
    for kind in each_kind() {
        for pen in pens {
            cases.push(on_from(pen, &[kind.clone(), word()]));
        }
        let flat = group(1, [kind.clone(), Part::LineOrSpace, word()]);
        let wrapped = [Part::WrapParent, kind, Part::LineOrSpace, word()];
        cases.push(on_from([1, 0, 0], std::slice::from_ref(&flat)));
        cases.push(on_from([1, 1, 76], &[flat]));
        cases.push(on_from([1, 0, 0], &[group(0, wrapped)]));
    }
    cases
}

/// Groups and calls about as wide as a line.
pub fn widths() -> Vec<CallCase> {
    let mut cases = Vec::new();
    let halves = |width: u32| [wide(40), Part::LineOrSpace, wide(width - 41)];
    for width in 78..=82 {
        cases.push(on(&[group(0, halves(width))]));
        cases.push(on_from([2, 0, 0], &[group(0, halves(width - 8))]));
        cases.push(on_from([2, 0, 3], &[group(1, halves(width - 3))]));
        let supplied = Part::Str(width, [rows::SOURCE, 0, 1]);
        cases.push(on(&[group(0, [supplied, Part::Line]), word()]));
        for arguments in 1..=3 {
            let called = call(vec![wide(width - arguments)], arguments);
            cases.push(on(&[called]));
        }
        let called = call(vec![wide(width - 44)], 40);
        cases.push(on_from([1, 0, 0], std::slice::from_ref(&called)));
        cases.push(on(&[group(1, [called])]));
    }
    let most = Part::Str(u32::MAX, [rows::SOURCE, 0, 1]);
    cases.push(on(&[group(0, vec![most.clone(); 9]), most, word()]));
    cases
}

/// Groups and calls about as wide as a line of another width.
pub fn other_widths() -> Vec<CallCase> {
    let mut cases = Vec::new();
    for width in [40, 100, 200] {
        let half = width / 2;
        let halves = |columns: u32| {
            [wide(half), Part::LineOrSpace, wide(columns - half - 1)]
        };
        for columns in width - 2..=width + 2 {
            let callee = vec![wide(half), wide(columns - half - 2)];
            let called = call(callee, 2);
            let of = [
                on_from([2, 0, 0], &[group(0, halves(columns - 8))]),
                on(&[called]),
            ];
            cases.extend(of.map(|case| at_width(case, width as usize)));
        }
    }
    cases
}

/// A case whose call chooses a width.
fn at_width(mut case: CallCase, width: usize) -> CallCase {
    let rows = case.world.room_for_rows();
    case.calls = vec![render_at(width, rows, PLENTY)];
    case
}

fn call(callee: Vec<Part>, arguments: u32) -> Part {
    let arguments = vec![Part::Line, wide(arguments), Part::Line];
    Part::Call(0, callee, 1, arguments)
}

/// `IfWrap` and `Call` in every legal form.
pub fn choices() -> Vec<CallCase> {
    let chosen = |number| if_wrap(number, wide(10), word());
    let long = group(0, [wide(60), Part::LineOrSpace, wide(60)]);
    let short = group(0, [wide(6), Part::LineOrSpace, word()]);
    let nested = if_wrap(0, chosen(1), group(1, [wide(90), Part::Line]));
    let inside = |number| group(1, [wide(70), chosen(number), Part::Line]);
    let mut cases = vec![
        on(&[long.clone(), chosen(0), chosen(1)]),
        on(&[short.clone(), chosen(0), long.clone(), chosen(0)]),
        on(&[chosen(0), nested.clone(), chosen(1)]),
        on(&[long.clone(), nested, chosen(1)]),
        on(&[long, inside(0), word()]),
        on(&[short, inside(0), word()]),
        on(&[inside(1), word()]),
    ];
    let commented = [
        comment(),
        Part::WrapParent,
        Part::Indent(vec![comment()]),
        Part::Indent(vec![Part::Indent(vec![Part::WrapParent])]),
        Part::IndentNext(vec![comment()]),
        group(0, [comment()]),
        if_wrap(0, comment(), comment()),
        Part::Call(1, vec![comment()], 0, vec![comment()]),
    ];
    for part in commented {
        let parts = [wide(60), part.clone(), Part::Line];
        cases.push(on_from([1, 0, 0], &[group(1, parts.clone())]));
        cases.push(on(&[call(parts.to_vec(), 30), word()]));
        let arguments = vec![wide(12), part];
        cases.push(on(&[Part::Call(1, vec![wide(70)], 0, arguments)]));
    }
    for [callee, arguments] in [[0, 0], [0, 2], [2, 0], [2, 2]] {
        let [callee, arguments] =
            [callee, arguments].map(|count| vec![wide(41); count]);
        let plain = Part::Call(0, callee, 1, arguments);
        cases.push(on(std::slice::from_ref(&plain)));
        cases.push(on(&[Part::Call(1, vec![plain], 0, vec![wide(8)])]));
    }
    cases
}

/// Repeated numbers, and marks that stand already.
pub fn marks() -> Vec<CallCase> {
    let chosen = if_wrap(0, wide(10), word());
    let short = group(0, [word(), Part::LineOrSpace, word()]);
    let long = group(0, [wide(50), Part::LineOrSpace, wide(50)]);
    let twice = Part::Call(0, vec![wide(70)], 0, vec![wide(30)]);
    let mut cases = Vec::new();
    for parts in [
        vec![long.clone(), short.clone(), chosen.clone()],
        vec![short, long, chosen.clone()],
        vec![twice, chosen],
    ] {
        for (marks, in_use) in
            [([1, 0], 0), ([1, 0], 1), ([0, 1], 2), ([1, 1], 2)]
        {
            let mut case = on(&parts);
            case.world.marks = [&marks[..], &[7, 1]].concat();
            case.world.rendering.marks_in_use = in_use;
            cases.push(case);
        }
    }
    cases
}

/// Texts at the ends of source, image and words, and whole.
pub fn texts() -> Vec<CallCase> {
    let words = rows::fixed_words().len();
    let sizes = [SOURCE.len(), IMAGE.len(), words].map(|size| size as u32);
    let mut cases = Vec::new();
    for (origin, size) in (0..).zip(sizes) {
        for text in [
            [origin, 0, 0],
            [origin, 0, size],
            [origin, size - 1, 1],
            [origin, size, 0],
        ] {
            let text =
                [Part::Ascii(text), Part::Str(2, text), Part::Comment(text)];
            cases.push(on_from([1, 0, 0], &text));
        }
    }
    cases
}

/// Stops at every row in turn, those inside a row with parts refused; and
/// calls that start inside one.
pub fn pieces() -> Vec<CallCase> {
    let parts = [
        word(),
        group(0, [word(), Part::LineOrSpace, Part::Indent(vec![word()])]),
        if_wrap(0, Part::Line, word()),
        Part::Call(1, vec![wide(70)], 2, vec![wide(20), Part::Line]),
        Part::IndentNext(vec![Part::EmptyLine, comment()]),
        word(),
    ];
    let mut all = on(&parts);
    all.world.marks = vec![5; 4];
    let count = all.world.room_for_rows();
    let mut cases = Vec::new();
    for from in [0, 3, 11] {
        let mut case = all.clone();
        case.world.rendering.next_row = from;
        case.calls = (from..=count).map(|at| render(at, PLENTY)).collect();
        cases.push(case);
    }
    cases
}
