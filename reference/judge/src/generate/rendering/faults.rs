//! Each cause of refusal 11, in the first row and in later ones.

use super::{
    super::CallCase,
    parts::{
        IMAGE, PLENTY, Part, SOURCE, each_kind, group, if_wrap, on, on_rows,
        render, rows, wide, word,
    },
};
use crate::{
    calls::MOST_ROWS,
    rows::{self as kinds, Row},
};

/// Rows with some of their numbers changed: row, place in the row, number.
type Edits<'e> = &'e [(usize, usize, u32)];

const SECOND: usize = 3;
const AFTER: usize = 4;
const ORIGIN: usize = 5;
const START: usize = 6;
const LENGTH: usize = 7;

/// The rows of nodes with edits, first alone, then behind two rows that the
/// call reads.
fn edited(parts: &[Part], edits: Edits) -> [CallCase; 2] {
    let alone = on_rows(&changed(rows(parts, 0), edits, 0));
    let mut ahead = rows(&[group(0, [word()])], 0);
    ahead.extend(changed(rows(parts, 2), edits, 2));
    [alone, on_rows(&ahead)]
}

/// Numbers that name rows count from `base`, too.
fn changed(mut rows: Vec<Row>, edits: Edits, base: u32) -> Vec<Row> {
    for (row, place, number) in edits {
        let mut cells = rows[*row].cells();
        let names_a_row = matches!(*place, SECOND | AFTER);
        let shift = if names_a_row { base } else { 0 };
        cells[*place] = number.saturating_add(shift);
        rows[*row] = Row::from_cells(cells);
    }
    rows
}

/// Stops past the store and past the most rows; up to there, no fault.
pub fn stops() -> Vec<CallCase> {
    let mut case = on(&[word(), Part::Line]);
    // Cells that make no row.
    case.world.store.extend([3; 8]);
    let stops = [0, 1, 3, 2, 2, MOST_ROWS, MOST_ROWS + 1, u32::MAX as usize];
    case.calls = stops.map(|stop| render(stop, PLENTY)).to_vec();
    let mut empty = on(&[]);
    empty.calls = vec![render(1, 0), render(0, 0)];
    vec![case, empty]
}

/// Ranges that are not nested, past the stop, or a leaf's with parts.
pub fn ranges() -> Vec<CallCase> {
    let nested = [group(0, [group(1, [word()]), word()]), word()];
    let edits: [Edits; 10] = [
        &[(1, AFTER, 5)],
        &[(1, AFTER, 6)],
        &[(1, AFTER, u32::MAX)],
        &[(1, AFTER, 1)],
        &[(1, AFTER, 0)],
        &[(0, AFTER, 0)],
        &[(0, AFTER, 6)],
        &[(2, AFTER, 4)],
        &[(2, AFTER, 2)],
        &[(4, AFTER, 6)],
    ];
    let mut cases: Vec<_> = edits
        .into_iter()
        .flat_map(|edits| edited(&nested, edits))
        .collect();
    for leaf in each_kind().into_iter().filter(is_leaf) {
        let [alone, behind] = edited(&[leaf, word()], &[(0, AFTER, 2)]);
        cases.push(alone);
        cases.push(behind);
    }
    // The stop cuts the group.
    for stop in 0..=5 {
        let mut cut = on(&nested);
        cut.calls = vec![render(stop, PLENTY)];
        cases.push(cut);
    }
    cases
}

fn is_leaf(part: &Part) -> bool {
    rows(std::slice::from_ref(part), 0).len() == 1
}

/// `IfWrap` without exactly two parts, or a second part that isn't one.
pub fn if_wraps() -> Vec<CallCase> {
    // Rows: the `IfWrap`, a group of two, a group of one, and a word.
    let first = group(0, [word(), word()]);
    let parts = [if_wrap(1, first, group(0, [word()])), word()];
    let edits: [Edits; 13] = [
        &[],
        &[(0, AFTER, 1), (0, SECOND, 1)],
        &[(0, AFTER, 4), (0, SECOND, 4)],
        &[(0, AFTER, 7)],
        &[(0, SECOND, 0)],
        &[(0, SECOND, 1)],
        &[(0, SECOND, 2)],
        &[(0, SECOND, 3)],
        &[(0, SECOND, 5)],
        &[(0, SECOND, 6)],
        &[(1, AFTER, 3)],
        &[(4, AFTER, 5)],
        &[(1, AFTER, 5), (0, SECOND, 5)],
    ];
    edits
        .into_iter()
        .flat_map(|edits| edited(&parts, edits))
        .collect()
}

/// A second part of `Call` that starts at no part and not at the end.
pub fn calls() -> Vec<CallCase> {
    // Rows: the `Call`, a group of one, a word, a group of one, and a word.
    let callee = vec![group(0, [word()]), word()];
    let arguments = vec![group(1, [word()])];
    let parts = [Part::Call(0, callee, 1, arguments), word()];
    let mut cases = Vec::new();
    for second in [0, 1, 2, 3, 4, 5, 6, u32::MAX] {
        cases.extend(edited(&parts, &[(0, SECOND, second)]));
    }
    let edits: [Edits; 7] = [
        &[(0, AFTER, 3), (0, SECOND, 3)],
        &[(0, AFTER, 3)],
        &[(0, AFTER, 1), (0, SECOND, 1)],
        &[(0, AFTER, 7)],
        &[(1, AFTER, 5)],
        &[(1, AFTER, 1)],
        &[(4, AFTER, 7)],
    ];
    for edits in edits {
        cases.extend(edited(&parts, edits));
    }
    // Where the second part is the end, a part past it is at fault itself.
    let at_end = Part::Call(0, vec![word()], 1, Vec::new());
    let [alone, _] = edited(&[at_end], &[(1, AFTER, 3)]);
    cases.push(alone);
    cases
}

/// A `Call` with two rows below: each second part with each range of the two,
/// right or wrong. Where the second part starts at the end, the call is right
/// whatever the ranges are.
pub fn call_ranges() -> Vec<CallCase> {
    let arguments = vec![group(0, []), group(1, [])];
    let parts = [Part::Call(0, vec![], 1, arguments), word()];
    let mut cases = Vec::new();
    for second in 0..=4 {
        for first in 0..=4 {
            cases.extend((0..=4).map(|last| {
                let edits = [
                    (0, SECOND, second),
                    (1, AFTER, first),
                    (2, AFTER, last),
                ];
                on_rows(&changed(rows(&parts, 0), &edits, 0))
            }));
        }
    }
    cases
}

/// Kinds, origins and texts that there are not.
pub fn cells() -> Vec<CallCase> {
    let words = kinds::fixed_words().len();
    let sizes = [SOURCE.len(), IMAGE.len(), words].map(|size| size as u32);
    let mut cases = Vec::new();
    for kind in [12, 13, 255, u32::MAX] {
        cases.extend(edited(&[Part::Line], &[(0, 0, kind)]));
    }
    for origin in [3, 255, u32::MAX] {
        cases.extend(edited(&[word()], &[(0, ORIGIN, origin)]));
    }
    for (origin, size) in (0..).zip(sizes) {
        let texts = [
            [size, 1],
            [0, size + 1],
            [size + 1, 0],
            [u32::MAX, 1],
            [1, u32::MAX],
            [u32::MAX, u32::MAX],
        ];
        for [start, length] in texts {
            let edits = [(0, START, start), (0, LENGTH, length)];
            let text = [origin, 0, 0];
            let texts =
                [Part::Ascii(text), Part::Comment(text), Part::Str(0, text)];
            let part = texts[start as usize % 3].clone();
            let [alone, behind] = edited(&[part], &edits);
            cases.push(if length == 0 { behind } else { alone });
        }
    }
    cases
}

/// Every place that a kind doesn't use, each holding 1 in turn, in the first
/// row or in a later one.
pub fn unused() -> Vec<CallCase> {
    let used: [&[usize]; 12] = [
        &[1],
        &[],
        &[],
        &[],
        &[5, 6, 7],
        &[5, 6, 7, 8],
        &[5, 6, 7],
        &[],
        &[],
        &[],
        &[1, 3],
        &[1, 2, 3],
    ];
    let mut cases = Vec::new();
    for (kind, used) in each_kind().into_iter().zip(used) {
        // Small rows do: the parts of a kind have nothing to say here.
        let kind = match kind {
            Part::Group(number, _) => group(number, []),
            Part::Indent(_) => Part::Indent(vec![]),
            Part::IndentNext(_) => Part::IndentNext(vec![]),
            Part::Call(..) => Part::Call(0, vec![], 1, vec![]),
            other => other,
        };
        for place in [1, 2, 3, 5, 6, 7, 8] {
            if !used.contains(&place) {
                let parts = std::slice::from_ref(&kind);
                let [alone, behind] = edited(parts, &[(0, place, 1)]);
                cases.push(if place % 2 == 0 { alone } else { behind });
            }
        }
    }
    cases
}

/// Faulty rows that no call reads: before the next row, and past the stop.
pub fn ignored() -> Vec<CallCase> {
    let bad = Row {
        kind: 99,
        ..Row::default()
    };
    let mut store = vec![bad, bad];
    store.extend(rows(&[group(0, [wide(90)]), word()], 2));
    store.extend([bad; 2]);
    let mut case = on_rows(&store);
    case.world.rendering.next_row = 2;
    case.calls = [2, 3, 4, 5, 6, 7].map(|stop| render(stop, PLENTY)).into();
    vec![case]
}
