//! What rows measure by each rule, and rules that rendering carries.

use super::{
    super::{
        CallCase,
        rendering::parts::{PLENTY, Part, group},
        rules::ILLEGAL,
    },
    on, on_source, render,
};
use crate::{
    rows::{SOURCE, WORDS},
    rule::{LEGAL, SUPPLIED, UNICODE_15_1, UNICODE_16_0},
};

/// A rule, a text for it, and how many columns it takes.
type Measured = (usize, &'static str, usize);

/// Characters of each width, and such as the editions differ about.
const MEASURED: [Measured; 12] = [
    (UNICODE_15_1, "日", 2),
    (UNICODE_16_0, "日", 2),
    (SUPPLIED, "日", 3),
    (UNICODE_15_1, "e\u{301}", 1),
    (UNICODE_16_0, "n\u{20DD}", 1),
    (UNICODE_15_1, "\u{302A}", 2),
    (UNICODE_16_0, "か\u{3099}", 4),
    (UNICODE_15_1, "\u{4DC0}", 1),
    (UNICODE_16_0, "\u{4DC0}", 2),
    (UNICODE_15_1, "\u{1171E}a", 1),
    (UNICODE_16_0, "\u{1171E}a", 2),
    (UNICODE_16_0, "\u{7F}", 1),
];

/// A group of a text again and again, a break, and letters, which is 80 or 81
/// columns wide: it stays or wraps. The character before the break stands at
/// the line's end.
pub fn turning() -> Vec<CallCase> {
    let mut cases = Vec::new();
    for (rule, text, columns) in MEASURED {
        let count = 70 / columns;
        for whole in [80, 81] {
            let source = text.repeat(count);
            let long = Part::Ascii([SOURCE, 0, source.len() as u32]);
            let rest = whole - columns * count - 1;
            let letters = Part::Ascii([WORDS, 0, rest as u32]);
            let parts = [letters, Part::LineOrSpace, long];
            cases.push(on_source(&source, &[group(0, parts)], rule));
        }
    }
    cases
}

/// A `Str` has the width of its row by every rule, also where the text is
/// another's.
pub fn widths_stand() -> Vec<CallCase> {
    let mut cases = Vec::new();
    for rule in LEGAL {
        for width in [0, 77, 78, u32::MAX] {
            let text = Part::Str(width, [SOURCE, 2, 6]);
            let parts =
                [text, Part::LineOrSpace, Part::Ascii([SOURCE, 0, 2])];
            cases.push(on(&[group(0, parts)], rule));
        }
    }
    cases
}

/// Output just enough, one byte short, and none; and once more with room.
pub fn rooms() -> Vec<CallCase> {
    let text = Part::Ascii([SOURCE, 2, 12]);
    let parts = [text.clone(), Part::Str(2, [SOURCE, 2, 3]), text];
    let bytes = 12 + 3 + 12;
    let rows = parts.len();
    let case = |room| {
        let mut case = on(&parts, UNICODE_16_0);
        let [short, ample] =
            [room, PLENTY].map(|room| render(UNICODE_16_0, rows, room));
        case.calls = vec![short, ample];
        case
    };
    [0, bytes - 1, bytes].map(case).to_vec()
}

/// Each rule from states that carry none, each of them, and one that no call
/// could have chosen: 12 unless it is none or the same.
pub fn carried() -> Vec<CallCase> {
    let mut cases = Vec::new();
    for carried in [0, 1, 2, 3, 7, u32::MAX as usize] {
        let mut case = on(&[Part::Ascii([SOURCE, 2, 3])], SUPPLIED);
        case.world.rendering.rule = carried;
        case.calls = LEGAL.map(|rule| render(rule, 1, PLENTY)).collect();
        cases.push(case);
    }
    cases
}

/// Rules that can't be chosen, from states that carry none, the same and
/// another: 20.
pub fn illegal() -> Vec<CallCase> {
    let calls = ILLEGAL.map(|rule| render(rule, 1, PLENTY)).to_vec();
    let case = |carried| {
        let mut case = on(&[Part::Ascii([SOURCE, 2, 3])], SUPPLIED);
        case.world.rendering.rule = carried;
        case.calls.clone_from(&calls);
        case
    };
    [0, 4, SUPPLIED].map(case).to_vec()
}

/// An accepted call that reads nothing chooses too, and so does one that
/// reads rows; a refused one doesn't.
pub fn choices() -> Vec<CallCase> {
    let of = |calls: &[(usize, usize, usize)]| {
        let text = || Part::Ascii([SOURCE, 2, 3]);
        let mut case = on(&[text(), text(), text()], SUPPLIED);
        let calls = calls.iter();
        case.calls = calls
            .map(|(rule, stop, room)| render(*rule, *stop, *room))
            .collect();
        case
    };
    vec![
        of(&[(2, 0, 0), (1, 2, 9), (3, 2, 9), (2, 2, 9)]),
        of(&[(3, 1, 9), (2, 2, 9), (1, 2, 9), (3, 2, 9)]),
        of(&[(3, 3, 0), (4, 3, 9), (0, 3, 9), (2, 3, 9), (3, 3, 9)]),
        of(&[(1, 3, 9), (2, 3, 9), (1, 3, 9)]),
    ]
}
