//! Texts that are whole, that cut a character, and that are none: refusal 11.

use super::{
    super::{
        CallCase,
        rendering::parts::{Part, Text, group, if_wrap, wide},
    },
    image, on, render,
};
use crate::{
    rows::{IMAGE, SOURCE, WORDS},
    rule::{SUPPLIED, UNICODE_15_1, UNICODE_16_0},
};

const RULES: [usize; 2] = [UNICODE_15_1, UNICODE_16_0];

/// `日`, without its first byte.
const TORN: Text = [SOURCE, 3, 2];
/// `日`.
const WHOLE: Text = [SOURCE, 2, 3];

/// Of the source: whole, ending and starting inside a character, empty inside
/// one, between two and at the end. Of the image: the same, behind its
/// header's five bytes; at the byte 80 of its length; in what only looks like
/// a character; in what is none; and at the end, which cuts one off.
const TEXTS: [Text; 34] = [
    [SOURCE, 0, 15],
    [SOURCE, 2, 6],
    [SOURCE, 2, 4],
    [SOURCE, 0, 3],
    [SOURCE, 3, 2],
    [SOURCE, 4, 4],
    [SOURCE, 12, 2],
    [SOURCE, 3, 0],
    [SOURCE, 4, 0],
    [SOURCE, 9, 0],
    [SOURCE, 13, 0],
    [SOURCE, 5, 0],
    [SOURCE, 15, 0],
    [IMAGE, 5, 15],
    [IMAGE, 5, 3],
    [IMAGE, 8, 2],
    [IMAGE, 8, 0],
    [IMAGE, 17, 0],
    [IMAGE, 0, 4],
    [IMAGE, 0, 5],
    [IMAGE, 4, 0],
    [IMAGE, 4, 1],
    [IMAGE, 20, 0],
    [IMAGE, 22, 2],
    [IMAGE, 23, 0],
    [IMAGE, 26, 0],
    [IMAGE, 25, 2],
    [IMAGE, 28, 3],
    [IMAGE, 31, 2],
    [IMAGE, 33, 4],
    [IMAGE, 37, 1],
    [IMAGE, 132, 0],
    [IMAGE, 133, 0],
    [WORDS, 3, 0],
];

/// Each of them under the two rules in turn, and all as if widths were
/// supplied: then no text is refused.
pub fn torn() -> Vec<CallCase> {
    let rules = RULES.into_iter().cycle();
    let under_rules = TEXTS.into_iter().zip(rules);
    let mut cases: Vec<_> = under_rules
        .map(|(text, rule)| on(&[Part::Ascii(text)], rule))
        .collect();
    let all = TEXTS.map(Part::Ascii);
    cases.push(on(&all, SUPPLIED));
    cases
}

/// Each kind that has a text.
pub fn kinds() -> Vec<CallCase> {
    let of_text =
        |text| [Part::Comment(text), Part::Str(2, text), Part::Ascii(text)];
    let mut cases = Vec::new();
    for text in [TORN, WHOLE, [SOURCE, 4, 0], [IMAGE, 37, 1]] {
        for part in of_text(text) {
            let ahead = Part::Ascii(WHOLE);
            cases.push(on(&[ahead, part], UNICODE_16_0));
        }
    }
    cases
}

/// A torn text before a row that doesn't nest, and behind one; in the part of
/// an `IfWrap` that isn't chosen, and in both parts of a `Call`.
pub fn neighbours() -> Vec<CallCase> {
    let mut cases = Vec::new();
    for rule in [SUPPLIED, UNICODE_15_1] {
        let not_nested = |place: usize| {
            let nodes = [Part::Ascii(TORN), wide(2), Part::Ascii(TORN)];
            let mut case = on(&nodes, rule);
            // Its row after is the row itself.
            case.world.store[9 * place + 4] = place as u32;
            case
        };
        cases.extend([1, 2, 0].map(not_nested));
        let torn = || Part::Ascii(TORN);
        // The second group outgrows the first; the torn text is within both.
        let nested = group(0, [group(1, [torn()])]);
        let mut outgrown = on(&[nested, wide(1)], rule);
        outgrown.world.store[9 + 4] = 4;
        cases.push(outgrown);
        cases.push(on(&[if_wrap(0, torn(), wide(1))], rule));
        cases.push(on(&[if_wrap(0, wide(1), torn())], rule));
        cases.push(on(&[group(0, [wide(1), torn()])], rule));
        let call = |callee, arguments| {
            Part::Call(0, vec![callee], 1, vec![arguments])
        };
        cases.push(on(&[call(torn(), wide(1))], rule));
        cases.push(on(&[call(wide(1), torn())], rule));
    }
    cases
}

/// Torn texts that no call reads: before its next row, and behind its stop.
pub fn unread() -> Vec<CallCase> {
    let nodes = [Part::Ascii(TORN), Part::Ascii(WHOLE), Part::Ascii(TORN)];
    let mut case = on(&nodes, UNICODE_16_0);
    case.world.rendering.next_row = 1;
    case.calls = [1, 2, 3, 2]
        .map(|stop| render(UNICODE_16_0, stop, 9))
        .to_vec();
    vec![case]
}

/// Every text of the source, and of the image as far as it is of all sorts and
/// at its end, of none to five bytes: too many to store.
pub fn every() -> Vec<CallCase> {
    const LONGEST: u32 = 5;
    let source = super::CHARACTERS.len() as u32;
    let image = image().len() as u32;
    let starts = (0..=source).map(|start| (SOURCE, start, source));
    let starts = starts
        .chain((0..=40).map(|start| (IMAGE, start, image)))
        .chain((image - 6..=image).map(|start| (IMAGE, start, image)));
    let mut cases = Vec::new();
    for (origin, start, size) in starts {
        for length in 0..=LONGEST.min(size - start) {
            let text = [origin, start, length];
            let part = match (start + length) % 3 {
                0 => Part::Comment(text),
                1 => Part::Str(start, text),
                _ => Part::Ascii(text),
            };
            let rule = RULES[(start % 2) as usize];
            cases.push(on(&[part], rule));
        }
    }
    cases
}
