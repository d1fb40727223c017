//! Rules to choose, and lists of calls that choose them.

use super::{
    CallCase, broad, entries, feet, lists, random_rows, realistic, wild,
};
use crate::{
    calls::{Call, RenderArgs, World},
    choice::Choice,
    driver::Texts,
    image::with_header,
    random::Random,
    rows::{self, Row},
    rule::{SUPPLIED, UNICODE_15_1, UNICODE_16_0},
};

const RANDOM: u64 = 107;

/// Rules that are refused; the last two are legal in their lower four bytes.
pub const ILLEGAL: [usize; 6] =
    [0, 4, 1 << 32, usize::MAX, (1 << 32) + 1, (1 << 32) + 3];

pub fn legal(random: &mut Random) -> usize {
    *random.pick(&[SUPPLIED, UNICODE_15_1, UNICODE_16_0])
}

/// What a call of a list chooses: nearly always the list's own rule.
fn chosen(random: &mut Random, rule: usize) -> usize {
    match random.below(16) {
        0 => *random.pick(&ILLEGAL),
        1 => legal(random),
        _ => rule,
    }
}

/// What a state carries that no call need have answered.
fn carried(random: &mut Random, rule: usize) -> usize {
    match random.below(8) {
        0 => *random.pick(&[7, u32::MAX as usize]),
        1 => legal(random),
        2 | 3 => 0,
        _ => rule,
    }
}

/// Calls with rules, by seed and index.
pub fn case(seed: u64, index: u64) -> CallCase {
    let random = &mut Random::new(RANDOM, seed, index);
    let choice = Choice {
        rule: legal(random),
        ..lists::choice(random)
    };
    let case = match random.below(9) {
        0 => lists::unreadable(random),
        1 => lists::one_layout(random),
        2 | 3 => one_rendering(random),
        4 => {
            let draft = realistic::short_broad_draft(random);
            lists::at_every_declaration(random, draft, choice)
        }
        _ => {
            let draft = match random.below(5) {
                0 => wild::draft(random),
                1 => feet::draft(random),
                2 => realistic::broad_draft(random),
                _ => broad::draft(random, choice),
            };
            lists::listed(random, draft, choice)
        }
    };
    let case = with_rules(random, case, choice.rule);
    entries::chosen(case, seed, index)
}

/// Rules for the calls and for states that aren't fresh. Rendering may go by
/// another than layout.
pub(super) fn with_rules(
    random: &mut Random,
    mut case: CallCase,
    laid: usize,
) -> CallCase {
    let shown = match random.below(6) {
        0 => legal(random),
        _ => laid,
    };
    for call in &mut case.calls {
        match call {
            Call::Layout(args) => args.rule = chosen(random, laid),
            Call::Render(RenderArgs { rule, .. }) => {
                *rule = chosen(random, shown)
            }
        }
    }
    let World {
        laying, rendering, ..
    } = &mut case.world;
    if laying.begun || random.once_in(16) {
        laying.rule = carried(random, laid);
    }
    if *rendering != Default::default() {
        rendering.rule = carried(random, shown);
    }
    case
}

/// What rows point into: characters of one to four bytes, and in the image
/// bytes that are none. A length of 128 has a byte 80 to itself.
const SOURCE: &str = "ab é日本\u{302A}x\u{301}\u{1F980}か\u{3099} ﾊ\u{85}n";

fn image() -> Vec<u8> {
    let mut body = "\0\0変数é\u{20DD}z\u{1F3E3}".as_bytes().to_vec();
    body.extend(b"\x80 \xC3\xA9 \xE6\x97 \xED\xA0\x80 \xF0\x9F\xA6");
    body.resize(126, b'i');
    // The last character is cut off by the image's end.
    body.extend(b"\xE6\x97");
    with_header(&body)
}

/// One rendering call on rows of any shape, most of their texts whole.
fn one_rendering(random: &mut Random) -> CallCase {
    let image = image();
    let sizes = [SOURCE.len(), image.len()];
    let from = random.below(3);
    let mut rows = vec![Row::default(); from];
    rows.extend(random_rows::rows(random, sizes, from));
    let words = rows::fixed_words();
    let texts = Texts {
        source: SOURCE.as_bytes(),
        image: &image,
        words: words.as_bytes(),
    };
    // All texts whole, or a few of them as they fell.
    let torn = *random.pick(&[1 << 20, 1 << 20, 24, 6]);
    for row in &mut rows {
        if !random.once_in(torn) {
            make_whole(texts, row);
        }
    }
    if random.once_in(8) {
        random_rows::damage(random, &mut rows);
    }
    lists::on_rows(random, SOURCE.into(), image, &rows, from)
}

/// Moves the ends of a row's text on until they cut no character, and ends it
/// before the first byte that is none.
fn make_whole(texts: Texts, row: &mut Row) {
    let origin = texts.origin(row.origin).expect("an origin");
    let [start, end] = [row.start, row.start + row.length]
        .map(|at| boundary(origin, at as usize));
    row.start = start as u32;
    row.length = well_formed(&origin[start..end]).len() as u32;
}

/// What stands before the first byte that is no character's.
fn well_formed(bytes: &[u8]) -> &str {
    bytes.utf8_chunks().next().map_or("", |chunk| chunk.valid())
}

/// The next place that isn't inside a character of these bytes.
fn boundary(bytes: &[u8], at: usize) -> usize {
    let inside = |at: usize| {
        let starts = at.saturating_sub(3)..at;
        starts.into_iter().any(|start| {
            let first = well_formed(&bytes[start..]).chars().next();
            first.is_some_and(|first| start + first.len_utf8() > at)
        })
    };
    (at..=bytes.len())
        .find(|at| !inside(*at))
        .expect("the end is none")
}
