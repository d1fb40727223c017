//! Images to move between the versions, and files of version 2 to format.

use super::{
    CallCase, Draft, broad, damaged, edges, entries, feet, lists, realistic,
    rules, wild,
};
use crate::{
    choice::Choice,
    frame,
    image::{self, Tree},
    random::Random,
    reader::{MOST_SOURCE, Version},
    rule::UNICODE_16_0,
    unicode::Edition,
};

const RANDOM: u64 = 109;
const RANDOM_LISTS: u64 = 110;
const RANDOM_FRAMES: u64 = 111;

/// A source and an image of either version, which some test may turn down.
#[derive(Clone, Debug)]
pub struct Case {
    pub source: Vec<u8>,
    pub image: Vec<u8>,
}

/// One by seed and index: in version 1 with the widths of Unicode 16.0, all of
/// them or all but a few; one in three with damage.
pub fn case(seed: u64, index: u64) -> Case {
    let random = &mut Random::new(RANDOM, seed, index);
    let mut draft = draft(random);
    let way = random.below(9);
    match way {
        0 => damaged::damage_comments(random, &mut draft),
        1 => damaged::damage_tree(random, &mut draft),
        _ => {}
    }
    let version = *random.pick(&[Version::One, Version::Two]);
    let wrong = *random.pick(&[usize::MAX, usize::MAX, 40, 4]);
    let mut image = in_version(random, &mut draft, version, wrong);
    if way == 2 {
        let way = random.below(8);
        damaged::damage_image(random, &draft.source, &mut image, way);
    }
    let mut source = draft.source.into_bytes();
    match random.below(64) {
        0 => source.resize(MOST_SOURCE + 1, b' '),
        1 => source.push(0xFF),
        _ => {}
    }
    Case { source, image }
}

/// A frame of version 2, by seed and index.
pub fn two_frame(seed: u64, index: u64) -> Vec<u8> {
    in_two(&mut Random::new(RANDOM_FRAMES, seed, index))
}

/// A frame of version 2.
pub(super) fn in_two(random: &mut Random) -> Vec<u8> {
    let mut draft = draft(random);
    let image = in_version(random, &mut draft, Version::Two, usize::MAX);
    frame::join(draft.source.as_bytes(), &image)
}

/// Calls on an image of version 2, by seed and index: nearly all choose the
/// rule of Unicode 16.0.
pub fn two_case(seed: u64, index: u64) -> CallCase {
    let random = &mut Random::new(RANDOM_LISTS, seed, index);
    let choice = Choice {
        rule: UNICODE_16_0,
        ..lists::choice(random)
    };
    let mut draft = match random.below(4) {
        0 => realistic::short_broad_draft(random),
        1 => broad::draft(random, choice),
        _ => draft(random),
    };
    let case = match random.below(4) {
        0 => lists::at_every_declaration(random, draft.clone(), choice),
        _ => lists::listed(random, draft.clone(), choice),
    };
    let mut case = rules::with_rules(random, case, choice.rule);
    case.source = draft.source.clone().into_bytes();
    case.image = in_version(random, &mut draft, Version::Two, usize::MAX);
    if random.once_in(8) {
        let (source, way) = (&draft.source, random.below(8));
        damaged::damage_image(random, source, &mut case.image, way);
    }
    entries::chosen(case, seed, index)
}

/// A legal file of any class.
fn draft(random: &mut Random) -> Draft {
    match random.below(8) {
        0 | 1 => realistic::draft(random),
        2 => realistic::short_broad_draft(random),
        3 => edges::draft(random),
        4 => feet::draft(random),
        5 => wild::draft(random),
        _ => broad::draft(random, Choice::REFERENCE),
    }
}

/// The image of a draft in a version. In version 1 each text has the width of
/// Unicode 16.0, but for one in so many.
pub(super) fn in_version(
    random: &mut Random,
    draft: &mut Draft,
    version: Version,
    wrong: usize,
) -> Vec<u8> {
    let shebang = draft.tree.children.first_mut().and_then(Option::as_mut);
    if let Some(shebang) = shebang
        && random.once_in(2)
    {
        let blanks = *random.pick(&["\n", " \u{3000}", "\t\u{2003}\r\n"]);
        shebang.payload.extend(blanks.as_bytes());
    }
    rewrite(random, &mut draft.tree, version, wrong, 0);
    image::write_as(version, &draft.comments, &draft.tree)
}

/// Below the tree stands the shebang first of all.
fn rewrite(
    random: &mut Random,
    tree: &mut Tree,
    version: Version,
    wrong: usize,
    depth: usize,
) {
    for (place, child) in tree.children.iter_mut().enumerate() {
        let Some(child) = child else { continue };
        rewrite(random, child, version, wrong, depth + 1);
        if child.kind != 2 {
            continue;
        }
        if version == Version::Two {
            // Damage may have left fewer.
            child.payload.drain(..child.payload.len().min(2));
        } else if let Some((width, text)) =
            child.payload.split_first_chunk_mut::<2>()
        {
            let right = due(text, depth == 0 && place == 0);
            let put = match random.once_in(wrong) {
                true => off(random, right),
                false => right,
            };
            *width = put.to_be_bytes();
        }
    }
}

/// The width of Unicode 16.0 of a text whose widths fit; of damaged ones any.
fn due(text: &[u8], shebang: bool) -> u16 {
    let text = std::str::from_utf8(text).unwrap_or_default();
    let text = if shebang { text.trim_end() } else { text };
    Edition::Unicode16_0.columns(text) as u16
}

/// Another width, about this one or anywhere.
fn off(random: &mut Random, width: u16) -> u16 {
    match random.below(4) {
        0 => width.wrapping_add(1),
        1 => width.wrapping_sub(1),
        2 => width ^ 0x100,
        _ => u16::from_be_bytes([random.byte(), random.byte()]),
    }
}
