//! Comment lists in order and out of it (request 10), on files of all classes
//! and of both versions.

use std::ops::Range;

use super::{
    CallCase, Draft, broad, damaged, edges, entries, feet, lists, moves,
    realistic, step_lists, wild,
};
use crate::{
    choice::Choice,
    frame,
    random::Random,
    reader::Version,
    rule::{SUPPLIED, UNICODE_16_0},
    steps::joined,
};

const RANDOM: u64 = 114;
const RANDOM_LISTS: u64 = 115;

/// Calls of a list at the archive entry, of eight.
const HALF: usize = 4;

/// What is done to a list that is in order.
#[derive(Clone, Copy, Debug, PartialEq, Eq, PartialOrd, Ord)]
pub enum Way {
    /// Nothing.
    Ordered,
    /// Each comment starts where the one before ends.
    Touching,
    /// One starts a character before the end of the one before.
    Overlapping,
    Shuffled,
    Reversed,
    /// One of them stands elsewhere.
    Moved,
    /// Two that stand side by side change places.
    Swapped,
    /// One is there twice.
    Doubled,
    /// One out of order, and an empty one somewhere before it.
    EmptyBefore,
    /// One out of order, and an empty one somewhere behind it.
    EmptyBehind,
}

impl Way {
    pub const ALL: [(Way, &str); 10] = [
        (Way::Ordered, "in order"),
        (Way::Touching, "touching"),
        (Way::Overlapping, "overlapping by one"),
        (Way::Shuffled, "shuffled"),
        (Way::Reversed, "reversed"),
        (Way::Moved, "one moved"),
        (Way::Swapped, "two swapped"),
        (Way::Doubled, "one twice"),
        (Way::EmptyBefore, "behind an empty one"),
        (Way::EmptyBehind, "before an empty one"),
    ];

    pub fn name(self) -> &'static str {
        let known = Way::ALL.into_iter().find(|(known, _)| *known == self);
        known.expect("all are listed").1
    }
}

/// A file whose comments are in order or not, and as a list of steps.
#[derive(Clone, Debug)]
pub struct Case {
    pub way: Way,
    pub frame: Vec<u8>,
    /// The steps of version 1.
    pub steps: Vec<u8>,
}

/// One by seed and index: each way in turn.
pub fn case(seed: u64, index: u64) -> Case {
    let random = &mut Random::new(RANDOM, seed, index);
    let (way, _) = Way::ALL[index as usize % Way::ALL.len()];
    let mut draft = draft(random, way, Choice::REFERENCE);
    if random.once_in(8) {
        damaged::damage_tree(random, &mut draft);
    }
    let steps = joined(&step_lists::of_draft(&draft));
    let image = match random.once_in(4) {
        true => version_2(random, &mut draft),
        false => draft.image(),
    };
    Case {
        way,
        frame: frame::join(draft.source.as_bytes(), &image),
        steps,
    }
}

/// A list of calls at both entries on such a file, by seed and index.
pub fn list_case(seed: u64, index: u64) -> CallCase {
    let random = &mut Random::new(RANDOM_LISTS, seed, index);
    let is_two = random.once_in(4);
    let choice = Choice {
        rule: if is_two { UNICODE_16_0 } else { SUPPLIED },
        ..lists::choice(random)
    };
    let (way, _) = *random.pick(&Way::ALL);
    let mut draft = draft(random, way, choice);
    let mut case = match random.below(3) {
        0 => lists::at_every_declaration(random, draft.clone(), choice),
        _ => lists::listed(random, draft.clone(), choice),
    };
    if is_two {
        case.source = draft.source.clone().into_bytes();
        case.image = version_2(random, &mut draft);
    }
    entries::with_share(random, case, HALF)
}

fn version_2(random: &mut Random, draft: &mut Draft) -> Vec<u8> {
    moves::in_version(random, draft, Version::Two, usize::MAX)
}

/// A legal file of any class, but for its comments.
fn draft(random: &mut Random, way: Way, choice: Choice) -> Draft {
    let mut draft = match random.below(8) {
        0 | 1 => realistic::draft(random),
        2 => realistic::short_broad_draft(random),
        3 => edges::draft_at(random, choice.width),
        4 => feet::draft(random),
        5 | 6 => wild::draft(random),
        _ => broad::draft(random, choice),
    };
    // So that there are characters enough for a list.
    draft.source.push_str("// a\n// é\n");
    let mut comments = wild::in_order(&draft.comments);
    if comments.len() < 3 || way == Way::Touching {
        comments = ordered(random, &draft.source, way == Way::Touching);
    }
    spoil(random, way, &draft.source, &mut comments);
    draft.comments = comments;
    draft
}

/// Comments in order, three at least: some of them touch, or all do.
fn ordered(
    random: &mut Random,
    source: &str,
    touching: bool,
) -> Vec<Range<usize>> {
    let ends = wild::boundaries(source);
    let last = ends.len() - 1;
    let count = *random.pick(&[3, 3, 5, 12, 40]);
    let wide = last / count;
    let mut comments = Vec::new();
    let mut at = 0;
    while at < last && comments.len() < count {
        let gap = match touching || random.once_in(3) {
            true => 0,
            false => random.below(wide.min(last - at).max(1)),
        };
        let end = at + gap + random.between(1, wide.clamp(1, 12));
        comments.push(ends[at + gap]..ends[end.min(last)]);
        at = end;
    }
    comments
}

/// Does to a list what is wanted of it. It has three comments at least.
fn spoil(
    random: &mut Random,
    way: Way,
    source: &str,
    comments: &mut Vec<Range<usize>>,
) {
    let count = comments.len();
    let later = random.between(1, count - 1);
    match way {
        Way::Ordered | Way::Touching => {}
        Way::Overlapping => overlap(source, comments, later),
        Way::Shuffled => {
            for last in (1..count).rev() {
                comments.swap(last, random.below(last + 1));
            }
        }
        Way::Reversed => comments.reverse(),
        Way::Moved => {
            let moved = comments.remove(later);
            comments.insert(random.below(count), moved);
        }
        Way::Swapped => comments.swap(later - 1, later),
        Way::Doubled => comments.insert(later, comments[later].clone()),
        Way::EmptyBefore => {
            overlap(source, comments, later);
            put_empty(comments, random.below(later));
        }
        Way::EmptyBehind => {
            overlap(source, comments, later);
            put_empty(comments, random.between(later + 1, count));
        }
    }
}

/// Moves a comment's start to the character before the end of the one before.
fn overlap(source: &str, comments: &mut [Range<usize>], which: usize) {
    let end = comments[which - 1].end;
    let before = source[..end].char_indices().next_back();
    comments[which].start = before.expect("it isn't empty").0;
}

/// An empty comment, where the one before ends.
fn put_empty(comments: &mut Vec<Range<usize>>, place: usize) {
    let end = comments[..place].last().map_or(0, |before| before.end);
    comments.insert(place, end..end);
}
