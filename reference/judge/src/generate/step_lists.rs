//! Lists of steps: those of trees, legal or not, and damage to steps and to
//! their bytes.

use super::{Draft, damaged, edges, realistic, wild};
use crate::{
    image::Tree,
    random::Random,
    reader::MOST_COMMENTS,
    steps::{Step, joined},
};

/// No other generator has this number.
const RANDOM: u64 = 91;

/// The list with this index: one in eight is that of a legal tree, the others
/// are damaged in one way or, now and then, in two.
pub fn list(seed: u64, index: u64) -> Vec<u8> {
    let mut random = Random::new(RANDOM, seed, index);
    let random = &mut random;
    let mut draft = match random.below(3) {
        0 => realistic::draft(random),
        1 => edges::draft(random),
        _ => wild::draft(random),
    };
    // Comments out of order would hide all that is wrong behind them.
    if !index.is_multiple_of(8) {
        draft.comments = wild::in_order(&draft.comments);
    }
    if random.once_in(8) {
        return joined(&of_draft(&draft));
    }
    if random.once_in(3) {
        damage_draft(random, &mut draft);
    }
    let mut steps = of_draft(&draft);
    if random.once_in(3) {
        return bad_bytes(random, &steps);
    }
    damage(random, &mut steps);
    joined(&steps)
}

fn damage_draft(random: &mut Random, draft: &mut Draft) {
    if random.once_in(4) {
        damaged::damage_comments(random, draft);
    } else {
        damaged::damage_tree(random, draft);
    }
}

/// The steps of a draft, which need not be legal.
pub(super) fn of_draft(draft: &Draft) -> Vec<Step> {
    let comments = draft.comments.iter().map(|span| Step::Comment {
        start: span.start as u32,
        end: span.end as u32,
    });
    let mut steps: Vec<Step> = comments.collect();
    of_tree(&mut steps, &draft.tree);
    steps
}

/// The steps of a tree, which need not be legal.
pub(super) fn of_tree(steps: &mut Vec<Step>, tree: &Tree) {
    steps.push(Step::Open {
        kind: tree.kind,
        start: tree.span.start as u32,
        end: tree.span.end as u32,
    });
    match tree.payload.split_first_chunk() {
        Some((width, text)) if tree.kind == 2 => steps.push(Step::Text {
            width: u16::from_be_bytes(*width),
            text: text.to_vec(),
        }),
        _ => steps.extend(tree.payload.iter().map(|x| Step::Payload(*x))),
    }
    for child in &tree.children {
        match child {
            Some(child) => of_tree(steps, child),
            None => steps.push(Step::Absent),
        }
    }
    steps.push(Step::Close);
}

/// Damage to whole steps.
fn damage(random: &mut Random, steps: &mut Vec<Step>) {
    let count = steps.len();
    let at = random.below(count);
    match random.below(13) {
        0 => drop(steps.remove(at)),
        1 => steps.insert(at, steps[at].clone()),
        2 => steps.swap(at, (at + 1) % count),
        3 => steps.swap(at, random.below(count)),
        4 | 5 => steps.insert(at, any_step(random)),
        6 => steps[at] = any_step(random),
        7 => steps.push(any_step(random)),
        8 => steps.truncate(at),
        9 => damage_record(random, steps, at),
        10 => damage_numbers(random, &mut steps[at]),
        11 => damage_payload(random, steps),
        _ => damage_comments(random, steps),
    }
}

/// Any step, its numbers mostly small.
fn any_step(random: &mut Random) -> Step {
    let start = random.below(20) as u32;
    let end = random.below(20) as u32;
    match random.below(6) {
        0 => Step::Comment { start, end },
        1 => Step::Open {
            kind: random.between(1, 90) as u8,
            start,
            end,
        },
        2 => Step::Text {
            width: random.below(20) as u16,
            text: any_text(random),
        },
        3 => Step::Payload(random.below(16) as u8),
        4 => Step::Absent,
        _ => Step::Close,
    }
}

/// One in four isn't UTF-8.
fn any_text(random: &mut Random) -> Vec<u8> {
    match random.once_in(4) {
        true => random.pick(&damaged::BAD_UTF8).to_vec(),
        false => "aé日".as_bytes()[..*random.pick(&[0, 1, 3, 6])].to_vec(),
    }
}

/// A step with other numbers.
fn damage_numbers(random: &mut Random, step: &mut Step) {
    match step {
        Step::Comment { start, end } => {
            (*start, *end) = (*end, *random.pick(&[*start, *end]));
        }
        Step::Open { kind, start, end } => match random.below(3) {
            0 => *kind = random.byte(),
            1 => (*start, *end) = (*end + 1, *start),
            _ => (*start, *end) = (u32::MAX, u32::MAX),
        },
        Step::Text { text, .. } => {
            let bad = random.pick(&damaged::BAD_UTF8);
            let at = random.between(0, text.len());
            text.splice(at..at, bad.iter().copied());
        }
        Step::Payload(byte) => *byte = random.byte(),
        Step::Absent => *step = Step::Close,
        Step::Close => *step = Step::Absent,
    }
}

/// A payload byte is doubled, left out, or too large for most.
fn damage_payload(random: &mut Random, steps: &mut Vec<Step>) {
    let is_payload = |step: &Step| matches!(step, Step::Payload(_));
    let places = (0..steps.len()).filter(|i| is_payload(&steps[*i]));
    let places: Vec<usize> = places.collect();
    if places.is_empty() {
        return steps.insert(1, Step::Payload(random.byte()));
    }
    let at = *random.pick(&places);
    match random.below(5) {
        0 => drop(steps.remove(at)),
        1 | 2 => steps.insert(at, steps[at].clone()),
        _ => {
            let byte = *random.pick(&[3, 4, 5, 14, 15, 255]);
            steps[at] = Step::Payload(byte);
        }
    }
}

/// The first record that is opened here or later is left out, absent,
/// doubled, or put under many others.
fn damage_record(random: &mut Random, steps: &mut Vec<Step>, at: usize) {
    let Some((from, to)) = record_from(steps, at) else {
        return steps.truncate(at);
    };
    match random.below(4) {
        0 => drop(steps.drain(from..to)),
        1 => drop(steps.splice(from..to, [Step::Absent])),
        2 => {
            let again = steps[from..to].to_vec();
            drop(steps.splice(to..to, again));
        }
        _ => {
            let levels = random.between(50, 66);
            let open = Step::Open {
                kind: *random.pick(&[60, 64, 68, 70]),
                start: 0,
                end: 0,
            };
            steps.splice(to..to, vec![Step::Close; levels]);
            steps.splice(from..from, vec![open; levels]);
        }
    }
}

/// Where the first record that is opened here or later begins and ends.
fn record_from(steps: &[Step], at: usize) -> Option<(usize, usize)> {
    let opens = |step: &Step| matches!(step, Step::Open { .. });
    let from = at + steps[at..].iter().position(opens)?;
    let mut depth = 0;
    for (place, step) in steps.iter().enumerate().skip(from) {
        match step {
            Step::Open { .. } => depth += 1,
            Step::Close => depth -= 1,
            _ => {}
        }
        if depth == 0 {
            return Some((from, place + 1));
        }
    }
    None
}

/// A comment that is empty or reversed, or one among the records; seldom as
/// many as there may be, or one more.
fn damage_comments(random: &mut Random, steps: &mut Vec<Step>) {
    let is_comment = |step: &&Step| matches!(step, Step::Comment { .. });
    let comments = steps.iter().take_while(is_comment).count();
    let start = random.below(100) as u32;
    let end = match random.below(3) {
        0 => start,
        1 => random.below(start as usize + 1) as u32,
        _ => start + 1,
    };
    let comment = Step::Comment { start, end };
    if random.once_in(12) {
        let most = random.between(MOST_COMMENTS - 1, MOST_COMMENTS + 1);
        steps.splice(0..comments, numbered_comments(most));
    } else if random.once_in(4) {
        steps.insert(random.between(comments, steps.len() - 1), comment);
    } else {
        steps.insert(random.between(0, comments), comment);
    }
}

/// So many comments of a byte each, every one where the one before ends.
pub(super) fn numbered_comments(count: usize) -> Vec<Step> {
    let comment = |start| Step::Comment {
        start,
        end: start + 1,
    };
    (0..count as u32).map(comment).collect()
}

/// Damage that takes no notice of steps, or hits a step's first byte or the
/// length of a text.
fn bad_bytes(random: &mut Random, steps: &[Step]) -> Vec<u8> {
    let mut list = joined(steps);
    let at = random.below(list.len());
    let first = joined(&steps[..random.below(steps.len())]).len();
    match random.below(6) {
        0 => list.truncate(at),
        1 => list[at] = random.byte(),
        2 => list[at] ^= 1 << random.below(8),
        3 => list[first] = *random.pick(&[0, 7, 8, 9, 128, 255]),
        4 => {
            let past = (at + random.between(1, 8)).min(list.len());
            list.drain(at..past);
        }
        _ => damage_length(random, steps, &mut list),
    }
    list
}

/// The length of a text is one more or less, or goes far past the list.
fn damage_length(random: &mut Random, steps: &[Step], list: &mut Vec<u8>) {
    let is_text = |step: &&Step| matches!(step, Step::Text { .. });
    let texts = steps.iter().filter(is_text).count();
    let chosen = random.below(texts.max(1));
    let mut places = (0..steps.len()).filter(|i| is_text(&&steps[*i]));
    let Some(place) = places.nth(chosen) else {
        return list.clear();
    };
    let length = joined(&steps[..place]).len() + 3;
    match random.below(3) {
        0 => list[length] = random.byte(),
        1 => list[length + 3] = list[length + 3].wrapping_add(1),
        _ => list[length + 3] = list[length + 3].wrapping_sub(1),
    }
}
