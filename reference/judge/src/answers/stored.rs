//! The fixed sets of frames, lists of calls, lists of steps, images to move,
//! trees, formulas and batches that a port's own tests keep.

use std::collections::{BTreeMap, BTreeSet};

use super::{batches, calls, moves, verdicts as trees};
use crate::{
    examples,
    formulas::{COUNTS, MOST},
    frame,
    generate::{self, BatchCase, CallCase, Class, MoveCase, OperatorCase},
    listed::{Listed, MOST_LISTED},
    moves::{Way, moved},
    reader,
    reads_back::operands,
    steps::{self, Cause},
};

/// Document 01's worked frames, and the one that request 9 speaks of, by their
/// names in `examples`.
pub const WORKED: [&str; 3] = ["shebang", "version-3", "version-2"];

/// Class, seed, frames tried, and the most bytes of a frame that is kept.
pub const FRAMES: [(Class, u64, u64, usize); 8] = [
    (Class::Realistic, 1, 1_800, 900),
    (Class::Realistic, 2, 40, 8_000),
    (Class::Wild, 1, 1_500, 900),
    (Class::Wild, 2, 30, 8_000),
    (Class::Edges, 1, 900, 700),
    (Class::Damaged, 1, 1_600, 800),
    (Class::Damaged, 2, 80, 4_000),
    (Class::Sizes, 1, 33, frame::MOST_BYTES + 1),
];

/// A way to make lists, with the seed, lists tried, and the most bytes of a
/// list with its answers that is kept.
type Lists = (fn(u64, u64) -> CallCase, u64, u64, usize);

pub const LISTS: [Lists; 10] = [
    (generate::call_case, 1, 660, 4_000),
    (generate::cut_case, 1, 150, 10_000),
    (generate::foot_case, 1, 180, 2_200),
    (generate::unreadable_case, 1, 120, 4_000),
    // Its only one is a source too long.
    (generate::unreadable_case, LONG, 1, 70_000),
    (generate::rule_case, 1, 120, 2_000),
    (generate::two_case, 1, 300, 2_000),
    (generate::order_list, 1, 50, 2_800),
    (generate::allotment_list, 1, 60, 3_000),
    (handed, 1, 40, 2_500),
];

/// A state handed in. Its listed rows and their count have four bytes here.
fn handed(seed: u64, index: u64) -> CallCase {
    let (_, mut case) = generate::handed_case(seed, index);
    let listed = &mut case.world.rendering.listed;
    let least = |number: &u64| (*number).min(u32::MAX.into());
    let numbers: Vec<u64> = listed.numbers().iter().map(least).collect();
    let count = listed.count.min(MOST_LISTED + 1);
    *listed = Listed::of_numbers(count, &numbers);
    case
}

/// A seed under which the first source is one byte too long.
const LONG: u64 = 121;

/// The seed of the lists of steps, how many are tried, and the most bytes of
/// one that is kept.
pub const STEP_LISTS: (u64, u64, usize) = (1, 3_000, 900);

/// The most lists of steps that are kept for one cause of 16, and accepted.
pub const STEP_LISTS_EACH: [usize; 2] = [5, 20];

/// The most bytes of a batch with its answer that is kept.
pub const BATCH: usize = 12_000;

/// The seed of the images to move, how many are tried, and the most bytes of
/// one with its answer that is kept.
pub const MOVES: (u64, u64, usize) = (1, 1_500, 1_200);

/// The most images to move that are kept for a refusal in one way, and
/// accepted.
pub const MOVES_EACH: [usize; 2] = [4, 12];

/// The seed of the trees of operators, how many are tried, and the most bytes
/// of one with its answer that is kept.
pub const TREES: (u64, u64, usize) = (1, 2_000, 700);

/// The most trees of operators that are kept for a refusal, and for each rule
/// that is broken first, and for none.
pub const TREES_EACH: [usize; 2] = [3, 6];

/// Of sizes under this all formulas are stored, of the others each seventh.
pub const FEW: usize = 6;
const EACH: usize = 7;

pub fn frames() -> impl Iterator<Item = Vec<u8>> {
    let worked = WORKED.map(|name| examples::frame(name).expect("known"));
    let made = FRAMES.into_iter().flat_map(|(class, seed, count, most)| {
        let all = generate::frames(class, seed, count);
        all.filter(move |frame| frame.len() <= most)
    });
    worked.into_iter().chain(made)
}

pub fn lists() -> impl Iterator<Item = CallCase> {
    LISTS.into_iter().flat_map(|(case, seed, count, most)| {
        let all = (0..count).map(move |index| case(seed, index));
        all.filter(move |case| calls::answered(case).len() <= most)
    })
}

/// A few lists for each cause of 16, and some that are accepted.
pub fn step_lists() -> Vec<Vec<u8>> {
    let (seed, count, most) = STEP_LISTS;
    let mut kept: BTreeMap<Option<Cause>, usize> = BTreeMap::new();
    let made = (0..count).map(|index| generate::step_list(seed, index));
    let all = [vec![]].into_iter().chain(made);
    let mut seen = BTreeSet::new();
    all.filter(|list| seen.insert(list.clone()))
        .filter(|list| {
            let cause = steps::follow(list).err().map(|fault| fault.cause);
            let each = STEP_LISTS_EACH[usize::from(cause.is_none())];
            let known = kept.entry(cause).or_default();
            let keep = list.len() <= most && *known < each;
            *known += usize::from(keep);
            keep
        })
        .collect()
}

/// The fixed list of batches, without the long ones.
pub fn batches() -> impl Iterator<Item = &'static BatchCase> {
    let all = generate::fixed_batches().iter().map(|case| &case.batch);
    all.filter(|batch| batches::answered(batch).len() <= BATCH)
}

/// The fixed list of images to move, without the long ones, and a few more for
/// each answer; each in the way in which it is tried.
pub fn moves() -> Vec<(Way, MoveCase)> {
    let (seed, count, most) = MOVES;
    let fixed = generate::move_cases().iter().map(|case| case.of.clone());
    let made = (0..count).map(|index| generate::move_case(seed, index));
    let mut kept: BTreeMap<(bool, u8), usize> = BTreeMap::new();
    let mut stored = Vec::new();
    let all = fixed.map(|case| (true, case));
    for (fixed, case) in all.chain(made.map(|case| (false, case))) {
        for way in [Way::Forward, Way::Back] {
            let answer = moved(way, &case.source, &case.image, usize::MAX);
            let number = answer.err().map_or(0, |refusal| refusal.number);
            let key = (way == Way::Forward, number);
            let each = MOVES_EACH[usize::from(number == 0)];
            let known = kept.entry(key).or_default();
            let short = moves::answered(way, &case).len() <= most;
            if short && (fixed || *known < each) {
                *known += usize::from(!fixed);
                stored.push((way, case.clone()));
            }
        }
    }
    stored
}

/// The trees of the fixed list that are stored, and a few generated ones for
/// each answer.
pub fn verdicts() -> Vec<OperatorCase> {
    let (seed, count, most) = TREES;
    let fixed = generate::operator_cases().iter();
    let fixed = fixed.filter(|case| case.stored);
    let mut stored: Vec<_> = fixed.map(|case| case.of.clone()).collect();
    let mut kept = BTreeMap::new();
    for index in 0..count {
        let case = generate::operator_case(seed, index);
        let read = reader::read(&case.source, &case.image);
        let first = |read| operands(&read).first().map(|one| one.rule);
        let answer = read.map(first);
        let answer = answer.map_err(|refusal| refusal.number);
        let each = TREES_EACH[usize::from(answer.is_ok())];
        let known: &mut usize = kept.entry(answer).or_default();
        if trees::answered(&case).len() <= most && *known < each {
            *known += 1;
            stored.push(case);
        }
    }
    stored
}

/// Sizes and places of formulas: each size's first places, its last, the count
/// and further on; and sizes that there are not.
pub fn formulas() -> impl Iterator<Item = (usize, usize)> {
    let there = (1..=MOST).zip(COUNTS).flat_map(|(size, count)| {
        let step = if size < FEW { 1 } else { EACH };
        let past = [count - 1, count, count + 1, usize::MAX];
        let places = (0..count - 1).step_by(step).chain(past);
        places.map(move |place| (size, place))
    });
    let no_sizes = [0, MOST + 1, 1 << 32, usize::MAX];
    let none = no_sizes.map(|size| [0, 1, usize::MAX].map(|at| (size, at)));
    there.chain(none.into_iter().flatten())
}
