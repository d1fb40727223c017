//! Lists of layout and rendering calls whose rendering calls have allotments.

use super::{
    super::{entries, orders},
    CallCase, Document, calls, of_rows,
};
use crate::{
    allotment::ALL_ROWS,
    calls::{Call, RenderArgs},
    random::Random,
};

const RANDOM: u64 = 121;

/// The most rendering calls that stand in a list where one stood.
const MOST_PIECES: usize = 7;

/// A list by seed and index.
pub fn case(seed: u64, index: u64) -> CallCase {
    let random = &mut Random::new(RANDOM, seed, index);
    match random.below(8) {
        0 => on_rows(random),
        1 => {
            let case = orders::list_case(seed, index);
            in_pieces(random, case)
        }
        2..=4 => {
            let choice = calls::choice(random);
            let draft = super::draft(random, choice);
            let case = calls::at_every_declaration(random, draft, choice);
            in_pieces(random, entries::chosen(case, seed, index))
        }
        _ => {
            let choice = calls::choice(random);
            let draft = super::draft(random, choice);
            let case = calls::listed(random, draft, choice);
            in_pieces(random, entries::chosen(case, seed, index))
        }
    }
}

/// Several calls with allotments in place of each rendering call.
fn in_pieces(random: &mut Random, mut case: CallCase) -> CallCase {
    let mut all = Vec::new();
    for one in &case.calls {
        let Call::Render(args) = one else {
            all.push(*one);
            continue;
        };
        for _ in 0..random.between(1, MOST_PIECES) {
            all.push(Call::Render(piece(random, *args)));
        }
    }
    case.calls = all;
    case
}

fn piece(random: &mut Random, args: RenderArgs) -> RenderArgs {
    let room = match random.below(12) {
        0 => random.below(12),
        _ => args.room,
    };
    let allotment = allotment(random, args.stop);
    RenderArgs {
        room,
        allotment,
        ..args
    }
}

/// So many rows of about as many, now and then none.
pub(super) fn allotment(random: &mut Random, rows: usize) -> usize {
    match random.below(16) {
        0 => 0,
        1 => ALL_ROWS,
        2 => 1 << 32,
        3 => rows.max(1),
        4..=6 => random.between(1, rows.max(1)),
        7..=9 => random.between(1, 30),
        _ => random.between(1, 4),
    }
}

/// Rows of any legal shape in pieces, with stops between them by turns.
fn on_rows(random: &mut Random) -> CallCase {
    let document = of_rows(random);
    let mut calls = Vec::new();
    for _ in 0..random.between(1, 3 * MOST_PIECES) {
        let stop = *random.pick(&document.ends);
        calls.push(whole(&document, stop));
    }
    let Document {
        ref source,
        ref image,
        ..
    } = document;
    let case = CallCase {
        source: source.clone(),
        image: image.clone(),
        world: document.world(),
        calls,
    };
    in_pieces(random, case)
}

/// A rendering call on a document, with room for any text.
pub(super) fn whole(document: &Document, stop: usize) -> Call {
    const ROOM: usize = 1 << 16;
    Call::Render(RenderArgs {
        stop,
        room: ROOM,
        width: document.page.width,
        rule: document.page.rule,
        allotment: ALL_ROWS,
    })
}
