//! The fixed list of rendering calls holds what it is made for.

use std::collections::BTreeSet;

use judge::{
    answers,
    calls::{self, Answer, Call, Given, RenderArgs, RenderState},
    generate::{self, CallCase},
    refusal::Refusal,
    rows::{self, Row},
};

fn given(case: &CallCase) -> Given<'_> {
    Given {
        source: &case.source,
        image: &case.image,
    }
}

/// What each case's calls answer.
fn answered() -> Vec<(CallCase, Vec<Result<Answer, Refusal>>)> {
    let cases = generate::rendering_cases().into_iter();
    let run = |case: CallCase| {
        let mut world = case.world.clone();
        let answers = calls::run(given(&case), &mut world, &case.calls);
        (case, answers)
    };
    cases.map(run).collect()
}

/// Numbers and places of all refusals.
fn refusals() -> BTreeSet<(u8, u64)> {
    let answers = answered().into_iter().flat_map(|(_, answers)| answers);
    let refused = answers.filter_map(Result::err);
    refused.map(|no| (no.number, no.place)).collect()
}

#[test]
fn the_file_is_small() {
    let cases = generate::rendering_cases();
    let size: usize = cases
        .iter()
        .map(|case| answers::calls::answered(case).len())
        .sum();
    assert!(size < 480_000, "{size}");
}

#[test]
fn every_refusal_of_rendering_but_1_and_2_is_there() {
    let numbers: BTreeSet<u8> =
        refusals().into_iter().map(|(number, _)| number).collect();
    assert_eq!(numbers, BTreeSet::from([3, 9, 10, 11, 12, 15, 20]));
}

#[test]
fn widths_are_refused_and_accepted() {
    let mut given = BTreeSet::new();
    for (case, answers) in answered() {
        let carried = case.world.rendering.width;
        if let [Call::Render(RenderArgs { width, .. })] = case.calls[..]
            && let [answer] = answers[..]
        {
            let number = answer.err().map_or(0, |refusal| refusal.number);
            given.insert((number, width, carried));
        }
    }
    let most = u32::MAX as usize;
    for due in [
        (15, 0, 0),
        (15, 39, 0),
        (15, 39, 39),
        (0, 40, 0),
        (0, 40, 40),
        (15, 40, 100),
        (15, 40, 7),
        (15, 7, 7),
        (0, 200, 200),
        (15, 201, 0),
        (15, most, 0),
    ] {
        assert!(given.contains(&due), "{due:?}");
    }
}

#[test]
fn places_go_to_their_ends() {
    let refusals = refusals();
    for due in [(9, 1 << 32), (9, u64::from(u32::MAX)), (9, 4), (9, 10)] {
        assert!(refusals.contains(&due), "{due:?}");
    }
    for due in [(11, 0), (11, 1), (11, 2), (11, 3), (11, 256)] {
        assert!(refusals.contains(&due), "{due:?}");
    }
}

#[test]
fn every_unused_place_is_tried() {
    let mut tried = BTreeSet::new();
    for (case, answers) in answered() {
        let Some(Err(Refusal { number: 11, place })) = answers.first() else {
            continue;
        };
        let rows = case.world.rows(case.world.room_for_rows());
        let Some(row) = rows.get(*place as usize) else {
            continue;
        };
        for (cell, number) in row.cells().into_iter().enumerate() {
            if number != 0 {
                tried.insert((row.kind, cell));
            }
        }
    }
    let used: [&[usize]; 12] = [
        &[1],
        &[],
        &[],
        &[],
        &[5, 6, 7],
        &[5, 6, 7, 8],
        &[5, 6, 7],
        &[],
        &[],
        &[],
        &[1, 3],
        &[1, 2, 3],
    ];
    for (kind, used) in (0..).zip(used) {
        for cell in [1, 2, 3, 5, 6, 7, 8] {
            let due = !used.contains(&cell);
            assert!(!due || tried.contains(&(kind, cell)), "{kind} {cell}");
        }
    }
}

#[test]
fn every_kind_is_rendered_at_column_0_and_elsewhere() {
    let mut kinds = BTreeSet::new();
    for (case, answers) in answered() {
        let RenderState { pen, next_row, .. } = case.world.rendering;
        if matches!(answers.first(), Some(Ok(_)))
            && let Some(row) = case.world.store.get(next_row * Row::CELLS)
        {
            kinds.insert((*row, pen.column == 0));
        }
    }
    for kind in rows::GROUP..=rows::CALL {
        assert!(kinds.contains(&(kind, true)), "{kind}");
        assert!(kinds.contains(&(kind, false)), "{kind}");
    }
}

/// Each pair of marks is left by some case.
#[test]
fn marks_come_out_in_every_way() {
    let mut left = BTreeSet::new();
    for case in generate::rendering_cases() {
        let mut world = case.world.clone();
        calls::run(given(&case), &mut world, &case.calls);
        let in_use = world.rendering.marks_in_use;
        left.insert(world.marks[..in_use.min(world.marks.len())].to_vec());
    }
    for due in [[0, 0], [0, 1], [1, 0], [1, 1]] {
        assert!(left.contains(&due[..]), "{due:?}");
    }
}
