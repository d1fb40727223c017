//! Images of small formulas: all of them, byte for byte, and sizes and places
//! that there are not. Each image goes through both formatters and both
//! checks of operators.

use judge::{
    formulas::{COUNTS, MOST, write},
    frame::Frame,
    width::REFERENCE,
};

use super::{Tally, frames, rooms, verdicts};

/// How many formulas there are.
const ALL: usize = {
    let (mut all, mut size) = (0, 0);
    while size < MOST {
        all += COUNTS[size];
        size += 1;
    }
    all
};

/// Places tried behind the last of a size.
const PAST: [u64; 5] = [0, 1, 100, 1 << 32, u64::MAX];

/// Sizes that there are not.
const NO_SIZES: [u64; 6] = [0, 8, 9, 1 << 32, (1 << 32) + 3, u64::MAX];

/// How many sizes and places are tried.
pub const CASES: usize = ALL + (MOST + NO_SIZES.len()) * PAST.len();

/// The size and the place of a case: those of a formula, then others.
fn case(mut number: usize) -> (u64, u64) {
    for (size, count) in (1..).zip(COUNTS) {
        if number < count {
            return (size, number as u64);
        }
        number -= count;
    }
    let [past, size] = [number % PAST.len(), number / PAST.len()];
    match COUNTS.get(size) {
        Some(count) => {
            let behind = PAST[past].saturating_add(*count as u64);
            (size as u64 + 1, behind)
        }
        None => (NO_SIZES[size - MOST], PAST[past]),
    }
}

/// A size and a place, with just enough room, with a byte too few, with none
/// and with room to spare.
pub fn compare(tally: &mut Tally, number: usize) {
    let (size, place) = case(number);
    let due = write(size as usize, place as usize, usize::MAX);
    let refused = due.as_ref().err().map_or(0, |refusal| refusal.number);
    tally.count("formulas", refused);
    let what = format!("formula {place} of size {size}");
    rooms::compare(tally, &what, &due, |output| {
        crate::formula(size, place, output)
    });
    let Ok(image) = due else { return };
    let frame = Frame {
        source: b"",
        image: &image,
    };
    frames::compare_parts(tally, "formulas", frame, REFERENCE);
    let heading = format!("formulas of size {size}");
    verdicts::compare_one(tally, &heading, frame.source, frame.image);
}

#[test]
fn each_case_is_another() {
    let mut cases: Vec<_> = (0..CASES).map(case).collect();
    cases.sort_unstable();
    cases.dedup();
    assert_eq!(cases.len(), CASES);
    assert_eq!((case(0), case(ALL - 1)), ((1, 0), (7, 1_063)));
    assert_eq!((case(ALL), case(CASES - 1)), ((1, 1), (u64::MAX, u64::MAX)));
}
