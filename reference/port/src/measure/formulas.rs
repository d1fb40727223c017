//! Images of small formulas, beside the judge's, which has made them all
//! before: it encodes one.

use std::hint::black_box;

use judge::formulas::{COUNTS, MOST, write};

use super::{Line, both, stack, steps::StackLine};

/// Room for any of them.
const ROOM: usize = 512;

/// All of the largest size, in ns an image.
pub fn of_the_largest() -> Line {
    let count = COUNTS[MOST - 1];
    let mut output = [0; ROOM];
    let mut ported = |place: usize| {
        let written = crate::formula(MOST as u64, place as u64, &mut output);
        written.expect("a formula")
    };
    let [port_seconds, rust_seconds] = both(
        || (0..count).map(&mut ported).sum::<usize>(),
        || {
            let image = |place| write(MOST, place, ROOM);
            let bytes = |place| image(place).expect("a formula").len();
            (0..count).map(bytes).sum::<usize>()
        },
    );
    Line {
        step: "formula",
        input: format!("all of size {MOST}"),
        size: count,
        unit: "image",
        port_seconds,
        rust_seconds,
    }
}

/// The stack that the deepest one takes, which is in parentheses alone.
pub fn stack_of() -> StackLine {
    let last = COUNTS[MOST - 1] as u64 - 1;
    StackLine {
        step: "formula",
        input: format!("the last of size {MOST}"),
        rows: 0,
        bytes: stack::used(|| {
            let mut output = [0; ROOM];
            let bytes = crate::formula(MOST as u64, last, &mut output);
            black_box(bytes.expect("a formula"));
        }),
    }
}
