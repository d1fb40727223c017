//! At which entry the layout calls of a list are made: the strict one, or the
//! one for archived images.

use super::CallCase;
use crate::{
    calls::Call,
    random::Random,
    reader::{self, Reading},
};

/// No other generator has this number.
const RANDOM: u64 = 113;

/// How many in eight calls are made at the archive entry, list by list. Where
/// comments run backwards, the strict one lays nothing out.
const WHERE_ORDERED: [usize; 4] = [0, 0, 4, 8];
const WHERE_BACKWARDS: [usize; 4] = [4, 7, 8, 8];
const EIGHT: usize = 8;

/// A case with an entry for each of its layout calls, by seed and index.
pub fn chosen(case: CallCase, seed: u64, index: u64) -> CallCase {
    let random = &mut Random::new(RANDOM, seed, index);
    let shares = match runs_backwards(&case) {
        true => WHERE_BACKWARDS,
        false => WHERE_ORDERED,
    };
    let share = *random.pick(&shares);
    with_share(random, case, share)
}

/// A case with so many in eight of its layout calls at the archive entry.
pub fn with_share(
    random: &mut Random,
    mut case: CallCase,
    share: usize,
) -> CallCase {
    for call in &mut case.calls {
        if let Call::Layout(args) = call {
            args.archive = random.below(EIGHT) < share;
        }
    }
    case
}

/// Whether the order of its comments is all that an image is refused for.
fn runs_backwards(case: &CallCase) -> bool {
    let CallCase { source, image, .. } = case;
    let accepts = |reading| reader::read_by(source, image, reading).is_ok();
    accepts(Reading::Earlier) && !accepts(Reading::Strict)
}
