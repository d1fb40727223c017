//! Request 3: the columns of a line, the `max` of `Renderer`, which a caller
//! may choose.

use std::ops::RangeInclusive;

use crate::refusal::{Refusal, refusal};

/// What `fmt_parsed` has.
pub const REFERENCE: usize = 80;

/// What a caller may choose.
pub const LEGAL: RangeInclusive<usize> = 40..=200;

/// Refusal 15: a width that isn't legal, or that differs from a carried one,
/// where 0 is none.
pub fn check(width: usize, carried: usize) -> Result<(), Refusal> {
    let kept = carried == 0 || carried == width;
    if LEGAL.contains(&width) && kept {
        Ok(())
    } else {
        Err(refusal(15, 0))
    }
}
