//! Request 12: how many rows a rendering call may enter, and refusal 22.

use crate::refusal::{Refusal, refusal};

/// The largest allotment: as many rows as there are.
pub const ALL_ROWS: usize = usize::MAX;

/// Refusal 22.
pub fn check(allotment: usize) -> Result<(), Refusal> {
    match allotment {
        0 => Err(refusal(22, 0)),
        _ => Ok(()),
    }
}
