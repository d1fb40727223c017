//! Request 4: what closing does with the comments after the last declaration,
//! which a caller may choose.

use crate::refusal::{Refusal, refusal};

/// They stay in the list, as in `fmt_parsed`.
pub const OLD: usize = 0;

/// They are placed before the final `Line`.
pub const NEW: usize = 1;

/// Refusal 12 of a whole file: a mode over 1.
pub fn check(mode: usize) -> Result<(), Refusal> {
    if mode <= NEW {
        Ok(())
    } else {
        Err(refusal(12, 0))
    }
}
