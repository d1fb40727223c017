//! Modes to choose.

use crate::{
    mode::{NEW, OLD},
    random::Random,
};

/// Modes that are refused.
pub const ILLEGAL: [usize; 5] = [2, 3, 80, 256, u32::MAX as usize];

pub fn legal(random: &mut Random) -> usize {
    *random.pick(&[OLD, NEW])
}

/// What a call of a list chooses: nearly always the list's own mode.
pub fn chosen(random: &mut Random, mode: usize) -> usize {
    match random.below(24) {
        0 => *random.pick(&ILLEGAL),
        1 => other(mode),
        _ => mode,
    }
}

/// What a state carries that no call need have answered.
pub fn carried(random: &mut Random, mode: usize) -> usize {
    match random.below(8) {
        0 => *random.pick(&ILLEGAL),
        1 => other(mode),
        _ => mode,
    }
}

/// The other legal one.
pub fn other(mode: usize) -> usize {
    if mode == OLD { NEW } else { OLD }
}
