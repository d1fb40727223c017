//! Widths to choose, and frames for them.

use super::{damaged, edges, realistic, wild};
use crate::{
    random::Random,
    width::{LEGAL, REFERENCE},
};

/// Widths that are refused.
pub const ILLEGAL: [usize; 7] = [0, 1, 7, 39, 201, 1_000, u32::MAX as usize];

/// A legal width, the two ends and the reference often among them.
pub fn legal(random: &mut Random) -> usize {
    let [least, most] = [*LEGAL.start(), *LEGAL.end()];
    match random.below(4) {
        0 => *random.pick(&[least, least + 1, most - 1, most]),
        1 => *random.pick(&[REFERENCE - 1, REFERENCE, REFERENCE + 1, 100]),
        _ => random.between(least, most),
    }
}

/// What a call of a list chooses: nearly always the list's own width.
pub fn chosen(random: &mut Random, width: usize) -> usize {
    match random.below(24) {
        0 => *random.pick(&ILLEGAL),
        1 => legal(random),
        _ => width,
    }
}

/// A frame and a width for it, by seed and index: half of them with a line
/// that ends about at the width, and one width in 32 illegal.
pub fn wide_frame(seed: u64, index: u64) -> (Vec<u8>, usize) {
    let random = &mut Random::new(104, seed, index);
    let width = legal(random);
    let bytes = match random.below(8) {
        0 => damaged::frame(random),
        1 | 2 => realistic::draft(random).frame(),
        3 => wild::draft(random).frame(),
        _ => edges::draft_at(random, width).frame(),
    };
    let width = match random.below(32) {
        0 => *random.pick(&ILLEGAL),
        _ => width,
    };
    (bytes, width)
}
