//! Sizes and places with what is due for them: the images of small formulas.

use super::{put_bytes, put_long, put_number};
use crate::formulas;

/// A size and a place with their answer where there is room.
pub fn answered((size, place): (usize, usize)) -> Vec<u8> {
    let mut out = Vec::new();
    put_long(&mut out, size);
    put_long(&mut out, place);
    match formulas::write(size, place, usize::MAX) {
        Err(refusal) => {
            out.extend(u16::from(refusal.number).to_be_bytes());
            put_number(&mut out, refusal.place as usize);
        }
        Ok(image) => {
            out.extend([0, 0]);
            put_bytes(&mut out, &image);
        }
    }
    out
}
