//! Lists of steps with what is due for them.

use super::{put_bytes, put_number};
use crate::steps;

/// A list with its answer where there is room.
pub fn answered(list: &[u8]) -> Vec<u8> {
    let mut out = Vec::new();
    put_bytes(&mut out, list);
    match steps::write(list, usize::MAX) {
        Err(refusal) => {
            out.extend(u16::from(refusal.number).to_be_bytes());
            put_number(&mut out, refusal.place as usize);
        }
        Ok(image) => {
            out.extend([0, 0]);
            put_bytes(&mut out, &image);
        }
    }
    out
}
