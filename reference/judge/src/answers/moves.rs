//! Images to move with what is due for them.

use super::{put_bytes, put_number};
use crate::{
    generate::MoveCase,
    moves::{Way, moved},
};

/// An image with its answer in one way where there is room.
pub fn answered(way: Way, case: &MoveCase) -> Vec<u8> {
    let MoveCase { source, image } = case;
    let mut out = vec![match way {
        Way::Forward => 1,
        Way::Back => 2,
    }];
    put_bytes(&mut out, source);
    put_bytes(&mut out, image);
    match moved(way, source, image, usize::MAX) {
        Err(refusal) => {
            out.extend(u16::from(refusal.number).to_be_bytes());
            put_number(&mut out, refusal.place as usize);
        }
        Ok(moved) => {
            out.extend([0, 0]);
            put_bytes(&mut out, &moved);
        }
    }
    out
}
