//! Batches with what is due for them.

use super::{put_bytes, put_long, put_number};
use crate::{batch::batch, generate::BatchCase};

/// A batch with its answer where table and output have room.
pub fn answered(case: &BatchCase) -> Vec<u8> {
    let BatchCase { buffer, choice } = case;
    let mut out = Vec::new();
    put_bytes(&mut out, buffer);
    for number in [choice.width, choice.mode, choice.rule] {
        put_long(&mut out, number);
    }
    match batch(buffer, *choice, usize::MAX, usize::MAX) {
        Err(refusal) => {
            out.extend(u16::from(refusal.number).to_be_bytes());
            put_number(&mut out, refusal.place as usize);
        }
        Ok(batched) => {
            out.extend([0, 0]);
            put_number(&mut out, batched.files());
            out.extend(batched.table.iter().flat_map(|n| n.to_be_bytes()));
            put_bytes(&mut out, &batched.texts);
        }
    }
    out
}
