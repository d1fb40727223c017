//! Trees with what is due for them: whether they are read back the same.

use super::{put_bytes, put_number};
use crate::{
    generate::OperatorCase,
    reads_back::{Verdict, reads_back},
};

/// A tree with its answer.
pub fn answered(case: &OperatorCase) -> Vec<u8> {
    let OperatorCase { source, image } = case;
    let mut out = Vec::new();
    put_bytes(&mut out, source);
    put_bytes(&mut out, image);
    let (number, place) = match reads_back(source, image) {
        Err(refusal) => (refusal.number, refusal.place as usize),
        Ok(Verdict::Same) => (0, 0),
        // No record stands at 0.
        Ok(Verdict::Differs(at)) => (0, at),
    };
    out.extend(u16::from(number).to_be_bytes());
    put_number(&mut out, place);
    out
}
