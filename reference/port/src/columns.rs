//! The columns of any text, by a rule.

use judge::refusal::Refusal;

use crate::{Out, port};

/// The port's columns of a text, which has so many where they are supplied:
/// refusal 20.
pub fn columns(
    text: &[u8],
    rule: usize,
    supplied: usize,
) -> Result<usize, Refusal> {
    let mut out = Out::<3>::new();
    port::columns(text, rule as u64, supplied as u64, out.places());
    let [columns] = out.accepted()?;
    Ok(columns as usize)
}
