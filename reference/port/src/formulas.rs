//! Images of small formulas.

use judge::refusal::Refusal;

use crate::{Out, port};

/// The port's formula of a size and a place: how many bytes of the output its
/// image takes.
pub fn formula(
    size: u64,
    place: u64,
    output: &mut [u8],
) -> Result<usize, Refusal> {
    let mut out = Out::<3>::new();
    port::formula(size, place, output, out.places());
    let [bytes] = out.accepted()?;
    Ok(bytes as usize)
}
