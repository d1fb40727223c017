//! Images from steps, and the steps of an image.

use judge::refusal::Refusal;

use crate::{Out, port};

/// The port's writer: how many bytes of the output the image takes.
pub fn write(steps: &[u8], output: &mut [u8]) -> Result<usize, Refusal> {
    let mut out = Out::<3>::new();
    port::write(steps, output, out.places());
    let [bytes] = out.accepted()?;
    Ok(bytes as usize)
}

/// The port's steps of an image: how many bytes of the output they take.
pub fn steps(
    source: &[u8],
    image: &[u8],
    output: &mut [u8],
) -> Result<usize, Refusal> {
    let mut out = Out::<3>::new();
    port::steps(source, image, output, out.places());
    let [bytes] = out.accepted()?;
    Ok(bytes as usize)
}
