//! Images moved between the versions.

use judge::{moves::Way, refusal::Refusal};

use crate::{Out, port};

/// The port's move: how many bytes of the output the moved image takes.
pub fn moved(
    way: Way,
    source: &[u8],
    image: &[u8],
    output: &mut [u8],
) -> Result<usize, Refusal> {
    let mut out = Out::<3>::new();
    match way {
        Way::Forward => port::forward(source, image, output, out.places()),
        Way::Back => port::back(source, image, output, out.places()),
    }
    let [bytes] = out.accepted()?;
    Ok(bytes as usize)
}
