//! A batch, with its answer as numbers.

use judge::{choice::Choice, refusal::Refusal};

use crate::{Out, port, typed::numbers};

/// What the port says of an accepted batch.
#[derive(Clone, Copy, Debug, PartialEq, Eq)]
pub struct Batched {
    pub files: u64,
    pub bytes: u64,
}

/// The port's batch of the frames in a buffer.
pub fn batch(
    frames: &[u8],
    choice: Choice,
    table: &mut [u32],
    output: &mut [u8],
) -> Result<Batched, Refusal> {
    let mut out = Out::<4>::new();
    let choice = numbers(choice);
    port::batch(frames, &choice, table, output, out.places());
    let [files, bytes] = out.accepted()?;
    Ok(Batched { files, bytes })
}
