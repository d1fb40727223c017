//! Whether a tree's text would be read back as another tree.

use judge::{reads_back::Verdict, refusal::Refusal};

use crate::{ILL_FORMED, Out, port};

/// The port's verdict: 1 and 0 for yes, 0 and the operand's offset for no.
pub fn reads_back(source: &[u8], image: &[u8]) -> Result<Verdict, Refusal> {
    let mut out = Out::<4>::new();
    port::reads_back(source, image, out.places());
    match out.accepted()? {
        [1, 0] => Ok(Verdict::Same),
        [0, at] => Ok(Verdict::Differs(at as usize)),
        [yes, _] => Err(Refusal {
            number: ILL_FORMED,
            place: yes,
        }),
    }
}
