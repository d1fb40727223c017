//! The calls of the static library on lists of steps.

use super::Step;
use crate::{
    calls::refused,
    error::FormatError,
    file::File,
    linked::{self, sizes},
    refusal::Refusal,
};

/// Writes the image, of version 1, of a list of steps into the output, from
/// its start on, and says how many bytes it has.
///
/// # Errors
///
/// Refusals 16, 17, each of which leaves the output as it was.
pub fn write_image(list: &[u8], output: &mut [u8]) -> Result<usize, Refusal> {
    let mut out = [0; 2];
    linked::write(list, output, &mut out);
    written(out)
}

/// Writes the list of the steps of an image of version 1 into the output, from
/// its start on, and says how many bytes it has.
///
/// # Errors
///
/// Refusals 1 to 7 (3 for an image of version 2 too), 17, each of which leaves
/// the output as it was.
pub fn write_list(
    file: File<'_>,
    output: &mut [u8],
) -> Result<usize, Refusal> {
    let mut out = [0; 2];
    linked::steps(file.source, file.image, output, &mut out);
    written(out)
}

/// How many bytes were written.
fn written(out: [u64; 2]) -> Result<usize, Refusal> {
    let [number, bytes] = sizes(out);
    refused(number, bytes)?;
    Ok(bytes)
}

/// The steps of an image of version 1, to look at it or to change it.
///
/// ```
/// use rrufthim::{File, encode, generator::steps};
///
/// let image = encode(&Default::default(), &[])?;
/// for step in steps(File::new("", &image))? {
///     println!("{step}");
/// }
/// # Ok::<(), Box<dyn std::error::Error>>(())
/// ```
///
/// # Errors
///
/// Refusals 1 to 7, 3 for an image of version 2 too, in words for people.
pub fn steps(file: File<'_>) -> Result<Vec<Step>, FormatError> {
    // The steps of a text record without text take most for their bytes of
    // image: 18 for 15.
    let mut list = vec![0; file.image.len() + file.image.len() / 5];
    let written = write_list(file, &mut list);
    let steps = written.and_then(|bytes| read(&list[..bytes]));
    steps.map_err(|refusal| file.error(refusal))
}

/// The steps that a list holds, whether or not an image can be written from
/// them.
///
/// # Errors
///
/// Refusal 16, with the offset of the first step that is unknown or cut off,
/// or has a text that isn't UTF-8.
pub fn read(list: &[u8]) -> Result<Vec<Step>, Refusal> {
    let mut steps = Vec::new();
    let mut at = 0;
    while at < list.len() {
        let bad = Refusal::BadStep { at };
        let step = Step::at(list, at).ok_or(bad)?;
        at += step.bytes();
        steps.push(step);
    }
    Ok(steps)
}
