//! All small formulas (request 14): trees to try on whatever reads an image.

use crate::{calls, refusal::Refusal};

/// The images of all formulas of a size, in order, each once: the expressions
/// from the path `a`, negation, parentheses, `+` and `*` with so many records,
/// each as the value of `const c: u32`. There are 1, 2, 6, 20, 72, 272 and
/// 1,064 of sizes 1 to [`MAX_FORMULA_SIZE`](crate::limits::MAX_FORMULA_SIZE),
/// and none of any other size.
///
/// No span of theirs has any bytes, so that they go with every source. Not all
/// of them are [read back](crate::reads_back) as they are.
///
/// ```
/// use rrufthim::{File, Formatter, formulas};
///
/// let mut formatter = Formatter::new();
/// let texts = formulas(2).map(|image| {
///     let formatted = formatter.format_file(File::new("", &image))?;
///     Ok(formatted.text.to_owned())
/// });
/// let texts: Result<Vec<_>, rrufthim::FormatError> = texts.collect();
/// assert_eq!(texts?, ["const c: u32 = -a;\n", "const c: u32 = (a);\n"]);
/// # Ok::<(), rrufthim::FormatError>(())
/// ```
pub fn formulas(size: usize) -> Formulas {
    Formulas { size, place: 0 }
}

/// The images of the formulas of a size, one after the other: what
/// [`formulas`] gives.
#[derive(Clone, Debug, PartialEq, Eq)]
pub struct Formulas {
    size: usize,
    place: usize,
}

impl Iterator for Formulas {
    type Item = Vec<u8>;

    fn next(&mut self) -> Option<Vec<u8>> {
        self.nth(0)
    }

    /// Goes there at once: an image is found without those before it.
    fn nth(&mut self, passed: usize) -> Option<Vec<u8>> {
        let at = self.place.checked_add(passed)?;
        let image = image(self.size, at)?;
        self.place = at + 1;
        Some(image)
    }
}

/// The image of the formula of a size and a place, if there is one.
fn image(size: usize, place: usize) -> Option<Vec<u8>> {
    // Without room the library says how many bytes are needed.
    let needed = match calls::formula(size, place, &mut []) {
        Err(Refusal::MoreRoom { needed }) => needed,
        _ => return None,
    };
    let mut image = vec![0; needed];
    calls::formula(size, place, &mut image).ok()?;
    Some(image)
}
