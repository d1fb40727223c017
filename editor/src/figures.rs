//! Figures of files, and what many files give together: a [`Report`] counts
//! one file after another, by the call [`count`].

use std::fmt;

use crate::{
    calls::refused,
    error::FormatError,
    file::File,
    linked::{self, numbers, sizes},
    refusal::Refusal,
};

/// What one file gives when it is formatted.
#[derive(Clone, Debug, Default, PartialEq, Eq, Hash)]
#[non_exhaustive]
pub struct Figures {
    /// The text's bytes.
    pub bytes: usize,
    /// The text's newlines, those in literals and comments included.
    pub newlines: usize,
    /// The greatest column that was reached.
    pub column: usize,
    /// Groups: parts that stand on one line or are wrapped.
    pub given: usize,
    /// Groups that were wrapped.
    pub wrapped: usize,
    /// Comments that the text holds.
    pub placed: usize,
    /// Comments that it doesn't hold.
    pub left: usize,
}

impl Figures {
    fn numbers(&self) -> [usize; 7] {
        [
            self.bytes,
            self.newlines,
            self.column,
            self.given,
            self.wrapped,
            self.placed,
            self.left,
        ]
    }

    fn from_numbers(numbers: [usize; 7]) -> Self {
        let [bytes, newlines, column, given, wrapped, placed, left] = numbers;
        Figures {
            bytes,
            newlines,
            column,
            given,
            wrapped,
            placed,
            left,
        }
    }
}

/// What the files counted so far give together, whatever their order. The
/// default is that of no file.
#[derive(Clone, Debug, Default, PartialEq, Eq, Hash)]
#[non_exhaustive]
pub struct Tallies {
    /// How many files were counted.
    pub files: usize,
    /// The sums of their figures; of `column` the greatest.
    pub all: Figures,
}

impl Tallies {
    fn numbers(&self) -> [usize; 8] {
        let [bytes, newlines, column, given, wrapped, placed, left] =
            self.all.numbers();
        let files = self.files;
        [files, bytes, newlines, column, given, wrapped, placed, left]
    }

    fn from_numbers(numbers: [usize; 8]) -> Self {
        let [files, all @ ..] = numbers;
        let all = Figures::from_numbers(all);
        Tallies { files, all }
    }
}

/// Groups wrapped over groups given, reduced: no number but 1 divides both.
#[derive(Clone, Copy, Debug, PartialEq, Eq, Hash)]
pub struct Fraction {
    /// The upper number.
    pub over: usize,
    /// The lower number, which is never 0.
    pub under: usize,
}

/// 0 over 1, as long as no group is given.
impl Default for Fraction {
    fn default() -> Self {
        Fraction { over: 0, under: 1 }
    }
}

impl fmt::Display for Fraction {
    fn fmt(&self, f: &mut fmt::Formatter<'_>) -> fmt::Result {
        write!(f, "{} over {}", self.over, self.under)
    }
}

/// What [`count`] answers.
#[derive(Clone, Debug, PartialEq, Eq)]
#[non_exhaustive]
pub struct Counted {
    /// What this file gives.
    pub figures: Figures,
    /// Wrapped over given of all files counted, this one included.
    pub fraction: Fraction,
}

/// Counts a file: its figures, which are added to the tallies. It has the
/// rows and marks of [`format_file`](crate::calls::format_file) and 65,536
/// bytes of output, and formats as
/// [`Options::AS_ROTO`](crate::Options::AS_ROTO) says.
///
/// # Errors
///
/// Refusals 20, for an image of version 2, 1 to 10, then 14, each of which
/// leaves the tallies as they were.
pub fn count(
    file: File<'_>,
    tallies: &mut Tallies,
) -> Result<Counted, Refusal> {
    let before = numbers(tallies.numbers());
    let mut out = [0; 18];
    linked::count(file.source, file.image, &before, &mut out);
    let [number, answer @ ..] = sizes(out);
    refused(number, answer[0])?;
    let [b, n, c, g, w, p, l, after @ .., over, under] = answer;
    *tallies = Tallies::from_numbers(after);
    Ok(Counted {
        figures: Figures::from_numbers([b, n, c, g, w, p, l]),
        fraction: Fraction { over, under },
    })
}

/// Counts one file after another, and keeps the tallies. A refused file
/// counts nowhere.
///
/// ```
/// use rrufthim::{File, encode, figures::Report};
///
/// let image = encode(&Default::default(), &[])?;
/// let mut report = Report::new();
/// for file in [File::new("", &image), File::new("", &image)] {
///     assert_eq!(report.count(file).expect("counted").bytes, 0);
/// }
/// assert_eq!(report.tallies().files, 2);
/// # Ok::<(), rrufthim::EncodeError>(())
/// ```
#[derive(Clone, Debug, Default)]
pub struct Report {
    tallies: Tallies,
    fraction: Fraction,
}

impl Report {
    /// A report of no file.
    pub fn new() -> Self {
        Report::default()
    }

    /// Counts a file, and answers its own figures.
    ///
    /// # Errors
    ///
    /// As [`count`], in words for people.
    pub fn count(&mut self, file: File<'_>) -> Result<Figures, FormatError> {
        let counted = count(file, &mut self.tallies);
        let counted = counted.map_err(|refusal| file.error(refusal))?;
        self.fraction = counted.fraction;
        Ok(counted.figures)
    }

    /// What the files counted so far give together.
    pub fn tallies(&self) -> &Tallies {
        &self.tallies
    }

    /// Their groups wrapped over groups given.
    pub fn fraction(&self) -> Fraction {
        self.fraction
    }
}
