//! Request 2 of document 02: the figures of a file, tallies over files, and
//! what refuses a file among them.

pub mod report;

use crate::{
    driver::Run,
    frame::Frame,
    program::{self, Widths},
    reader::Reading,
    refusal::{Refusal, refusal},
};

/// Files that tallies count.
pub const MOST_FILES: u64 = 4_096;
/// What each tally handed in may be.
pub const MOST_TALLY: u64 = 4_294_967_296;

/// What one file gives, in the order of the request.
#[derive(Clone, Copy, Debug, Default, PartialEq, Eq)]
pub struct Figures {
    /// The text's bytes.
    pub bytes: u64,
    /// Those that are 0A.
    pub newlines: u64,
    /// The greatest value that `column` takes.
    pub column: u64,
    /// Group numbers given.
    pub given: u64,
    /// Marks at 1.
    pub wrapped: u64,
    /// Comments placed.
    pub placed: u64,
    /// Comments left.
    pub left: u64,
}

impl Figures {
    /// Those of a run. Panics in the build for timing, which keeps no column.
    pub fn of(run: &Run) -> Self {
        if cfg!(not(debug_assertions)) {
            panic!("the greatest column isn't kept in this build");
        }
        let newlines = run.text.matches('\n').count();
        let wrapped = run.marks.iter().filter(|mark| **mark == 1).count();
        Figures {
            bytes: run.text.len() as u64,
            newlines: newlines as u64,
            column: run.greatest_column as u64,
            given: run.closed.next_number as u64,
            wrapped: wrapped as u64,
            placed: run.closed.comments_placed as u64,
            left: run.comments_left as u64,
        }
    }

    /// The seven in their order.
    pub fn numbers(&self) -> [u64; 7] {
        [
            self.bytes,
            self.newlines,
            self.column,
            self.given,
            self.wrapped,
            self.placed,
            self.left,
        ]
    }

    pub fn from_numbers(numbers: [u64; 7]) -> Self {
        let [bytes, newlines, column, given, wrapped, placed, left] = numbers;
        Figures {
            bytes,
            newlines,
            column,
            given,
            wrapped,
            placed,
            left,
        }
    }
}

/// What the files counted give together; fresh tallies are all 0.
#[derive(Clone, Copy, Debug, Default, PartialEq, Eq)]
pub struct Tallies {
    pub files: u64,
    /// Sums, and of `column` the greatest.
    pub all: Figures,
}

impl Tallies {
    /// These and one file more.
    fn with(&self, one: &Figures) -> Tallies {
        let all = &self.all;
        Tallies {
            files: self.files + 1,
            all: Figures {
                bytes: all.bytes + one.bytes,
                newlines: all.newlines + one.newlines,
                column: all.column.max(one.column),
                given: all.given + one.given,
                wrapped: all.wrapped + one.wrapped,
                placed: all.placed + one.placed,
                left: all.left + one.left,
            },
        }
    }

    /// Whether a file can be counted on top of these: if not, 14.
    fn accept_one_more(&self) -> bool {
        self.files < MOST_FILES
            && self.all.numbers().iter().all(|tally| *tally <= MOST_TALLY)
            && self.all.wrapped <= self.all.given
    }

    /// Wrapped over given.
    pub fn fraction(&self) -> Fraction {
        reduced(self.all.wrapped, self.all.given)
    }
}

#[derive(Clone, Copy, Debug, PartialEq, Eq)]
pub struct Fraction {
    pub over: u64,
    pub under: u64,
}

/// A fraction without the factors that both its numbers have; 0 over 1 where
/// the lower one is 0.
pub fn reduced(over: u64, under: u64) -> Fraction {
    if over == 0 || under == 0 {
        return Fraction { over: 0, under: 1 };
    }
    let primes = prime_factors(over).into_iter();
    primes.fold(Fraction { over, under }, |fraction, prime| {
        let Fraction { over, under } = fraction;
        match (over % prime, under % prime) {
            (0, 0) => Fraction {
                over: over / prime,
                under: under / prime,
            },
            _ => fraction,
        }
    })
}

/// The primes that a number is the product of, each as often as it is one.
fn prime_factors(number: u64) -> Vec<u64> {
    let mut primes = Vec::new();
    let mut rest = number;
    let mut factor = 2;
    while factor * factor <= rest {
        if rest.is_multiple_of(factor) {
            primes.push(factor);
            rest /= factor;
        } else {
            factor += 1;
        }
    }
    if rest > 1 {
        primes.push(rest);
    }
    primes
}

/// What a file that is counted answers.
#[derive(Clone, Copy, Debug, PartialEq, Eq)]
pub struct Counted {
    pub figures: Figures,
    /// With this file.
    pub tallies: Tallies,
    /// Wrapped over given of these tallies.
    pub fraction: Fraction,
}

/// Counts one file more, with the program's rows, marks and output: 20 for a
/// first byte 2, document 01's refusals, then 14.
pub fn count(frame: Frame, tallies: &Tallies) -> Result<Counted, Refusal> {
    count_by(frame, tallies, Reading::Strict)
}

/// The same of an image that is read otherwise.
pub fn count_by(
    frame: Frame,
    tallies: &Tallies,
    reading: Reading,
) -> Result<Counted, Refusal> {
    let run = program::within_limits_by(frame, Widths::Supplied, reading)?;
    if !tallies.accept_one_more() {
        return Err(refusal(14, 0));
    }
    let figures = Figures::of(&run);
    let tallies = tallies.with(&figures);
    Ok(Counted {
        figures,
        tallies,
        fraction: tallies.fraction(),
    })
}
