//! The port beside the judge: the same calls, answered in the same types.

#[cfg(feature = "calls")]
mod batch;
#[cfg(feature = "calls")]
mod columns;
pub mod compare;
#[cfg(feature = "calls")]
mod figures;
#[cfg(feature = "calls")]
mod formulas;
pub mod measure;
#[cfg(feature = "calls")]
mod moves;
pub mod plot;
pub mod port;
pub mod program;
#[cfg(feature = "calls")]
mod reads_back;
#[cfg(feature = "calls")]
mod report;
#[cfg(feature = "stand-in")]
pub mod stand_in;
#[cfg(feature = "calls")]
mod steps;

#[cfg(feature = "calls")]
pub use batch::{Batched, batch};
#[cfg(feature = "calls")]
pub use columns::columns;
#[cfg(feature = "calls")]
pub use figures::count;
#[cfg(feature = "calls")]
pub use formulas::formula;
use judge::refusal::Refusal;
#[cfg(feature = "calls")]
pub use moves::moved;
#[cfg(feature = "calls")]
pub use reads_back::reads_back;
#[cfg(feature = "calls")]
pub use report::report;
#[cfg(feature = "calls")]
pub use steps::{steps, write};
#[cfg(feature = "calls")]
pub use typed::{Formatted, format, layout, render};

#[cfg(feature = "calls")]
mod typed;

/// What the reader says of an accepted image.
#[derive(Clone, Copy, Debug, PartialEq, Eq)]
pub struct Accepted {
    pub comments: u64,
    pub tree: u64,
    pub declarations: u64,
}

/// The port's reader: refusals 1 to 7.
pub fn check(source: &[u8], image: &[u8]) -> Result<Accepted, Refusal> {
    let mut out = Out::<5>::new();
    port::check(source, image, out.places());
    let [comments, tree, declarations] = out.accepted()?;
    Ok(Accepted {
        comments,
        tree,
        declarations,
    })
}

/// The newlines of a range: how many, and where the last is. Nothing if a
/// place behind the answer was touched.
#[cfg(feature = "calls")]
pub fn newlines(source: &[u8], start: u64, end: u64) -> Option<[u64; 2]> {
    let mut out = Out::<3>::new();
    port::newlines(source, start, end, out.places());
    let [count, place, behind] = out.0;
    (behind == UNTOUCHED).then_some([count, place])
}

/// What a reader of results must know: who answered, and to what.
pub const NOTICE: Option<&str> = if cfg!(feature = "stand-in") {
    Some("not the port: the judge stands in for it")
} else if cfg!(not(feature = "calls")) {
    Some("the reader alone: the feature `calls` is off")
} else {
    None
};

/// Stands in `out` before each call; no answer holds it.
const UNTOUCHED: u64 = 0xABAD_1DEA_ABAD_1DEA;

/// A refusal that no table knows: the numbers answered are not in the form
/// that the call promises.
pub const ILL_FORMED: u8 = 255;

/// Where a call puts its answer, with one place behind it that no call has.
struct Out<const N: usize>([u64; N]);

impl<const N: usize> Out<N> {
    fn new() -> Self {
        Out([UNTOUCHED; N])
    }

    /// The places that the call is lent.
    fn places<const M: usize>(&mut self) -> &mut [u64; M] {
        assert_eq!(M + 1, N);
        self.0.first_chunk_mut().expect("long enough")
    }

    /// What follows the 0 of an accepted call, or the refusal. Past the answer
    /// all must be as it was.
    fn accepted<const A: usize>(&self) -> Result<[u64; A], Refusal> {
        let answer = self.accepted_of(A)?;
        Ok(*answer.first_chunk().expect("long enough"))
    }

    /// The same, where so many numbers follow the 0.
    fn accepted_of(&self, count: usize) -> Result<&[u64], Refusal> {
        let out = &self.0[..];
        let answered = if out[0] == 0 { 1 + count } else { 2 };
        let strange = Refusal {
            number: ILL_FORMED,
            place: out[0],
        };
        let touched = |number: &u64| *number != UNTOUCHED;
        if !out[..answered].iter().all(touched)
            || out[answered..].iter().any(touched)
        {
            return Err(strange);
        }
        match out {
            [0, rest @ ..] => Ok(rest),
            [number @ 1..=24, place, ..] => Err(Refusal {
                number: *number as u8,
                place: *place,
            }),
            _ => Err(strange),
        }
    }
}
