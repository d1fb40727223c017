//! A number and a place: all that comes back from a refused call.

use std::fmt;

/// Document 01, "When a call is turned down".
#[derive(Clone, Copy, Debug, PartialEq, Eq)]
pub struct Refusal {
    pub number: u8,
    pub place: u64,
}

/// Shorthand for the many places where offsets are `usize`.
pub fn refusal(number: u8, place: usize) -> Refusal {
    Refusal {
        number,
        place: place as u64,
    }
}

impl fmt::Display for Refusal {
    fn fmt(&self, f: &mut fmt::Formatter<'_>) -> fmt::Result {
        write!(f, "refused {} at {}", self.number, self.place)
    }
}
