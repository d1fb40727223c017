//! What a caller of a whole file may choose.

use crate::{mode, refusal::Refusal, rule, width};

#[derive(Clone, Copy, Debug, PartialEq, Eq)]
pub struct Choice {
    pub width: usize,
    pub mode: usize,
    pub rule: usize,
}

impl Choice {
    /// What equals `fmt_parsed`; the program and the report choose it.
    pub const REFERENCE: Choice = Choice {
        width: width::REFERENCE,
        mode: mode::OLD,
        rule: rule::SUPPLIED,
    };

    /// Refusals 12 and 15, in this order. 20 comes before a file is read.
    pub fn check(self) -> Result<(), Refusal> {
        mode::check(self.mode)?;
        width::check(self.width, 0)
    }
}
