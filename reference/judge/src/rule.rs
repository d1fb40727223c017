//! Request 8: the rule by which texts are measured, which a caller may choose.

use std::ops::RangeInclusive;

use crate::{
    refusal::{Refusal, refusal},
    unicode::Edition,
};

/// As in `fmt_parsed`: a `Str` has the width that the image supplies, an
/// `Ascii` that of its bytes.
pub const SUPPLIED: usize = 1;

/// The sum over code points, by Unicode 15.1.
pub const UNICODE_15_1: usize = 2;

/// The same by Unicode 16.0.
pub const UNICODE_16_0: usize = 3;

/// What a caller may choose; a state that carries 0 carries none yet.
pub const LEGAL: RangeInclusive<usize> = SUPPLIED..=UNICODE_16_0;

/// Refusal 20: a rule that isn't legal.
pub fn check(rule: usize) -> Result<(), Refusal> {
    if LEGAL.contains(&rule) {
        Ok(())
    } else {
        Err(refusal(20, 0))
    }
}

/// Refusal 20 of an entry that takes an image: the same, or a first byte 2
/// under another rule than that of Unicode 16.0 (request 9). No more of the
/// image is looked at.
pub fn check_for(rule: usize, image: &[u8]) -> Result<(), Refusal> {
    check(rule)?;
    match image.first() {
        Some(2) if rule != UNICODE_16_0 => Err(refusal(20, 0)),
        _ => Ok(()),
    }
}

/// Refusal 12, by the rule: another than the carried one, where 0 is none.
pub fn check_carried(rule: usize, carried: usize) -> Result<(), Refusal> {
    if carried == 0 || carried == rule {
        Ok(())
    } else {
        Err(refusal(12, 0))
    }
}

/// Whose properties a legal rule asks for, if any.
pub fn edition(rule: usize) -> Option<Edition> {
    match rule {
        SUPPLIED => None,
        UNICODE_15_1 => Some(Edition::Unicode15_1),
        UNICODE_16_0 => Some(Edition::Unicode16_0),
        _ => panic!("rule {rule} is refused by 20"),
    }
}

/// What a text measures by a legal rule, where it measures `own` by the
/// original's.
pub fn measure(rule: usize, text: &str, own: usize) -> usize {
    edition(rule).map_or(own, |edition| edition.columns(text))
}

/// What a caller that asks for the columns of any bytes is told: 20, or those
/// of their longest well-formed start; where widths are supplied, what the
/// caller supplies.
pub fn columns(
    bytes: &[u8],
    rule: usize,
    supplied: usize,
) -> Result<usize, Refusal> {
    check(rule)?;
    let start = match std::str::from_utf8(bytes) {
        Ok(text) => text,
        Err(bad) => {
            let (start, _) = bytes.split_at(bad.valid_up_to());
            std::str::from_utf8(start).expect("well-formed so far")
        }
    };
    Ok(measure(rule, start, supplied))
}
