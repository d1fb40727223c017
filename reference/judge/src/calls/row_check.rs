//! Refusal 11: the first row that isn't as layout would write it.

use super::MOST_ROW_DEPTH;
use crate::{
    driver::Texts,
    refusal::{Refusal, refusal},
    rows::{self, Row},
    rule,
};

/// Tests the rows from `from` to the end of `rows`, which is the stop, under
/// a rule.
pub fn check(
    texts: Texts,
    rows: &[Row],
    from: usize,
    rule: usize,
) -> Result<(), Refusal> {
    let mut check = Check {
        texts,
        rows,
        whole_texts: rule != rule::SUPPLIED,
        ends: Vec::new(),
    };
    for place in from..rows.len() {
        if !check.row(place) {
            return Err(refusal(11, place));
        }
    }
    Ok(())
}

struct Check<'c> {
    texts: Texts<'c>,
    rows: &'c [Row],
    /// Whether texts must be UTF-8 and cut no character.
    whole_texts: bool,
    /// The rows after the open ones, outermost first.
    ends: Vec<usize>,
}

impl Check<'_> {
    /// Tests a row, all before it being right, and opens it.
    fn row(&mut self, place: usize) -> bool {
        while self.ends.last().is_some_and(|end| *end <= place) {
            self.ends.pop();
        }
        let row = &self.rows[place];
        let limit = self.ends.last().copied().unwrap_or(self.rows.len());
        let after = row.after as usize;
        let right = self.ends.len() < MOST_ROW_DEPTH
            && row.kind <= rows::CALL
            && unused_places_are_zero(row)
            && self.text_is_right(row)
            && place < after
            && after <= limit
            && self.parts_are_right(place, row);
        self.ends.push(after);
        right
    }

    /// A row without a text has the empty one at the source's start.
    fn text_is_right(&self, row: &Row) -> bool {
        let Some(origin) = self.texts.origin(row.origin) else {
            return false;
        };
        let start = row.start as usize;
        let end = start + row.length as usize;
        let Some(text) = origin.get(start..end) else {
            return false;
        };
        let whole = || {
            let cut = [start, end].into_iter().any(|at| cuts(origin, at));
            std::str::from_utf8(text).is_ok() && !cut
        };
        !self.whole_texts || whole()
    }

    /// What a kind says of its parts; their own ranges are theirs to answer
    /// for, unless they miss a part that this row names. A `Call` whose second
    /// part starts at the end names none.
    fn parts_are_right(&self, place: usize, row: &Row) -> bool {
        let after = row.after as usize;
        let second = row.second_part as usize;
        match row.kind {
            rows::GROUP | rows::INDENT | rows::INDENT_NEXT => true,
            rows::IF_WRAP => {
                place + 1 < after
                    && self.rows[place + 1].after == row.second_part
                    && (place + 2..after).contains(&second)
                    && self.rows[second].after == row.after
            }
            rows::CALL => {
                second == after
                    || second < after && self.lands(place + 1, second)
            }
            _ => after == place + 1,
        }
    }

    /// Whether going from row to the row after reaches a place.
    fn lands(&self, from: usize, place: usize) -> bool {
        let mut at = from;
        while at < place {
            let after = self.rows[at].after as usize;
            if after <= at {
                return false;
            }
            at = after;
        }
        at == place
    }
}

/// Whether a character of some bytes starts before a place and ends behind
/// it. They needn't be UTF-8 as a whole.
fn cuts(bytes: &[u8], at: usize) -> bool {
    const LONGEST: usize = 4;
    let starts = at.saturating_sub(LONGEST - 1)..at;
    starts.into_iter().any(|start| {
        let ends = at + 1..=bytes.len().min(start + LONGEST);
        ends.into_iter().any(|end| is_character(&bytes[start..end]))
    })
}

fn is_character(bytes: &[u8]) -> bool {
    std::str::from_utf8(bytes).is_ok_and(|text| text.chars().count() == 1)
}

/// Which places a kind uses besides kind and row after.
fn unused_places_are_zero(row: &Row) -> bool {
    let used = match row.kind {
        rows::GROUP => Row {
            number: row.number,
            ..Row::default()
        },
        rows::IF_WRAP => Row {
            number: row.number,
            second_part: row.second_part,
            ..Row::default()
        },
        rows::CALL => Row {
            number: row.number,
            second_number: row.second_number,
            second_part: row.second_part,
            ..Row::default()
        },
        rows::COMMENT | rows::ASCII => text_places(row),
        rows::STR => Row {
            width: row.width,
            ..text_places(row)
        },
        _ => Row::default(),
    };
    *row == Row {
        kind: row.kind,
        after: row.after,
        ..used
    }
}

fn text_places(row: &Row) -> Row {
    Row {
        origin: row.origin,
        start: row.start,
        length: row.length,
        ..Row::default()
    }
}
