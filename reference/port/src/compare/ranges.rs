//! The newlines of ranges, and where the last of them is.

use judge::{generate::RangeCase, newlines::newlines};

use super::Tally;

/// Compares what both sides say of each range.
pub fn compare(tally: &mut Tally, case: &RangeCase) {
    let source = &case.source[..];
    for (sort, start, end) in &case.ranges {
        let due = newlines(source, *start as usize, *end as usize);
        let due = Some([due.count as u64, due.place as u64]);
        let got = crate::newlines(source, *start, *end);
        let what = format!("newlines of {start}..{end}, {source:02x?}");
        tally.count(&format!("ranges, {sort}"), 0);
        tally.expect(&what, &due, &got);
    }
}
