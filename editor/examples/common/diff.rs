//! What would change, as `diff -u` shows it.

mod changes;
mod lines;

use lines::{Line, Side};

/// Lines that are shown before and behind those that change.
const AROUND: usize = 3;

/// The lines by which two texts differ; nothing if they don't. There may be
/// no old text. What it gives `patch` takes.
pub fn unified(name: &str, old: Option<&[u8]>, new: &[u8]) -> Vec<u8> {
    let lines = changes::between(old.unwrap_or_default(), new);
    let mut out = Vec::new();
    let hunks = hunks(&lines);
    if !hunks.is_empty() {
        let before = old.map_or("/dev/null", |_| name);
        out.extend(format!("--- {before}\n+++ {name}\n").bytes());
    }
    for range in hunks {
        let (before, hunk) = (&lines[..range.start], &lines[range]);
        let [old, new] =
            [Side::Old, Side::New].map(|side| range_of(side, before, hunk));
        out.extend(format!("@@ -{old} +{new} @@\n").bytes());
        hunk.iter().for_each(|line| line.write(&mut out));
    }
    out
}

/// Which lines stand together: those that change, and those around them.
fn hunks(lines: &[Line<'_>]) -> Vec<std::ops::Range<usize>> {
    let mut hunks: Vec<std::ops::Range<usize>> = Vec::new();
    for (at, line) in lines.iter().enumerate() {
        if line.is_kept() {
            continue;
        }
        let start = at.saturating_sub(AROUND);
        let end = (at + AROUND + 1).min(lines.len());
        match hunks.last_mut() {
            Some(last) if start <= last.end => last.end = end,
            _ => hunks.push(start..end),
        }
    }
    hunks
}

/// First line and number of lines, as `diff -u` gives them: no number for one
/// line, and for none the line before.
fn range_of(side: Side, before: &[Line<'_>], hunk: &[Line<'_>]) -> String {
    let count = |lines: &[Line<'_>]| {
        lines.iter().filter(|line| line.is_of(side)).count()
    };
    match (count(before), count(hunk)) {
        (before, 0) => format!("{before},0"),
        (before, 1) => format!("{}", before + 1),
        (before, some) => format!("{},{some}", before + 1),
    }
}
