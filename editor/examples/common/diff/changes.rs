//! Which lines two texts share, in their order: by Myers's way, with as few
//! lines that change as there can be. Texts that share hardly anything are
//! exchanged whole.

use super::lines::{Line, Side};

/// So many lines may change before the rest is exchanged whole: what is looked
/// at grows by the square of it.
const MOST: usize = 2_000;

/// All lines of both texts, those that both have once.
pub fn between<'t>(old: &'t [u8], new: &'t [u8]) -> Vec<Line<'t>> {
    let (old, new) = (lines(old), lines(new));
    let same = |(old, new): &(&&[u8], &&[u8])| old == new;
    let head = old.iter().zip(&new).take_while(same).count();
    let (old_rest, new_rest) = (&old[head..], &new[head..]);
    let pairs = old_rest.iter().rev().zip(new_rest.iter().rev());
    let tail = pairs.take_while(same).count();
    let old_middle = &old_rest[..old_rest.len() - tail];
    let new_middle = &new_rest[..new_rest.len() - tail];
    let mut all: Vec<_> =
        old[..head].iter().map(|it| Line::Kept(it)).collect();
    all.extend(middle(old_middle, new_middle));
    let tail = &old[old.len() - tail..];
    all.extend(tail.iter().map(|it| Line::Kept(it)));
    all
}

fn lines(text: &[u8]) -> Vec<&[u8]> {
    text.split_inclusive(|byte| *byte == b'\n').collect()
}

/// What stands between the lines that both begin and end with.
fn middle<'t>(old: &[&'t [u8]], new: &[&'t [u8]]) -> Vec<Line<'t>> {
    match trace(old, new) {
        Some(trace) => walked(old, new, &trace),
        None => {
            let gone = old.iter().map(|it| Line::Only(Side::Old, it));
            let come = new.iter().map(|it| Line::Only(Side::New, it));
            gone.chain(come).collect()
        }
    }
}

/// How far one comes in the old text with so many changes, by the diagonal
/// that one is on: the new text's place is the old one's less the diagonal.
/// Diagonals from -changes to +changes, every other one.
type Reached = Vec<usize>;

fn at(reached: &Reached, changes: usize, diagonal: isize) -> usize {
    reached[(diagonal + changes as isize) as usize / 2]
}

/// How far one comes with 0, 1, 2 .. changes, up to the ends of both.
fn trace(old: &[&[u8]], new: &[&[u8]]) -> Option<Vec<Reached>> {
    let mut all: Vec<Reached> = Vec::new();
    for changes in 0..=MOST.min(old.len() + new.len()) {
        let mut reached = Reached::new();
        for step in 0..=changes {
            let diagonal = 2 * step as isize - changes as isize;
            let from = match all.last() {
                None => 0,
                Some(before) => begun(before, changes, diagonal),
            };
            let come = along(old, new, from, diagonal);
            reached.push(come);
            if come >= old.len()
                && come as isize - diagonal >= new.len() as isize
            {
                all.push(reached);
                return Some(all);
            }
        }
        all.push(reached);
    }
    None
}

/// Whether the last change that leads to a diagonal takes a line of the new
/// text, which is one diagonal lower; else it takes one of the old text.
fn is_new(before: &Reached, changes: usize, diagonal: isize) -> bool {
    let end = changes as isize;
    let from = |diagonal| at(before, changes - 1, diagonal);
    diagonal == -end
        || diagonal != end && from(diagonal - 1) < from(diagonal + 1)
}

/// The old text's place behind the last change.
fn begun(before: &Reached, changes: usize, diagonal: isize) -> usize {
    match is_new(before, changes, diagonal) {
        true => at(before, changes - 1, diagonal + 1),
        false => at(before, changes - 1, diagonal - 1) + 1,
    }
}

/// The old text's place behind the lines that both have from there on.
fn along(
    old: &[&[u8]],
    new: &[&[u8]],
    from: usize,
    diagonal: isize,
) -> usize {
    let mut old_at = from;
    loop {
        let new_at = old_at as isize - diagonal;
        let pair = usize::try_from(new_at)
            .ok()
            .and_then(|new_at| old.get(old_at).zip(new.get(new_at)));
        match pair {
            Some((old, new)) if old == new => old_at += 1,
            _ => return old_at,
        }
    }
}

/// The lines along the way that was found, from its end back.
fn walked<'t>(
    old: &[&'t [u8]],
    new: &[&'t [u8]],
    trace: &[Reached],
) -> Vec<Line<'t>> {
    let mut lines = Vec::new();
    let (mut old_at, mut new_at) = (old.len(), new.len());
    for changes in (0..trace.len()).rev() {
        let diagonal = old_at as isize - new_at as isize;
        let before = changes.checked_sub(1).map(|one| &trace[one]);
        let from = match before {
            Some(before) => begun(before, changes, diagonal),
            None => 0,
        };
        while old_at > from {
            (old_at, new_at) = (old_at - 1, new_at - 1);
            lines.push(Line::Kept(old[old_at]));
        }
        match before {
            None => {}
            Some(before) if is_new(before, changes, diagonal) => {
                new_at -= 1;
                lines.push(Line::Only(Side::New, new[new_at]));
            }
            Some(_) => {
                old_at -= 1;
                lines.push(Line::Only(Side::Old, old[old_at]));
            }
        }
    }
    lines.reverse();
    lines
}
