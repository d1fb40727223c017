//! Which spans layout reads.
//!
//! The image holds a span for every record; layout reads few of them. The
//! port relies on the list below, so it is tried on the original: changing
//! what isn't on the list changes nothing, and all that is on it matters
//! somewhere.

use std::collections::BTreeSet;

use judge::{
    driver::Run,
    frame::Frame,
    generate::{self, Class},
    image::{self, Tree},
    program::{self, Widths},
    reader::{self, Payload, Record},
};

/// Where a record stands: its kind, its payload, what is above it, and which
/// child it is.
struct Spot {
    kind: u8,
    payload: u8,
    parent: u8,
    /// The parent of the parent: the owner of a list's elements.
    owner: u8,
    index: usize,
    is_last: bool,
}

/// Lists whose elements layout separates.
const SEPARATED: [u8; 10] = [10, 12, 13, 14, 16, 41, 44, 53, 54, 83];

/// The reasons to read a span's start.
fn reads_start(spot: &Spot) -> Option<&'static str> {
    let element = spot.parent == 3;
    match spot {
        Spot {
            kind: 2,
            parent: 10..=15,
            index: 0,
            ..
        } => Some("name"),
        Spot {
            kind: 16,
            parent: 1,
            ..
        } => Some("import"),
        Spot { kind: 30..=32, .. } => Some("statement"),
        Spot {
            parent: 23,
            index: 1,
            ..
        } => Some("last expression"),
        Spot {
            kind: 86,
            parent: 63,
            ..
        } => Some("operator"),
        Spot { kind: 69, .. } => Some("f-string"),
        Spot { kind: 70, .. } => Some("parentheses"),
        Spot {
            kind: 87,
            payload: 0,
            ..
        } => Some("literal"),
        Spot { kind: 84, .. } => Some("part"),
        Spot { parent: 80, .. } => Some("field"),
        _ if element && matches!(spot.owner, 59 | 21) => Some("element"),
        _ if element && SEPARATED.contains(&spot.owner) => {
            Some("element of a list with a span")
        }
        _ => None,
    }
}

/// The reasons to read a span's end.
fn reads_end(spot: &Spot) -> Option<&'static str> {
    match spot {
        Spot {
            kind: 2,
            parent: 4,
            index: 1..,
            ..
        } => Some("further name"),
        Spot {
            kind: 3, parent, ..
        } if SEPARATED.contains(parent) => Some("list"),
        Spot {
            parent: 3,
            owner: 21,
            is_last: true,
            ..
        } => Some("last type"),
        Spot { kind: 59, .. } => Some("list expression"),
        Spot { kind: 80, .. } => Some("record"),
        Spot { kind: 30..=32, .. } => Some("statement"),
        Spot { kind: 23, .. } => Some("block"),
        Spot { kind: 87, .. } => Some("literal"),
        Spot { kind: 84, .. } => Some("part"),
        _ => None,
    }
}

/// A record as it would be written, with each end of its span changed by
/// `change`, which is told why layout reads it, if it does.
fn changed(
    record: &Record,
    above: (u8, u8),
    (index, is_last): (usize, bool),
    change: &mut impl FnMut(Option<&'static str>, usize) -> usize,
) -> Tree {
    let payload = match record.payload {
        Payload::Nothing => vec![],
        Payload::Byte(byte) => vec![byte],
        Payload::Text { width, text } => {
            let width = width.expect("version 1").to_be_bytes();
            [&width, text.as_bytes()].concat()
        }
    };
    let spot = Spot {
        kind: record.kind,
        payload: payload.first().copied().unwrap_or(0),
        parent: above.0,
        owner: above.1,
        index,
        is_last,
    };
    let start = change(reads_start(&spot), record.span.start);
    let end = change(reads_end(&spot), record.span.end);
    let count = record.children.len();
    let children =
        record.children.iter().enumerate().map(|(index, child)| {
            let above = (record.kind, above.0);
            let place = (index, index + 1 == count);
            child.as_ref().map(|c| changed(c, above, place, change))
        });
    Tree {
        kind: record.kind,
        span: start..end,
        payload,
        children: children.collect(),
    }
}

/// The outcome without the text's places in the image, which never move.
fn outcome(source: &[u8], image: &[u8]) -> Option<Run> {
    program::format(Frame { source, image }, Widths::Supplied).ok()
}

fn same(one: &Run, other: &Run) -> bool {
    one.rows == other.rows
        && one.stops == other.stops
        && one.text == other.text
}

/// Frames with short sources and comments, where spans matter.
fn frames() -> impl Iterator<Item = Vec<u8>> {
    let wild = generate::frames(Class::Wild, 21, 600);
    wild.chain(generate::frames(Class::Realistic, 21, 300))
}

#[test]
fn other_spans_change_nothing() {
    let mut tried = 0;
    for bytes in frames() {
        let Ok(frame) = judge::frame::split(&bytes) else {
            continue;
        };
        let Ok(accepted) = reader::read(frame.source, frame.image) else {
            continue;
        };
        // 0 for a start and the source's length for an end are legal with
        // whatever the other end is.
        let length = frame.source.len();
        let mut is_end = false;
        let tree = changed(
            &accepted.tree,
            (0, 0),
            (0, true),
            &mut |reason, value| {
                let other = if is_end { length } else { 0 };
                is_end = !is_end;
                reason.map_or(other, |_| value)
            },
        );
        let image = image::write(&accepted.comments, &tree);
        let before = outcome(frame.source, frame.image).unwrap();
        let after = outcome(frame.source, &image).unwrap();
        assert!(same(&before, &after));
        tried += 1;
    }
    assert!(tried > 700, "{tried}");
}

#[test]
fn every_listed_span_matters() {
    let mut listed = BTreeSet::new();
    let mut mattered = BTreeSet::new();
    for bytes in frames() {
        let Ok(frame) = judge::frame::split(&bytes) else {
            continue;
        };
        let Ok(accepted) = reader::read(frame.source, frame.image) else {
            continue;
        };
        let before = outcome(frame.source, frame.image).unwrap();
        for (reason, image) in single_changes(&accepted, frame.source.len()) {
            listed.insert(reason);
            if mattered.contains(&reason) {
                continue;
            }
            let after = outcome(frame.source, &image);
            if after.is_some_and(|after| !same(&before, &after)) {
                mattered.insert(reason);
            }
        }
    }
    assert_eq!(listed, mattered);
    assert_eq!(listed.len(), 21);
}

/// For the first span end with each reason, an image with that end changed.
fn single_changes(
    accepted: &reader::Accepted,
    length: usize,
) -> Vec<((bool, &'static str), Vec<u8>)> {
    let mut reasons = BTreeSet::new();
    let mut is_end = false;
    changed(&accepted.tree, (0, 0), (0, true), &mut |reason, value| {
        reasons.extend(reason.map(|reason| (is_end, reason)));
        is_end = !is_end;
        value
    });
    let with_one_changed = |wanted: (bool, &'static str)| {
        let mut is_end = false;
        let mut done = false;
        let tree = changed(
            &accepted.tree,
            (0, 0),
            (0, true),
            &mut |reason, value| {
                let here = reason.is_some_and(|r| (is_end, r) == wanted);
                let other = if is_end { length } else { 0 };
                is_end = !is_end;
                if here && !done && value != other {
                    done = true;
                    return other;
                }
                value
            },
        );
        (wanted, image::write(&accepted.comments, &tree))
    };
    reasons.into_iter().map(with_one_changed).collect()
}
