//! Legal frames with damage, random and aimed.

use super::{Draft, edges, realistic, wild};
use crate::{
    frame,
    image::{self, Tree, node},
    random::Random,
    reader::{self, Reading},
};

/// A legal frame, damaged in one way or, now and then, in two.
pub fn frame(random: &mut Random) -> Vec<u8> {
    let mut draft = match random.below(3) {
        0 => realistic::draft(random),
        1 => edges::draft(random),
        _ => wild::draft(random),
    };
    for _ in 0..if random.once_in(5) { 2 } else { 1 } {
        if random.once_in(8) {
            return frame_of_bad_source(random, &draft);
        }
        if random.once_in(3) {
            return frame_of_bad_bytes(random, &draft);
        }
        if random.once_in(5) {
            damage_comments(random, &mut draft);
        } else {
            damage_tree(random, &mut draft);
        }
    }
    draft.frame()
}

pub(super) const BAD_UTF8: [&[u8]; 10] = [
    b"\x80",
    b"\xC0\xAF",
    b"\xC3",
    b"\xE2\x82",
    b"\xE0\x80\x80",
    b"\xED\xA0\x80",
    b"\xF0\x9F\xA6",
    b"\xF0\x80\x80\x80",
    b"\xF4\x90\x80\x80",
    b"\xFF",
];

fn frame_of_bad_source(random: &mut Random, draft: &Draft) -> Vec<u8> {
    let mut source = draft.source.clone().into_bytes();
    let bad = *random.pick(&BAD_UTF8);
    let at = random.between(0, source.len());
    if random.once_in(2) {
        let end = (at + bad.len()).min(source.len());
        source[at..end].copy_from_slice(&bad[..end - at]);
    } else {
        source.splice(at..at, bad.iter().copied());
    }
    frame::join(&source, &draft.image())
}

/// Damage that takes no notice of records.
fn frame_of_bad_bytes(random: &mut Random, draft: &Draft) -> Vec<u8> {
    let mut image = draft.image();
    match random.below(9) {
        7 => return frame_of_bad_length(random, draft, &image),
        way => damage_image(random, &draft.source, &mut image, way),
    }
    frame::join(draft.source.as_bytes(), &image)
}

/// Damages the bytes of an image of either version in one of eight ways.
pub(super) fn damage_image(
    random: &mut Random,
    source: &str,
    image: &mut Vec<u8>,
    way: usize,
) {
    let last = image.len() - 1;
    match way {
        0 => image[0] = *random.pick(&[0, 2, 3, 255]),
        // The last byte of the body's length, and of the comment count.
        1 => nudge(random, image, 4),
        2 => nudge(random, image, 6),
        3 => image.truncate(random.between(0, last)),
        4 => {
            let end = random.between(5, last);
            *image = with_body(image, &image[5..end]);
        }
        5 => {
            let spare = vec![0; random.between(1, 15)];
            *image = with_body(image, &[&image[5..], &spare].concat());
        }
        6 => nudge_a_length(random, source, image),
        _ => flip(random, image),
    }
}

/// Another body behind an image's first byte.
fn with_body(image: &[u8], body: &[u8]) -> Vec<u8> {
    let mut other = image::with_header(body);
    other[0] = image[0];
    other
}

/// Adds or takes one at a byte, if it is there.
fn nudge(random: &mut Random, image: &mut [u8], at: usize) {
    if let Some(byte) = image.get_mut(at) {
        *byte = match random.below(2) {
            0 => byte.wrapping_add(1),
            _ => byte.wrapping_sub(1),
        };
    }
}

/// Adds or takes one at the last byte of a record's length.
fn nudge_a_length(random: &mut Random, source: &str, image: &mut [u8]) {
    let mut lengths = Vec::new();
    let earlier = Reading::Earlier;
    if let Ok(accepted) = reader::read_by(source.as_bytes(), image, earlier) {
        accepted
            .tree
            .walk(&mut |record| lengths.push(record.at + 3));
    }
    if !lengths.is_empty() {
        let at = *random.pick(&lengths);
        nudge(random, image, at);
    }
}

fn flip(random: &mut Random, image: &mut [u8]) {
    for _ in 0..random.between(1, 3) {
        let at = random.below(image.len());
        image[at] = match random.below(3) {
            0 => image[at] ^ (1 << random.below(8)),
            1 => random.byte(),
            _ => 0,
        };
    }
}

/// A source length that doesn't fit the source, or a frame cut short.
fn frame_of_bad_length(
    random: &mut Random,
    draft: &Draft,
    image: &[u8],
) -> Vec<u8> {
    let mut bytes = frame::join(draft.source.as_bytes(), image);
    match random.below(3) {
        0 => bytes.truncate(random.below(8)),
        1 => bytes[random.below(4)] = random.byte(),
        _ => bytes[3] = bytes[3].wrapping_add(1),
    }
    bytes
}

/// One comment goes bad, or comes in bad.
pub(super) fn damage_comments(random: &mut Random, draft: &mut Draft) {
    let length = draft.source.len();
    let inside = random.between(0, length);
    #[allow(clippy::reversed_empty_ranges)]
    let bad = match random.below(4) {
        0 => inside..inside,
        1 => inside + 1..inside,
        2 => inside..length + 1 + random.below(3),
        _ => off_boundary(random, &draft.source),
    };
    let place = random.between(0, draft.comments.len());
    if place < draft.comments.len() && random.once_in(2) {
        draft.comments[place] = bad;
    } else {
        draft.comments.insert(place, bad);
    }
}

/// A range with an end inside a character, if the source has such.
fn off_boundary(random: &mut Random, source: &str) -> std::ops::Range<usize> {
    let inner: Vec<usize> = (0..source.len())
        .filter(|at| !source.is_char_boundary(*at))
        .collect();
    if inner.is_empty() {
        return source.len() + 1..source.len() + 2;
    }
    let at = *random.pick(&inner);
    if random.once_in(2) {
        at..source.len()
    } else {
        0..at
    }
}

/// One record goes bad.
pub(super) fn damage_tree(random: &mut Random, draft: &mut Draft) {
    let count = count(&draft.tree);
    let chosen = random.below(count);
    let source = draft.source.clone();
    let mut place = 0;
    visit(&mut draft.tree, &mut |record| {
        if place == chosen {
            damage_record(random, record, &source);
        }
        place += 1;
    });
}

fn damage_record(random: &mut Random, record: &mut Tree, source: &str) {
    match random.below(6) {
        0 => damage_kind(random, record),
        1 => damage_payload(random, record),
        2 => damage_children(random, record),
        3 => {
            let levels = random.between(58, 70);
            bury(random, record, levels);
        }
        _ => damage_span(random, record, source),
    }
}

fn damage_kind(random: &mut Random, record: &mut Tree) {
    record.kind = match random.below(3) {
        0 => random.byte(),
        1 => random.between(1, 90) as u8,
        _ => record.kind.wrapping_add(1),
    };
}

fn damage_payload(random: &mut Random, record: &mut Tree) {
    let last = record.payload.len();
    match random.below(4) {
        0 => record.payload.truncate(last.saturating_sub(1)),
        1 => record.payload.push(random.byte()),
        2 if record.kind == 2 => {
            let at = random.between(2, last.max(2)).min(last);
            let bad = *random.pick(&BAD_UTF8);
            record.payload.splice(at..at, bad.iter().copied());
        }
        _ => match record.payload.first_mut() {
            Some(byte) => *byte = random.between(2, 15) as u8,
            None => record.payload.push(0),
        },
    }
}

fn damage_children(random: &mut Random, record: &mut Tree) {
    let count = record.children.len();
    if count == 0 {
        record.children.push(None);
        return;
    }
    let place = random.below(count);
    match random.below(4) {
        0 => record.children[place] = None,
        1 => drop(record.children.remove(place)),
        2 => {
            let again = record.children[place].clone();
            record.children.insert(place, again);
        }
        _ => record.children.swap(place, random.below(count)),
    }
}

fn damage_span(random: &mut Random, record: &mut Tree, source: &str) {
    let length = source.len();
    record.span = match random.below(4) {
        0 => record.span.end + 1..record.span.start,
        1 => record.span.start..length + 1,
        2 => length + 1..length + 1,
        _ => off_boundary(random, source),
    };
}

/// Puts an expression, type or import under so many of its like.
fn bury(random: &mut Random, record: &mut Tree, levels: usize) {
    let mut inner = record.clone();
    for _ in 0..levels {
        inner = match inner.kind {
            16 => {
                let list = node(3, 0..0, [Some(inner)]);
                node(16, 0..0, [None, Some(list)])
            }
            40..=44 => node(40, 0..0, [Some(inner)]),
            50..=70 => over_expression(random, inner),
            _ => return damage_kind(random, record),
        };
    }
    *record = inner;
}

fn over_expression(random: &mut Random, inner: Tree) -> Tree {
    match random.below(3) {
        0 => {
            let list = node(3, 0..0, [Some(inner)]);
            node(59, 0..0, [Some(list)])
        }
        1 => {
            let list = node(3, 0..0, []);
            let block = node(23, 0..0, [Some(list), Some(inner)]);
            node(52, 0..0, [Some(block)])
        }
        _ => node(*random.pick(&[60, 64, 68, 70]), 0..0, [Some(inner)]),
    }
}

fn count(tree: &Tree) -> usize {
    1 + tree.children.iter().flatten().map(count).sum::<usize>()
}

fn visit(tree: &mut Tree, f: &mut impl FnMut(&mut Tree)) {
    f(tree);
    for child in tree.children.iter_mut().flatten() {
        visit(child, f);
    }
}
