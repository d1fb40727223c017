//! What the program `report` may be fed: files of all classes, sources and
//! images over their sizes, inputs that are cut, and now and then more files
//! than are counted.

use super::batches::{damage, file, short};
use crate::{
    batch,
    choice::Choice,
    figures::MOST_FILES,
    frame::{Frame, framed},
    random::Random,
    reader::{self, MOST_BODY, MOST_SOURCE},
};

const RANDOM: u64 = 93;

/// More than a reader takes at once of what it passes over.
const BEHIND: usize = 70_000;

/// One input by seed and index.
pub fn input(seed: u64, index: u64) -> Vec<u8> {
    let random = &mut Random::new(RANDOM, seed, index);
    let files = files(random);
    let mut starts = vec![0];
    for file in &files {
        starts.push(starts[starts.len() - 1] + file.len());
    }
    let mut input = files.concat();
    for _ in 0..*random.pick(&[0, 0, 0, 0, 0, 1, 1, 2]) {
        damage(random, &mut input, &starts);
    }
    input
}

/// Mostly a few; one input in 128 has about as many as are counted, small
/// ones, and as many more as are refused on the way.
fn files(random: &mut Random) -> Vec<Vec<u8>> {
    let most = MOST_FILES as usize;
    let count = match random.below(128) {
        0 => return many(random, most),
        1..5 => 0,
        5..90 => random.between(1, 9),
        _ => random.between(10, 40),
    };
    (0..count).map(|_| any(random)).collect()
}

/// A file of any class, or one over a size.
fn any(random: &mut Random) -> Vec<u8> {
    match random.below(64) {
        0 => over_source(random),
        1 => over_image(random),
        2..12 => short(random),
        _ => file(random, Choice::REFERENCE),
    }
}

/// A source of more bytes than 1 lets pass.
fn over_source(random: &mut Random) -> Vec<u8> {
    let more = random.between(1, 2 * BEHIND);
    let source = vec![random.byte(); MOST_SOURCE + more];
    framed(Frame {
        source: &source,
        image: b"",
    })
}

/// An image of more bytes than 3 lets pass, its length as it should be or as
/// if it ended with the largest body.
fn over_image(random: &mut Random) -> Vec<u8> {
    let body = MOST_BODY + random.between(1, BEHIND);
    let said = *random.pick(&[body, MOST_BODY]) as u32;
    let image = [&[1], &said.to_be_bytes()[..], &vec![0; body]].concat();
    framed(Frame {
        source: b"",
        image: &image,
    })
}

/// Whether the reader accepts a small file: not one of no bytes, or whose
/// comments run backwards.
fn is_accepted(file: &[u8]) -> bool {
    let files = batch::split(file).expect("a file");
    let Frame { source, image } = files[0];
    reader::read(source, image).is_ok()
}

/// Files of few bytes, some of which are refused: a little fewer or more of
/// them are accepted than are counted. One of any class stands last.
fn many(random: &mut Random, most: usize) -> Vec<Vec<u8>> {
    let accepted = random.between(most - 2, most + 3);
    let mut files = Vec::new();
    let mut left = accepted;
    while left > 0 {
        let file = short(random);
        left -= usize::from(is_accepted(&file));
        files.push(file);
    }
    files.push(any(random));
    files
}
