//! Batches: up to 257 files of all classes in a buffer, some buffers damaged,
//! and what is chosen for them.

use super::{
    broad, damaged, edges, feet, modes, moves, realistic, rules, sizes,
    widths, wild,
};
use crate::{
    batch::MOST_FILES,
    choice::Choice,
    frame::{self, Frame, framed},
    random::Random,
};

const RANDOM: u64 = 92;

/// The largest number that four bytes hold.
const MOST: u32 = u32::MAX;

/// A buffer of frames, and the choice for all of them.
#[derive(Clone, Debug)]
pub struct Case {
    pub buffer: Vec<u8>,
    pub choice: Choice,
}

/// One batch by seed and index.
pub fn case(seed: u64, index: u64) -> Case {
    let random = &mut Random::new(RANDOM, seed, index);
    let choice = Choice {
        width: widths::legal(random),
        mode: modes::legal(random),
        rule: rules::legal(random),
    };
    let frames = frames(random, choice);
    let mut starts = vec![0];
    for frame in &frames {
        starts.push(starts[starts.len() - 1] + frame.len());
    }
    let mut buffer = frames.concat();
    for _ in 0..*random.pick(&[0, 0, 0, 0, 0, 1, 1, 2]) {
        damage(random, &mut buffer, &starts);
    }
    let choice = spoiled(random, choice);
    Case { buffer, choice }
}

/// One in six has a number that can't be chosen.
fn spoiled(random: &mut Random, mut choice: Choice) -> Choice {
    // What is added to numbers that are legal in their lower four bytes.
    const FAR: usize = 1 << 32;
    match random.below(64) {
        0..3 => choice.width = *random.pick(&widths::ILLEGAL),
        3 => choice.width += FAR,
        4..7 => choice.mode = *random.pick(&modes::ILLEGAL),
        7 => choice.mode += FAR,
        8..10 => choice.rule = *random.pick(&rules::ILLEGAL),
        10 => choice.rule += FAR,
        _ => {}
    }
    choice
}

/// Files in their frames: mostly a few, and now and then none, or as many as
/// there may be, one less or one more.
fn frames(random: &mut Random, choice: Choice) -> Vec<Vec<u8>> {
    let count = match random.below(32) {
        0 => 0,
        1..4 => 1,
        4..24 => random.between(2, 9),
        24..31 => random.between(10, 40),
        _ => random.between(MOST_FILES - 1, MOST_FILES + 1),
    };
    let short_ones = count > 40;
    let one = |_| match short_ones && !random.once_in(16) {
        true => short(random),
        false => file(random, choice),
    };
    (0..count).map(one).collect()
}

/// A file of any class, the lines of some about as long as the width.
pub(super) fn file(random: &mut Random, choice: Choice) -> Vec<u8> {
    loop {
        let bytes = match random.below(64) {
            0 => {
                let case = random.pick(sizes::cases());
                frame::join(&case.source, &case.image)
            }
            1..12 => damaged::frame(random),
            12..20 => edges::draft_at(random, choice.width).frame(),
            20..26 => wild::draft(random).frame(),
            26..32 => broad::draft(random, choice).frame(),
            32..44 => feet::draft(random).frame(),
            44..52 => realistic::draft(random).frame(),
            52..58 => realistic::short_draft(random).frame(),
            58..60 => moves::in_two(random),
            _ => return short(random),
        };
        // Damage may have reached the frame's own length.
        if let Ok(file) = frame::split_any_size(&bytes) {
            return framed(file);
        }
    }
}

/// A file of few bytes: of none, which is refused, or of a comment or two.
pub(super) fn short(random: &mut Random) -> Vec<u8> {
    let none = Frame {
        source: b"",
        image: b"",
    };
    match random.below(3) {
        0 => framed(none),
        _ => {
            let bytes = feet::bare_draft(random).frame();
            framed(frame::split_any_size(&bytes).expect("a frame"))
        }
    }
}

/// Cuts the buffer, adds a few bytes, or changes the lengths of a frame.
pub(super) fn damage(
    random: &mut Random,
    buffer: &mut Vec<u8>,
    starts: &[usize],
) {
    let frame = random.below(starts.len());
    let start = starts[frame].min(buffer.len());
    match random.below(6) {
        0 => buffer.truncate(random.between(0, buffer.len())),
        1 => buffer.truncate(start + random.below(10)),
        2 => {
            let more = random.between(1, 12);
            let byte = *random.pick(&[0, 0, 1, 255]);
            buffer.resize(buffer.len() + more, byte);
        }
        way => {
            if let Some(head) = buffer[start..].first_chunk_mut::<8>() {
                damage_lengths(random, head, way == 5);
            }
        }
    }
}

/// One length a little off or near its largest value, or both so that their
/// sum is right in four bytes.
fn damage_lengths(random: &mut Random, head: &mut [u8; 8], wrap: bool) {
    let both = u64::from_be_bytes(*head);
    let mut lengths = [(both >> 32) as u32, both as u32];
    let place = random.below(2);
    let little = random.between(1, 9) as u32;
    if wrap {
        lengths[place] = lengths[place].wrapping_sub(little);
        lengths[1 - place] = lengths[1 - place].wrapping_add(little);
    } else {
        let length = lengths[place];
        let wrong = [
            length.wrapping_add(little),
            length.wrapping_sub(little),
            MOST,
            MOST - little,
            1 << 31,
        ];
        lengths[place] = *random.pick(&wrong);
    }
    let [source, image] = lengths.map(u32::to_be_bytes);
    *head = [source, image].concat().try_into().expect("eight bytes");
}
