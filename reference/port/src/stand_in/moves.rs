//! The moves between the versions, and what entries do with a first byte 2:
//! the judge's, wrong where a fault on them is planted.

use judge::{
    calls::Given,
    moves::{self, Way, moved},
    reader::{self, Accepted, Payload, Reading, Version},
    refusal::{Refusal, refusal},
    rule::{LEGAL, UNICODE_16_0},
    unicode::Edition,
};

use super::{Fault, planted, put, put_refusal};

pub fn forward(
    source: &[u8],
    image: &[u8],
    output: &mut [u8],
    out: &mut [u64; 2],
) {
    put_moved(Way::Forward, source, image, output, out);
}

pub fn back(
    source: &[u8],
    image: &[u8],
    output: &mut [u8],
    out: &mut [u64; 2],
) {
    put_moved(Way::Back, source, image, output, out);
}

fn put_moved(
    way: Way,
    source: &[u8],
    image: &[u8],
    output: &mut [u8],
    out: &mut [u64; 2],
) {
    match answer(way, source, image, output.len()) {
        Ok(mut moved) => {
            if planted(Fault::MovedByte)
                && let Some(byte) = moved.last_mut()
            {
                *byte ^= 1;
            }
            output[..moved.len()].copy_from_slice(&moved);
            if planted(Fault::PastMoved)
                && let Some(byte) = output.get_mut(moved.len())
            {
                *byte = 0;
            }
            put(out, &[0, moved.len() as u64]);
        }
        Err(mut refusal) => {
            let begun = match refusal.number {
                17 => planted(Fault::MovedBeforeRoom),
                21 => planted(Fault::MovedBeforeWidth),
                _ => false,
            };
            if begun && let Some(byte) = output.first_mut() {
                *byte = 1;
            }
            if refusal.number == 17 {
                refusal.place += u64::from(planted(Fault::MovedNeeded));
            }
            put_refusal(out, refusal);
        }
    }
}

fn answer(
    way: Way,
    source: &[u8],
    image: &[u8],
    room: usize,
) -> Result<Vec<u8>, Refusal> {
    early(way, image, room)?;
    let right = moved(way, source, image, usize::MAX);
    strictly(way, source, image, &right)?;
    let version = match way {
        Way::Forward => Version::Two,
        Way::Back => Version::One,
    };
    let earlier = Reading::Earlier;
    let Ok(read) = reader::read_by(source, image, earlier) else {
        return right;
    };
    let all = moves::rewritten(&read, version);
    let answer = match right {
        Err(Refusal { number: 3, .. }) => {
            other_version(image).ok_or(refusal(3, 0))
        }
        Err(late) if late.number == 21 => {
            wrong_width(way, &read, late, (&all, room))
        }
        Err(late) if planted(Fault::AnyMovedBody) && late.number == 17 => {
            Ok(all)
        }
        Ok(right) => measured(way, &read, right),
        refused => refused,
    };
    let moved = answer?;
    match moved.len() <= room {
        true => Ok(moved),
        false => Err(refusal(17, moved.len())),
    }
}

/// What is refused before source and image are looked at.
fn early(way: Way, image: &[u8], room: usize) -> Result<(), Refusal> {
    let wrong = image.first().is_some_and(|first| match way {
        Way::Forward => *first != 1,
        Way::Back => *first != 2,
    });
    if planted(Fault::VersionBeforeSource) && wrong {
        return Err(refusal(3, 0));
    }
    if planted(Fault::MovedRoomFirst) && room == 0 {
        return Err(refusal(17, image.len()));
    }
    Ok(())
}

/// What a strict move refuses where the right one doesn't by what it reads.
fn strictly(
    way: Way,
    source: &[u8],
    image: &[u8],
    right: &Result<Vec<u8>, Refusal>,
) -> Result<(), Refusal> {
    let fault = match way {
        Way::Forward => Fault::ForwardStrict,
        Way::Back => Fault::BackStrict,
    };
    let is_read = match right {
        Ok(_) => true,
        Err(refusal) => matches!(refusal.number, 21 | 17),
    };
    match planted(fault) && is_read {
        true => reader::read(source, image).map(|_| ()),
        false => Ok(()),
    }
}

/// An image of the other version, which is moved already.
fn other_version(image: &[u8]) -> Option<Vec<u8>> {
    planted(Fault::OtherVersionMoved).then(|| image.to_vec())
}

/// What is answered in place of 21.
fn wrong_width(
    way: Way,
    read: &Accepted,
    right: Refusal,
    (all, room): (&[u8], usize),
) -> Result<Vec<u8>, Refusal> {
    if planted(Fault::WidthWraps) && way == Way::Back {
        return Ok(all.to_vec());
    }
    if planted(Fault::RoomBeforeWidth) && all.len() > room {
        return Err(refusal(17, all.len()));
    }
    if planted(Fault::WidthPlace) {
        return Err(refusal(21, right.place as usize + 13));
    }
    if planted(Fault::LastWidth) {
        let mut wrong = moves::texts(read).into_iter().filter(|text| {
            let stored = text.stored.map(usize::from);
            stored.map_or(text.due > 65_535, |stored| stored != text.due)
        });
        let last = wrong.next_back().expect("there is one");
        return Err(refusal(21, last.at));
    }
    Err(right)
}

/// The move by texts that are measured otherwise.
fn measured(
    way: Way,
    read: &Accepted,
    mut right: Vec<u8>,
) -> Result<Vec<u8>, Refusal> {
    let shebang = read.tree.children[0].as_ref().map(|text| text.at);
    let mut texts = Vec::new();
    read.tree.walk(&mut |record| {
        if let Payload::Text { width, text } = record.payload {
            let due = otherwise(text, Some(record.at) == shebang);
            texts.push((record.at, width, due as u16));
        }
    });
    for (place, (at, stored, due)) in texts.into_iter().enumerate() {
        match way {
            Way::Forward if stored != Some(due) => {
                return Err(refusal(21, at));
            }
            Way::Forward => {}
            Way::Back => {
                // Two bytes more for each text before it.
                let at = at + 2 * place + 13;
                right[at..at + 2].copy_from_slice(&due.to_be_bytes());
            }
        }
    }
    Ok(right)
}

/// A text's columns, wrong where a fault on them is planted.
fn otherwise(text: &str, shebang: bool) -> usize {
    let edition = match planted(Fault::MovedByOther) {
        true => Edition::Unicode15_1,
        false => Edition::Unicode16_0,
    };
    let ascii = |point: char| point.is_ascii_whitespace();
    let text = match shebang {
        true if planted(Fault::ShebangWhole) => text,
        true if planted(Fault::AsciiTrimmed) => text.trim_end_matches(ascii),
        false if !planted(Fault::AllTrimmed) => text,
        _ => text.trim_end(),
    };
    edition.columns(text)
}

/// What an entry with a rule tests of a first byte 2; the rule by which it
/// goes on.
pub fn two(given: Given, rule: usize) -> Result<usize, Refusal> {
    let Given { source, image } = given;
    if image.first() != Some(&2) || !LEGAL.contains(&rule) {
        return Ok(rule);
    }
    if rule == UNICODE_16_0 {
        return match planted(Fault::TwoRefused) {
            true => Err(refusal(3, 0)),
            false => Ok(rule),
        };
    }
    if planted(Fault::TwoByEveryRule) {
        return Ok(UNICODE_16_0);
    }
    if planted(Fault::TwoLate) {
        reader::check_source_length(source)?;
        reader::check_encoding(source)?;
    }
    if planted(Fault::TwoByHeader) {
        reader::check_header(image)?;
    }
    Ok(rule)
}

/// The rule by which a file of a batch is formatted.
pub fn batched(image: &[u8], rule: usize) -> usize {
    match image.first() {
        Some(2) if planted(Fault::TwoInBatch) => UNICODE_16_0,
        _ => rule,
    }
}

/// An image as the reader gets it: version 2 with two bytes before each text.
pub fn with_widths(image: &[u8]) -> Vec<u8> {
    match image {
        [2, rest @ ..] if planted(Fault::TwoWithWidths) => {
            [&[1], rest].concat()
        }
        _ => image.to_vec(),
    }
}

/// An image as the steps are asked of it.
pub fn with_steps(source: &[u8], image: &[u8]) -> Vec<u8> {
    let (two, strict) = (Version::Two, Reading::Strict);
    let read = reader::read_version(source, image, two, strict);
    match read {
        Ok(read) if planted(Fault::StepsOfTwo) => {
            moves::rewritten(&read, Version::One)
        }
        _ => image.to_vec(),
    }
}
