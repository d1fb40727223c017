//! Images forward to version 2 and back, byte for byte; what refuses a move;
//! and what is made of a moved image.

use judge::{
    calls::Given,
    choice::Choice,
    frame::Frame,
    generate::{self, MoveCase},
    mode::{NEW, OLD},
    moves::{self, Text, Way},
    program::{self, Widths},
    random::Random,
    reader::{self, Reading, Version},
    refusal::{Refusal, refusal},
    rule::UNICODE_16_0,
    width::REFERENCE,
};

use super::{Tally, buffers::junk_bytes, files, frames, rooms};

const WAYS: [(Way, &str); 2] =
    [(Way::Forward, "forward"), (Way::Back, "back")];

/// Widths that are tried off by one, of an image with many texts.
const MOST_OFF: usize = 200;

/// A generated frame of any class: as it is, with the widths of Unicode 16.0,
/// with each of them off by one in turn, and moved.
pub fn compare(tally: &mut Tally, seed: u64, index: u64) {
    let mut random = Random::new(112, seed, index);
    let (class, bytes) = match random.below(4) {
        0 => ("feet".into(), generate::foot_frame(seed, index)),
        1 => ("broad".into(), generate::broad_frame(seed, index).0),
        _ => any(&mut random, seed),
    };
    let frame = judge::frame::split_any_size(&bytes).expect("a frame");
    let Frame { source, image } = frame;
    compare_ways(tally, &class, source, image);
    let Some((one, texts)) = with_widths(source, image) else {
        return;
    };
    let Some(two) = both_ways(tally, &class, source, &one) else {
        return;
    };
    widths_off(tally, &mut random, source, &one, &texts);
    let moved = Frame {
        source,
        image: &two,
    };
    let heading = format!("version 2, {class}");
    frames::compare_parts(tally, &heading, moved, REFERENCE);
    as_before(tally, source, &one, &two);
}

/// A frame of the classes that files are made of.
fn any(random: &mut Random, seed: u64) -> (String, Vec<u8>) {
    let file = files::file(random, seed);
    let Frame { source, image } = file.frame();
    (file.class().into(), judge::frame::join(source, image))
}

/// A generated image of either version, damaged or not.
pub fn compare_case(tally: &mut Tally, seed: u64, index: u64) {
    let MoveCase { source, image } = generate::move_case(seed, index);
    compare_ways(tally, "images of both versions", &source, &image);
}

/// One of the fixed list.
pub fn compare_fixed(tally: &mut Tally, place: usize) {
    let MoveCase { source, image } = &generate::move_cases()[place].of;
    compare_ways(tally, "fixed list", source, image);
}

/// Both moves of an image, whatever its version: the answer and the output,
/// in rooms of several sizes.
pub(super) fn compare_ways(
    tally: &mut Tally,
    heading: &str,
    source: &[u8],
    image: &[u8],
) {
    for (way, name) in WAYS {
        let due = moves::moved(way, source, image, usize::MAX);
        let number = due.as_ref().err().map_or(0, |refusal| refusal.number);
        tally.count(&format!("{name}, {heading}"), number);
        let what = format!("{name}, {heading}");
        rooms::compare(tally, &what, &due, |output| {
            crate::moved(way, source, image, output)
        });
    }
    steps_speak_of_version_1(tally, source, image);
}

/// The steps of an image of version 2 are none: 3.
fn steps_speak_of_version_1(tally: &mut Tally, source: &[u8], image: &[u8]) {
    if image.first() == Some(&2) {
        let due = judge::steps::read(source, image, usize::MAX);
        rooms::compare(tally, "steps of version 2", &due, |output| {
            crate::steps(source, image, output)
        });
    }
}

/// The image with the widths of Unicode 16.0 in place of its own, and its
/// texts; `None` where the reader refuses it.
fn with_widths(source: &[u8], image: &[u8]) -> Option<(Vec<u8>, Vec<Text>)> {
    let (one, earlier) = (Version::One, Reading::Earlier);
    let read = reader::read_version(source, image, one, earlier).ok()?;
    let texts = moves::texts(&read);
    let mut image = image.to_vec();
    for text in &texts {
        put_width(&mut image, text, u16::try_from(text.due).ok()?);
    }
    Some((image, texts))
}

/// Length, kind and span stand before a text's width.
fn put_width(image: &mut [u8], text: &Text, width: u16) {
    let at = text.at + 13;
    image[at..at + 2].copy_from_slice(&width.to_be_bytes());
}

/// Forward and back, where each move gets what the port's other one wrote; the
/// moved image.
fn both_ways(
    tally: &mut Tally,
    class: &str,
    source: &[u8],
    one: &[u8],
) -> Option<Vec<u8>> {
    tally.count(&format!("forward and back, {class}"), 0);
    let due = moves::forward(source, one, usize::MAX);
    rooms::compare(tally, "forward", &due, |output| {
        crate::moved(Way::Forward, source, one, output)
    });
    let mut two = junk_bytes(one.len());
    let bytes = crate::moved(Way::Forward, source, one, &mut two).ok()?;
    two.truncate(bytes);
    for (way, from, to) in
        [(Way::Back, &two[..], one), (Way::Forward, one, &two[..])]
    {
        let due = Ok(to.to_vec());
        rooms::compare(tally, "the move after the other", &due, |output| {
            crate::moved(way, source, from, output)
        });
    }
    for (way, image) in [(Way::Forward, &two[..]), (Way::Back, one)] {
        let due = Err(refusal(3, 0));
        rooms::compare(tally, "the wrong version", &due, |output| {
            crate::moved(way, source, image, output)
        });
    }
    Some(two)
}

/// Each width in turn one too large or one too small: 21 at its record, and
/// the output is as it was.
fn widths_off(
    tally: &mut Tally,
    random: &mut Random,
    source: &[u8],
    one: &[u8],
    texts: &[Text],
) {
    let step = texts.len() / MOST_OFF + 1;
    let mut image = one.to_vec();
    for text in texts.iter().skip(random.below(step)).step_by(step) {
        let right = text.due as u16;
        let off = *random.pick(&[1, u16::MAX]);
        put_width(&mut image, text, right.wrapping_add(off));
        let due = Err(refusal(21, text.at));
        let mut output = junk_bytes(8);
        let got = crate::moved(Way::Forward, source, &image, &mut output);
        let _ = tally.expect("a width off by one", &due, &got)
            && tally.expect_bytes("its output", &junk_bytes(8), &output);
        put_width(&mut image, text, right);
    }
}

/// What is made of the moved image under rule 3 is what is made of it before,
/// the judge's beside the port's.
fn as_before(tally: &mut Tally, source: &[u8], one: &[u8], two: &[u8]) {
    for mode in [OLD, NEW] {
        let choice = Choice {
            mode,
            rule: UNICODE_16_0,
            ..Choice::REFERENCE
        };
        let frame = Frame { source, image: one };
        let before = program::format_as(frame, Widths::Supplied, choice);
        let due = before.and_then(|run| {
            program::has_rows(&run).map(|()| run.text.into_bytes())
        });
        let got = formatted(source, two, choice, &due);
        let what = format!("a moved image's text, mode {mode}");
        match (due, got) {
            (Ok(due), Ok(got)) => {
                tally.expect_bytes(&what, &due, &got);
            }
            (due, got) => {
                tally.expect(&what, &due.err(), &got.err());
            }
        }
    }
}

/// The port's text of a file in just the room that is due.
fn formatted(
    source: &[u8],
    image: &[u8],
    choice: Choice,
    due: &Result<Vec<u8>, Refusal>,
) -> Result<Vec<u8>, Refusal> {
    let room = due.as_ref().map_or(0, Vec::len);
    let mut output = junk_bytes(room);
    let given = Given { source, image };
    crate::format(given, choice, &mut output).map(|_| output)
}
