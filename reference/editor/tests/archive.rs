//! Request 9: what the crate's encoder and the plug write in version 2 is the
//! judge's, its moves are the judge's, and texts of version 2 are those that
//! the original gives by Unicode 16.0.

use editor::{as_written, convert, decode, plug};
use judge::{
    choice::Choice,
    frame::{self, Frame},
    generate::{self, Class},
    mode::NEW,
    moves,
    program::{self, Widths as Judged},
    reader::{self, Version as Read},
    rule::UNICODE_16_0,
    tree,
};
use rrufthim::{
    File, Formatter, Options, Version, Widths,
    archive::{back, forward},
    encode_as, encode_written_as,
};

const SEED: u64 = 12;
const FRAMES: u64 = 1_000;

fn frames() -> impl Iterator<Item = Vec<u8>> {
    let classes = [Class::Realistic, Class::Wild, Class::Edges];
    let made = classes
        .into_iter()
        .flat_map(|class| generate::frames(class, SEED, FRAMES));
    let broad = (0..FRAMES).map(|i| generate::broad_frame(SEED, i).0);
    made.chain(broad)
}

/// The image of a frame in a version with the widths of Unicode 16.0.
fn rewritten(frame: Frame, version: Read) -> Vec<u8> {
    let read = reader::read(frame.source, frame.image).expect("accepted");
    moves::rewritten(&read, version)
}

#[test]
fn the_encoder_and_the_plug_write_version_2() {
    let mut tried = 0;
    for bytes in frames() {
        let frame = frame::split_any_size(&bytes).expect("a frame");
        let Ok(read) = reader::read(frame.source, frame.image) else {
            continue;
        };
        let file = decode(&read);
        let comments = &file.extras.comments;
        let image = as_written(frame.image, &read.tree);
        let written = Frame {
            source: frame.source,
            image: &image,
        };
        let due = rewritten(written, Read::Two);
        let got = encode_as(Version::Two, &file.tree, comments);
        assert!(got.as_ref() == Ok(&due));
        let input = tree::Input::new(&read, frame.image);
        let tree::Input {
            ast, spans, extras, ..
        } = &input;
        let plugged = encode_written_as(Version::Two, |out| {
            plug::write(out, ast, spans, extras)
        });
        assert!(plugged.as_ref() == Ok(&due));
        let converted = convert::tree(ast, spans);
        let got = encode_as(Version::Two, &converted, comments);
        assert!(got.as_ref() == Ok(&due));
        tried += 1;
    }
    assert!(tried > 3_000, "{tried}");
}

#[test]
fn moves_are_the_judges() {
    let mut refused = 0;
    for bytes in frames() {
        let Frame { source, image } =
            frame::split_any_size(&bytes).expect("a frame");
        let due = moves::forward(source, image, usize::MAX);
        let got = forward(File::new(source, image));
        match (&due, &got) {
            (Ok(due), Ok(got)) => assert!(due == got),
            (Err(due), Err(got)) => {
                let place = got.refusal.place() as u64;
                assert_eq!(due.number as usize, got.refusal.number());
                assert_eq!(due.place, place);
                refused += usize::from(due.number == 21);
                assert_eq!(got.text.is_some(), due.number == 21);
            }
            _ => panic!("{due:?}, and {:?}", got.is_ok()),
        }
        let frame = Frame { source, image };
        if reader::read(source, image).is_err() {
            continue;
        }
        let [one, two] =
            [Read::One, Read::Two].map(|version| rewritten(frame, version));
        assert!(forward(File::new(source, &one)).as_ref() == Ok(&two));
        assert!(back(File::new(source, &two)).as_ref() == Ok(&one));
    }
    assert!(refused > 500, "{refused}");
}

#[test]
fn texts_of_version_2() {
    let options = Options::default().with_widths(Widths::Unicode16_0);
    let mut formatter = Formatter::new().with_options(options);
    for bytes in frames() {
        let frame = frame::split_any_size(&bytes).expect("a frame");
        let choice = Choice {
            mode: NEW,
            rule: UNICODE_16_0,
            ..Choice::REFERENCE
        };
        let due = program::format_as(frame, Judged::Supplied, choice);
        let Ok(due) = due else { continue };
        let two = rewritten(frame, Read::Two);
        let got = formatter.format_file(File::new(frame.source, &two));
        assert_eq!(got.expect("a text").text, due.text);
    }
}
