//! The encoder's images are the judge's, byte for byte, and the texts that
//! the editor's crate gives for them are the original's: as Roto has them, and
//! by default those of the original when it keeps every comment.

#[allow(dead_code)]
#[path = "../../../editor/examples/format.rs"]
mod example;

use std::thread;

use editor::{
    as_written,
    beside::{self, Due},
    decode,
};
use judge::{
    examples,
    frame::{self, Frame},
    generate::{self, Class},
    reader, script, tree,
};
use rrufthim::{File, Formatter, encode, encode_written, write_tree};
use unicode_width::true_width;

const SEED: u64 = 11;
const FRAMES: u64 = 2_000;

/// Holds the crate and its plug against the judge on one frame. False if the
/// reader refuses it.
fn compare(bytes: &[u8]) -> bool {
    let found = beside::differences(bytes);
    assert!(found.as_ref().is_none_or(Vec::is_empty), "{found:?}");
    found.is_some()
}

/// The image of a frame by true widths instead of the supplied ones.
fn compare_true_widths(bytes: &[u8]) {
    let Frame { source, image } =
        frame::split_any_size(bytes).expect("a frame");
    let accepted = reader::read(source, image).expect("accepted");
    let file = decode(&accepted);
    let comments = &file.extras.comments;
    let encoded = encode_written(|out| {
        write_tree(out, &file.tree, comments, true_width)
    });
    assert!(encoded == Ok(as_written(image, &accepted.tree)));
}

/// Each thing that isn't as the original has it is found.
#[test]
fn differences_are_found() {
    let bytes = script::frame(example::SOURCE).expect("it can be read");
    let frame = frame::split_any_size(&bytes).expect("a frame");
    let accepted = reader::read(frame.source, frame.image).expect("accepted");
    let found = |change: fn(&mut Due)| {
        let mut due = Due::of(frame, &accepted);
        change(&mut due);
        let input = tree::Input::new(&accepted, frame.image);
        let file = decode(&accepted);
        [
            beside::of_the_crate(&file, &due),
            beside::of_the_conversion(&file, &input, &due),
            beside::of_the_plug(file.source, &input, &due),
        ]
        .concat()
    };
    assert_eq!(found(|_| ()), [""; 0]);
    let image = found(|due| due.image[100] ^= 1);
    let images = ["image", "the converted image", "the plug's image"];
    assert_eq!(image, images);
    let text = found(|due| due.text.push(' '));
    assert_eq!(text, ["text", "the plug's text"]);
    let left = found(|due| due.comments_left.clear());
    assert_eq!(left, ["comments left", "the plug's comments left"]);
    let kept = found(|due| due.kept.push(' '));
    let texts = [
        "archived text",
        "text with all comments",
        "the plug's text with all comments",
    ];
    assert_eq!(kept, texts);
    let measured = found(|due| due.measured.push(' '));
    let texts = ["text by an edition", "the plug's text by an edition"];
    assert_eq!(measured, texts);
}

#[test]
fn generated_frames() {
    for class in [Class::Realistic, Class::Wild, Class::Edges] {
        for bytes in generate::frames(class, SEED, FRAMES) {
            assert!(compare(&bytes), "{class:?} is refused");
        }
    }
    for bytes in generate::frames(Class::Realistic, SEED, FRAMES) {
        compare_true_widths(&bytes);
    }
}

/// Files with comments after their last declaration.
#[test]
fn feet() {
    for index in 0..FRAMES {
        assert!(compare(&generate::foot_frame(SEED, index)), "{index}");
    }
}

/// Files with characters of two columns, or of none.
#[test]
fn broad() {
    let accepted = (0..FRAMES).filter(|index| {
        let (bytes, _) = generate::broad_frame(SEED, *index);
        compare(&bytes)
    });
    let accepted = accepted.count() as u64;
    assert!(accepted > FRAMES / 2, "{accepted}");
}

/// Damaged frames that the reader accepts after all.
#[test]
fn damaged_frames() {
    let frames = generate::frames(Class::Damaged, SEED, FRAMES);
    let whole = frames.filter(|bytes| frame::split_any_size(bytes).is_ok());
    let accepted = whole.filter(|bytes| compare(bytes)).count();
    assert!(accepted > 20, "{accepted}");
}

/// Frames at the document's sizes, those one past them left out.
#[test]
fn sizes() {
    let count = generate::size_cases().len() as u64;
    let frames = generate::frames(Class::Sizes, SEED, count);
    let accepted = frames.filter(|bytes| compare(bytes)).count();
    assert!(accepted > 10, "{accepted}");
}

/// The deepest records, and trees of all shapes, on 256 KB of stack.
#[test]
fn a_small_stack() {
    let count = generate::size_cases().len() as u64;
    let sizes = generate::frames(Class::Sizes, SEED, count);
    let wild = generate::frames(Class::Wild, SEED, FRAMES);
    let frames: Vec<_> = sizes.chain(wild).collect();
    let run = move || {
        let mut formatter = Formatter::new();
        for bytes in frames {
            let frame = frame::split_any_size(&bytes).expect("a frame");
            let file = File::new(frame.source, frame.image);
            let _ = formatter.format_file(file);
        }
    };
    let thread = thread::Builder::new().stack_size(256 << 10).spawn(run);
    thread.expect("a thread").join().expect("no panic");
}

#[test]
fn document_01() {
    for (name, _) in examples::NAMES {
        let frame = examples::frame(name).expect("a known name");
        assert_eq!(compare(&frame), !name.starts_with("version-"));
    }
}

/// The inputs and outputs of docs/DIFFERENCES.md, read by the judge's script.
#[test]
fn scripts() {
    const PAGE: &str = include_str!("../../../docs/DIFFERENCES.md");
    let mut read = 0;
    for block in PAGE.split("```roto\n").skip(1) {
        let body = block.split("```").next().expect("a block");
        for stage in body.split("=>\n") {
            if let Ok(frame) = script::frame(&stage.replace('·', " ")) {
                assert!(compare(&frame));
                compare_true_widths(&frame);
                read += 1;
            }
        }
    }
    assert!(read > 50, "{read}");
}

/// The example's tree, built by hand, is what a parser gives.
#[test]
fn the_example() {
    let frame = script::frame(example::SOURCE).expect("it can be read");
    assert!(compare(&frame));
    let (tree, extras) = example::tariff();
    let image = encode(&tree, &extras.comments).expect("within limits");
    let frame = frame::split_any_size(&frame).expect("a frame");
    assert_eq!(image, frame.image);
}
