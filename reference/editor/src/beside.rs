//! The editor's crate and its plug beside the judge, on one frame.

use judge::{
    choice::Choice,
    frame::{self, Frame},
    mode,
    program::{self, Widths},
    reader::{self, Accepted, Reading, Version},
    rule::{UNICODE_15_1, UNICODE_16_0},
    tree,
};
use rrufthim::{
    Formatter, ImageWriter, Options, Span, WriteResult, encode_written,
    fmt_written, write_tree,
};

use crate::{File, as_written, backwards, convert, decode, plug};

/// What the original makes of a file, and what it makes of it when it closes
/// in the new mode of request 4, the crate's default; the latter also by an
/// edition of Unicode (request 8).
pub struct Due {
    pub image: Vec<u8>,
    pub text: String,
    pub comments_left: Vec<Span>,
    pub kept: String,
    pub measured: String,
    /// The default, but for that edition.
    pub by_edition: Options,
}

impl Due {
    /// Runs the original on an accepted frame, whose comments may be in any
    /// order.
    pub fn of(frame: Frame, accepted: &Accepted) -> Self {
        let run = |choice| {
            let (widths, earlier) = (Widths::Supplied, Reading::Earlier);
            let run = program::format_by(frame, widths, choice, earlier);
            run.expect("accepted")
        };
        let kept = |rule| {
            run(Choice {
                mode: mode::NEW,
                rule,
                ..Choice::REFERENCE
            })
            .text
        };
        let run = run(Choice::REFERENCE);
        let placed = accepted.comments.len() - run.comments_left;
        // The one for some files, the other for the others.
        let (edition, rule) = match frame.image.len() % 2 {
            0 => (rrufthim::Widths::Unicode15_1, UNICODE_15_1),
            _ => (rrufthim::Widths::Unicode16_0, UNICODE_16_0),
        };
        Due {
            image: as_written(frame.image, &accepted.tree),
            text: run.text,
            comments_left: accepted.comments[placed..].to_vec(),
            kept: kept(Choice::REFERENCE.rule),
            measured: kept(rule),
            by_edition: Options::default().with_widths(edition),
        }
    }
}

/// What is not as the judge has it, with the widths that an image of version 1
/// supplies; `None` if the reader refuses the frame, for another cause than the
/// order of its comments, or it is of version 2.
pub fn differences(bytes: &[u8]) -> Option<Vec<&'static str>> {
    let frame = frame::split_any_size(bytes).expect("a frame");
    let Frame { source, image } = frame;
    let (one, earlier) = (Version::One, Reading::Earlier);
    let accepted = reader::read_version(source, image, one, earlier).ok()?;
    let due = Due::of(frame, &accepted);
    let file = decode(&accepted);
    let input = tree::Input::new(&accepted, image);
    if let Err(refusal) = reader::read(source, image) {
        let found =
            backwards::differences(frame, &file, &input, &due, refusal);
        return Some(found);
    }
    let mut found = of_the_crate(&file, &due);
    found.extend(of_the_conversion(&file, &input, &due));
    found.extend(of_the_plug(file.source, &input, &due));
    Some(found)
}

/// The encoder and `fmt_parsed` on a tree of the crate's own types; as Roto
/// has it by a `Formatter`.
pub fn of_the_crate(file: &File, due: &Due) -> Vec<&'static str> {
    let File {
        source,
        tree,
        extras,
        ..
    } = file;
    let write = |out: &mut ImageWriter<'_>| -> WriteResult {
        write_tree(out, tree, &extras.comments, supply(file))
    };
    let image = encode_written(write);
    let mut formatter = Formatter::new().with_options(Options::AS_ROTO);
    let roto = formatter.format_written(source, write).expect("accepted");
    let kept = fmt_written(source, &Options::default(), write);
    let kept = kept.expect("accepted");
    // By other widths than the image's, which aren't looked at.
    let measured = fmt_written(source, &due.by_edition, |out| {
        write_tree(out, tree, &extras.comments, |_| 7)
    });
    let measured = measured.expect("accepted");
    let mut by_archive = Formatter::new();
    let archived = image.as_ref().map(|image| {
        let archived = rrufthim::File::new(source, image);
        by_archive.format_archived(archived).expect("accepted").text
    });
    named([
        ("archived text", archived == Ok(&due.kept)),
        ("image", image.as_ref() == Ok(&due.image)),
        ("text", roto.text == due.text),
        (
            "comments left",
            spans_of(&roto.comments_left) == due.comments_left,
        ),
        ("text with all comments", kept.text == due.kept),
        ("no comment left", kept.comments_left.is_empty()),
        ("text by an edition", measured.text == due.measured),
    ])
}

/// The spans of comments that a text lacks.
pub(crate) fn spans_of(places: &[rrufthim::Place]) -> Vec<Span> {
    places.iter().map(|place| place.span.clone()).collect()
}

/// The widths that the image supplies, one for each text.
fn supply(file: &File) -> impl FnMut(&str) -> usize {
    let mut widths = file.widths.clone();
    move |_| widths.pop_front().expect("one for each text")
}

/// The original's own tree, turned into one of the crate's.
pub fn of_the_conversion(
    file: &File,
    input: &tree::Input,
    due: &Due,
) -> Vec<&'static str> {
    let tree = convert::tree(&input.ast, &input.spans);
    let extras = convert::extras(&input.extras);
    let image = encode_written(|out| {
        write_tree(out, &tree, &extras.comments, supply(file))
    });
    named([("the converted image", image.as_ref() == Ok(&due.image))])
}

/// The plug on the original's own tree.
pub fn of_the_plug(
    source: &str,
    input: &tree::Input,
    due: &Due,
) -> Vec<&'static str> {
    let _held = input.supply_widths();
    let tree::Input {
        ast, spans, extras, ..
    } = input;
    let write = |out: &mut ImageWriter<'_>| -> WriteResult {
        plug::write(out, ast, spans, extras)
    };
    let image = encode_written(write).expect("within the limits");
    let roto = fmt_written(source, &Options::AS_ROTO, write);
    let roto = roto.expect("accepted");
    let kept = plug::fmt_parsed(ast, source, spans, extras);
    let kept = kept.expect("accepted");
    let measured = fmt_written(source, &due.by_edition, write);
    let measured = measured.expect("accepted");
    named([
        ("the plug's image", image == due.image),
        ("the plug's text", roto.text == due.text),
        (
            "the plug's comments left",
            spans_of(&roto.comments_left) == due.comments_left,
        ),
        ("the plug's text with all comments", kept.text == due.kept),
        ("no comment left by the plug", kept.comments_left.is_empty()),
        (
            "the plug's text by an edition",
            measured.text == due.measured,
        ),
    ])
}

/// The names of those that are not the same.
pub(crate) fn named<const N: usize>(
    tests: [(&'static str, bool); N],
) -> Vec<&'static str> {
    let differing = tests.into_iter().filter(|(_, same)| !same);
    differing.map(|(name, _)| name).collect()
}
