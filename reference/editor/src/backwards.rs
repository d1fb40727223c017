//! A file whose comments run backwards (request 10): the crate and the plug
//! refuse it at the judge's comment, and an archived image of it has the
//! original's text.

use judge::{frame::Frame, reader::HEADER, refusal::Refusal, tree};
use rrufthim::{
    Cause, EncodeError, FormatError, Formatter, ImageWriter, Options, Span,
    encode_written, write_tree,
};

use crate::{
    File,
    beside::{Due, named, spans_of},
    plug,
};

/// The offset of the first pair, and the bytes of each.
const FIRST: usize = HEADER + 2;
const PAIR: usize = 8;

/// What isn't as the judge has it, where its strict reader refuses the frame so
/// and its earlier one doesn't.
pub fn differences(
    frame: Frame,
    file: &File,
    input: &tree::Input,
    due: &Due,
    refusal: Refusal,
) -> Vec<&'static str> {
    let index = (refusal.place as usize - FIRST) / PAIR;
    let is_found = |image: Result<Vec<u8>, EncodeError>| {
        matches!(
            image,
            Err(EncodeError::UnorderedComment { index: at, .. }) if at == index
        )
    };
    let comments = &file.extras.comments;
    let encoded = encode_written(|out: &mut ImageWriter<'_>| {
        write_tree(out, &file.tree, comments, |_| 1)
    });
    let plugged = encode_written(|out: &mut ImageWriter<'_>| {
        plug::write(out, &input.ast, &input.spans, &input.extras)
    });
    let archived = rrufthim::File::new(frame.source, frame.image);
    let strict = Formatter::new().format_file(archived).map(|_| ());
    let text = |options| archived_text(archived, options);
    let as_roto = (due.text.clone(), due.comments_left.clone());
    named([
        ("the encoder's refusal", is_found(encoded)),
        ("the plug's refusal", is_found(plugged)),
        ("the refusal", strict.is_err_and(|e| is_at(&e, refusal))),
        ("archived text", text(&Options::AS_ROTO) == as_roto),
        (
            "archived text with all comments",
            text(&Options::default()) == (due.kept.clone(), vec![]),
        ),
        (
            "archived text by an edition",
            text(&due.by_edition) == (due.measured.clone(), vec![]),
        ),
    ])
}

/// The text of an archived file, and the comments that it lacks.
fn archived_text(
    file: rrufthim::File<'_>,
    options: &Options,
) -> (String, Vec<Span>) {
    let mut formatter = Formatter::new().with_options(options.clone());
    let formatted = formatter.format_archived(file).expect("archived");
    (
        formatted.text.to_owned(),
        spans_of(&formatted.comments_left),
    )
}

/// Whether an error is the judge's refusal.
fn is_at(error: &FormatError, refusal: Refusal) -> bool {
    let Cause::Refused(refused) = &error.cause else {
        return false;
    };
    refused.number() == usize::from(refusal.number)
        && refused.place() as u64 == refusal.place
}
