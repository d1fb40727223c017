//! Files whose comments are in order or not (request 10), by every entry that
//! reads them; and their lists of steps.

use judge::{
    choice::Choice,
    figures::Tallies,
    frame::{Frame, framed, split_any_size},
    generate::{self, BatchCase, OrderCase},
    rule::UNICODE_16_0,
    width::REFERENCE,
};

use super::{Tally, batches, files, frames, images, moves, step_lists};

/// A generated file of any class.
pub fn compare(tally: &mut Tally, seed: u64, index: u64) {
    let OrderCase { way, frame, steps } = generate::order_case(seed, index);
    let heading = format!("comments {}", way.name());
    let frame = split_any_size(&frame).expect("a frame");
    let Frame { source, image } = frame;
    frames::compare_parts(tally, &heading, frame, REFERENCE);
    moves::compare_ways(tally, &heading, source, image);
    images::compare_image(tally, &heading, &heading, frame);
    let list = format!("steps, {heading}");
    step_lists::compare_list(tally, &list, &steps);
    let counted = format!("counted, {heading}");
    let fresh = Tallies::default();
    let _ = files::count_one(tally, &counted, &heading, frame, &fresh);
    let batched = format!("batches, {heading}");
    batches::compare_case(tally, &batched, &batch(frame));
}

/// A batch of the file between two that are accepted, by a rule that it asks
/// for.
fn batch(frame: Frame) -> BatchCase {
    let neighbour = judge::examples::frame("const-comment").expect("known");
    let neighbour = split_any_size(&neighbour).expect("a frame");
    let choice = match frame.image.first() {
        Some(2) => Choice {
            rule: UNICODE_16_0,
            ..Choice::REFERENCE
        },
        _ => Choice::REFERENCE,
    };
    BatchCase {
        buffer: [neighbour, frame, neighbour].map(framed).concat(),
        choice,
    }
}
