//! Whether trees would be read back differently (request 11), and what refuses
//! them.

use judge::{
    frame::{Frame, join, split_any_size},
    generate::{self, MoveCase, OperatorCase},
    random::Random,
    reader,
    reads_back::{self, Rule},
    width::REFERENCE,
};

use super::{Tally, files, frames};

/// One tree in so many is laid out and rendered as well: what the check says
/// of a tree changes nothing there.
const LAID: u64 = 8;

/// A generated tree of operators, damaged or not.
pub fn compare(tally: &mut Tally, seed: u64, index: u64) {
    let OperatorCase { source, image } = generate::operator_case(seed, index);
    compare_one(tally, "operators", &source, &image);
    if index.is_multiple_of(LAID) {
        let frame = Frame {
            source: &source,
            image: &image,
        };
        frames::compare_parts(tally, "operators", frame, REFERENCE);
    }
}

/// One of the fixed list.
pub fn compare_fixed(tally: &mut Tally, place: usize) {
    let case = &generate::operator_cases()[place];
    let OperatorCase { source, image } = &case.of;
    compare_one(tally, "operators, fixed list", source, image);
}

/// A frame of any class, or an image of either version, damaged or not.
pub fn compare_any(tally: &mut Tally, seed: u64, index: u64) {
    let mut random = Random::new(118, seed, index);
    let (class, frame) = match random.below(5) {
        0 => ("feet".into(), generate::foot_frame(seed, index)),
        1 => ("broad".into(), generate::broad_frame(seed, index).0),
        2 => {
            let case = generate::order_case(seed, index);
            (format!("comments {}", case.way.name()), case.frame)
        }
        3 => {
            let MoveCase { source, image } = generate::move_case(seed, index);
            ("images of both versions".into(), join(&source, &image))
        }
        _ => {
            let file = files::file(&mut random, seed);
            let Frame { source, image } = file.frame();
            (file.class().into(), join(source, image))
        }
    };
    let Frame { source, image } = split_any_size(&frame).expect("a frame");
    compare_one(tally, &class, source, image);
}

/// Both sides on an image; and the refusal is that of the port's own check.
pub(super) fn compare_one(
    tally: &mut Tally,
    heading: &str,
    source: &[u8],
    image: &[u8],
) {
    let due = reads_back::reads_back(source, image);
    let number = due.err().map_or(0, |refusal| refusal.number);
    let said = first_rule(source, image);
    tally.count(&format!("verdicts, {heading}, {said}"), number);
    let got = crate::reads_back(source, image);
    let what = format!("the verdict, {heading}");
    if tally.expect(&what, &due, &got) {
        let checked = crate::check(source, image);
        tally.expect("as its check", &checked.err(), &got.err());
    }
}

/// What the judge says, in words.
fn first_rule(source: &[u8], image: &[u8]) -> &'static str {
    let Ok(read) = reader::read(source, image) else {
        return "refused";
    };
    match reads_back::operands(&read).first() {
        None => "the same",
        Some(first) => {
            let known = |(rule, _): &(Rule, _)| *rule == first.rule;
            Rule::ALL.into_iter().find(known).expect("all are listed").1
        }
    }
}
