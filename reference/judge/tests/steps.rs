//! Lists of steps: each cause of 16 at the first step at fault, and 17.

use judge::{
    image::{self, node},
    reader,
    refusal::{Refusal, refusal},
    steps::{self, Cause, Fault, Step, follow, joined},
};

fn comment(start: u32, end: u32) -> Step {
    Step::Comment { start, end }
}

fn open(kind: u8) -> Step {
    let (start, end) = (3, 8);
    Step::Open { kind, start, end }
}

fn text(text: &str) -> Step {
    let (width, text) = (text.len() as u16, text.into());
    Step::Text { width, text }
}

use Step::{Absent, Close, Payload};

/// A text record.
fn name() -> [Step; 3] {
    [open(2), text("A"), Close]
}

/// `const A: ! = ` and a value of these steps.
fn constant(value: &[Step]) -> Vec<Step> {
    let front = [open(1), Absent, open(11)];
    let never = [open(42), Close];
    [&front[..], &name(), &never, value, &[Close, Close]].concat()
}

/// Where the value of a constant stands.
const VALUE: usize = 8;

/// The value `true`.
fn literal() -> [Step; 5] {
    [open(51), open(87), Payload(1), Close, Close]
}

/// The step with this index is the first at fault.
fn at_fault(steps: &[Step], index: usize, cause: Cause) {
    let place = joined(&steps[..index]).len();
    let list = joined(steps);
    let found = follow(&list).expect_err("a fault");
    assert_eq!(found, Fault { cause, place }, "{steps:?}");
    let due = Err(refusal(16, place));
    for room in [0, list.len() * 4] {
        assert_eq!(steps::write(&list, room), due);
    }
}

fn accepted(steps: &[Step]) -> Vec<u8> {
    let list = joined(steps);
    steps::write(&list, list.len() * 4).expect("an image")
}

#[test]
fn a_list_of_each_sort_of_step() {
    let comments = [comment(0, 1), comment(5, 7)];
    let list = [&comments[..], &constant(&literal())].concat();
    let literal = image::chosen(87, 3..8, 1, []);
    let value = node(51, 3..8, [Some(literal)]);
    let name = image::text(3..8, 1, "A");
    let children = [name, node(42, 3..8, []), value];
    let constant = node(11, 3..8, children.map(Some));
    let tree = node(1, 3..8, [None, Some(constant)]);
    let due = image::write(&[0..1, 5..7], &tree);
    assert_eq!(accepted(&list), due);
    let source = [b' '; 8];
    assert_eq!(steps::of_image(&source, &due), Ok(list));
}

#[test]
fn steps_have_their_bytes() {
    let all = [
        (comment(1, 258), &[1, 0, 0, 0, 1, 0, 0, 1, 2][..]),
        (open(87), &[2, 87, 0, 0, 0, 3, 0, 0, 0, 8]),
        (text("A+"), &[3, 0, 2, 0, 0, 0, 2, b'A', b'+']),
        (Payload(9), &[4, 9]),
        (Absent, &[5]),
        (Close, &[6]),
    ];
    for (step, bytes) in &all {
        assert_eq!(step.bytes(), *bytes);
        assert_eq!(Step::first(bytes), Ok((step.clone(), bytes.len())));
    }
    let steps: Vec<Step> = all.into_iter().map(|(step, _)| step).collect();
    assert_eq!(steps::split(&joined(&steps)), steps);
}

/// After whole steps, each byte that is no step.
#[test]
fn unknown_steps() {
    let legal = constant(&literal());
    for length in 0..=legal.len() {
        let before = joined(&legal[..length]);
        for byte in [0, 7, 8, 127, 128, 255] {
            let list = [&before[..], &[byte], &joined(&legal)].concat();
            let due = Err(refusal(16, before.len()));
            assert_eq!(steps::write(&list, 1_000), due);
        }
    }
}

/// A legal list cut at each of its bytes: 16 at the step that is cut, or at
/// the list's length.
#[test]
fn cut_off_and_the_lists_end() {
    let comments = [comment(0, 1), comment(5, 7)];
    let value = [open(50), Payload(2), open(59), open(3), Close, Close];
    let value = [&value[..], &[Close]].concat();
    let legal = [&comments[..], &constant(&value)].concat();
    accepted(&legal);
    for (index, step) in legal.iter().enumerate() {
        let before = joined(&legal[..index]);
        let whole = step.bytes();
        for length in 0..whole.len() {
            let list = [&before[..], &whole[..length]].concat();
            let cause = match length {
                0 => Cause::ListEnds,
                _ => Cause::CutOff,
            };
            let place = before.len();
            assert_eq!(follow(&list).unwrap_err(), Fault { cause, place });
        }
    }
}

#[test]
fn an_empty_list() {
    let none = Refusal {
        number: 16,
        place: 0,
    };
    assert_eq!(steps::write(&[], 1_000), Err(none));
    at_fault(&[], 0, Cause::ListEnds);
}

/// A text that is said to go far past the list.
#[test]
fn a_text_longer_than_the_list() {
    let before = joined(&[open(1), open(2)]);
    for length in [2u32, 0x100, u32::MAX] {
        let text = [&[3, 0, 1][..], &length.to_be_bytes(), b"A"].concat();
        let list = [&before[..], &text].concat();
        let due = Err(refusal(16, before.len()));
        assert_eq!(steps::write(&list, 1_000), due);
    }
}

#[test]
fn comments() {
    let tree = [open(1), Absent, Close];
    let with = |comments: &[Step]| [comments, &tree].concat();
    accepted(&with(&[comment(0, 1), comment(u32::MAX - 1, u32::MAX)]));
    let good = comment(4, 9);
    for (start, end, cause) in [
        (0, 0, Cause::CommentEmpty),
        (7, 7, Cause::CommentEmpty),
        (u32::MAX, u32::MAX, Cause::CommentEmpty),
        (1, 0, Cause::CommentReversed),
        (256, 255, Cause::CommentReversed),
        (u32::MAX, 0, Cause::CommentReversed),
    ] {
        let bad = comment(start, end);
        at_fault(&with(std::slice::from_ref(&bad)), 0, cause);
        at_fault(&with(&[good.clone(), bad.clone()]), 1, cause);
        at_fault(&with(&[bad, good.clone()]), 0, cause);
    }
}

/// Request 10: a comment may start where the one before ends, and not before.
#[test]
fn comments_in_order() {
    let tree = [open(1), Absent, Close];
    let with = |comments: &[Step]| [comments, &tree].concat();
    let first = comment(4, 9);
    let last = comment(u32::MAX - 1, u32::MAX);
    accepted(&with(&[comment(0, 4), first.clone(), comment(9, 10), last]));
    for (start, end) in [(8, 10), (4, 9), (5, 6), (0, 4), (0, u32::MAX)] {
        let early = comment(start, end);
        let cause = Cause::CommentUnordered;
        at_fault(&with(&[first.clone(), early.clone()]), 1, cause);
        // Only the one before counts, and the first step at fault.
        let more = [first.clone(), comment(9, 10), early, comment(0, 0)];
        at_fault(&with(&more), 2, cause);
    }
    // What is wrong with a comment by itself comes first.
    at_fault(
        &with(&[first.clone(), comment(3, 3)]),
        1,
        Cause::CommentEmpty,
    );
    let reversed = comment(5, 3);
    at_fault(&with(&[first, reversed]), 1, Cause::CommentReversed);
}

/// A comment at each place after the first other step.
#[test]
fn comments_too_late() {
    let legal = constant(&literal());
    for place in 1..legal.len() {
        let mut steps = legal.clone();
        steps.insert(place, comment(0, 1));
        at_fault(&steps, place, Cause::CommentLate);
    }
}

#[test]
fn as_many_comments_as_there_may_be() {
    let tree = [open(1), Absent, Close];
    let numbered = (0..8_192).map(|start| comment(start, start + 1));
    let most: Vec<Step> = numbered.collect();
    accepted(&[&most[..], &tree].concat());
    let more = [&most[..], &[comment(0, 1)], &tree].concat();
    at_fault(&more, 8_192, Cause::CommentTooMany);
}

/// Where a record of each class may stand, all others are wrong.
#[test]
fn wrong_kinds_at_each_place() {
    let tree = [open(1), Absent];
    let constant = [&tree[..], &[open(11)]].concat();
    let typed = [&constant[..], &name()].concat();
    let value = [&typed[..], &[open(42), Close]].concat();
    let at_value = |more: &[Step]| [&value[..], more].concat();
    let path = [&[open(4)][..], &name(), &[Close]].concat();
    let pattern = [open(53)].into_iter().chain(literal());
    let pattern: Vec<Step> = pattern.chain([open(3), open(81)]).collect();
    let statements = [open(52), open(23), open(3)];
    let operator = [&[open(62)][..], &path].concat();
    let arguments = [open(54), open(50), Payload(0), Absent, Close];
    let places: [(Vec<Step>, Vec<u8>); 16] = [
        (vec![], vec![1]),
        (vec![open(1)], vec![2]),
        (tree.to_vec(), (10..=16).collect()),
        (constant, vec![2]),
        (typed, (40..=44).collect()),
        (at_value(&[]), (50..=70).collect()),
        (at_value(&[open(51)]), vec![87]),
        (at_value(&[open(56)]), vec![4]),
        (at_value(&[open(57)]), vec![80]),
        (at_value(&[open(57), open(80)]), vec![22]),
        (at_value(&pattern), vec![82, 83]),
        (at_value(&[open(69), open(3)]), vec![84, 85]),
        (at_value(&statements), (30..=32).collect()),
        (at_value(&operator), vec![86]),
        (at_value(&arguments), vec![3]),
        (at_value(&[open(52)]), vec![23]),
    ];
    for (before, kinds) in places {
        for kind in 0..=255 {
            let steps = [&before[..], &[open(kind)]].concat();
            let cause = match kinds.contains(&kind) {
                true => Cause::ListEnds,
                false => Cause::KindWrong,
            };
            let good = usize::from(kinds.contains(&kind));
            at_fault(&steps, before.len() + good, cause);
        }
    }
}

#[test]
fn payloads() {
    let most = [(50, 2), (87, 3)];
    for (kind, most) in most {
        let inside = |payload: &[Step]| {
            let record = [&[open(kind)], payload].concat();
            match kind {
                87 => constant(&[&[open(51)], &record[..]].concat()),
                _ => constant(&record),
            }
        };
        let at = VALUE + if kind == 87 { 2 } else { 1 };
        for byte in 0..=most {
            let steps = inside(&[Payload(byte), Payload(byte)]);
            at_fault(&steps, at + 1, Cause::PayloadTwice);
        }
        for byte in [most + 1, 128, 255] {
            at_fault(&inside(&[Payload(byte)]), at, Cause::PayloadTooLarge);
        }
        for other in [Absent, Close, open(51), text("A")] {
            at_fault(&inside(&[other]), at, Cause::PayloadMissing);
        }
        at_fault(&inside(&[comment(0, 1)]), at, Cause::CommentLate);
    }
}

/// 0 to 13 between operands, 0 to 4 in a compound assignment.
#[test]
fn operators() {
    let path = [&[open(4)][..], &name(), &[Close]].concat();
    for (kind, first, most) in [(63, literal().to_vec(), 13), (62, path, 4)] {
        let front = [&[open(kind)], &first[..], &[open(86)]].concat();
        let at = VALUE + front.len();
        for byte in 0..=255 {
            let rest = [&[Payload(byte), Close], &literal()[..]].concat();
            let value = [&front[..], &rest, &[Close]].concat();
            match byte <= most {
                true => drop(accepted(&constant(&value))),
                false => {
                    at_fault(&constant(&value), at, Cause::PayloadTooLarge);
                }
            }
        }
    }
}

#[test]
fn payloads_elsewhere() {
    for byte in [0, 255] {
        at_fault(&[Payload(byte)], 0, Cause::NothingOpen);
        at_fault(&[open(1), Payload(byte)], 1, Cause::PayloadElsewhere);
        let value = [open(51), Payload(byte)];
        let cause = Cause::PayloadElsewhere;
        at_fault(&constant(&value), VALUE + 1, cause);
        // A text is due there, or stands there.
        let steps = [open(1), open(2), Payload(byte)];
        at_fault(&steps, 2, Cause::PayloadMissing);
        let steps = [open(1), open(2), text("#!"), Payload(byte)];
        at_fault(&steps, 3, Cause::PayloadElsewhere);
        // After the child of a return.
        let front = [&[open(50), Payload(0)], &literal()[..]].concat();
        let value = [&front[..], &[Payload(byte)]].concat();
        let at = VALUE + front.len();
        at_fault(&constant(&value), at, Cause::PayloadTwice);
    }
}

#[test]
fn texts_elsewhere() {
    at_fault(&[text("A")], 0, Cause::NothingOpen);
    at_fault(&[open(1), text("A")], 1, Cause::TextElsewhere);
    let steps = [open(1), open(2), text("A"), text("A")];
    at_fault(&steps, 3, Cause::TextElsewhere);
    for kind in [51, 59, 82] {
        let value = [open(kind), text("A")];
        let (index, cause) = match kind {
            82 => (VALUE, Cause::KindWrong),
            _ => (VALUE + 1, Cause::TextElsewhere),
        };
        at_fault(&constant(&value), index, cause);
    }
    let steps = [open(1), Absent, Close, text("A")];
    at_fault(&steps, 3, Cause::AfterTheEnd);
}

/// Empty ones, and any width, are fine; a text record must have its text.
#[test]
fn texts() {
    for words in ["", "a", "é日🦀", "\0\n"] {
        for width in [0, 1, 65_535] {
            let text = words.into();
            let text = Step::Text { width, text };
            accepted(&[open(1), open(2), text, Close, Close]);
        }
    }
    at_fault(&[open(1), open(2), Close], 2, Cause::PayloadMissing);
    at_fault(&[open(1), open(2), Absent], 2, Cause::PayloadMissing);
    at_fault(&[open(1), open(2), open(2)], 2, Cause::PayloadMissing);
    let steps = [open(1), open(2), text("A"), open(2)];
    at_fault(&steps, 3, Cause::ChildSpare);
}

#[test]
fn texts_that_are_not_utf8() {
    let bad: [&[u8]; 8] = [
        b"\x80",
        b"a\xC3",
        b"\xC0\xAF",
        b"\xE2\x82",
        b"\xED\xA0\x80",
        b"\xF0\x9F\xA6",
        b"\xF4\x90\x80\x80",
        b"ok\xFF",
    ];
    for text in bad {
        let (width, text) = (1, text.to_vec());
        let steps = [open(1), open(2), Step::Text { width, text }, Close];
        at_fault(&steps, 2, Cause::TextNotUtf8);
    }
}

#[test]
fn absent_where_it_is_not_marked() {
    at_fault(&[Absent], 0, Cause::NothingOpen);
    // Among declarations, in place of a name, of a value, after the last
    // child.
    at_fault(&[open(1), Absent, Absent], 2, Cause::AbsentWrong);
    let steps = [open(1), Absent, open(11), Absent];
    at_fault(&steps, 3, Cause::AbsentWrong);
    at_fault(&constant(&[Absent]), VALUE, Cause::AbsentWrong);
    let value = [&literal()[..], &[Absent]].concat();
    at_fault(&constant(&value), VALUE + 5, Cause::ChildSpare);
    let value = [open(59), open(3), Absent];
    at_fault(&constant(&value), VALUE + 2, Cause::AbsentWrong);
}

/// A legal list with a close at each place where no close stands.
#[test]
fn closed_too_early() {
    let legal = constant(&literal());
    let mut early = 0;
    for place in 0..legal.len() {
        let mut steps = legal.clone();
        steps.insert(place, Close);
        let cause = match (&legal[place], place) {
            (_, 0) => Cause::NothingOpen,
            (Step::Text { .. } | Payload(_), _) => Cause::PayloadMissing,
            // The tree needs no declaration, and the others are whole here.
            (Close, _) => continue,
            (_, 2) => continue,
            _ => Cause::ClosedEarly,
        };
        early += 1;
        at_fault(&steps, place, cause);
    }
    assert_eq!(early, 8);
}

#[test]
fn spans() {
    let tree = |start, end| {
        [
            Step::Open {
                kind: 1,
                start,
                end,
            },
            Absent,
            Close,
        ]
    };
    for (start, end) in [(0, 0), (9, 9), (0, u32::MAX), (u32::MAX, u32::MAX)]
    {
        accepted(&tree(start, end));
    }
    for (start, end) in [(1, 0), (u32::MAX, 0), (256, 255)] {
        at_fault(&tree(start, end), 0, Cause::SpanReversed);
        let (kind, cause) = (51, Cause::SpanReversed);
        let value = [Step::Open { kind, start, end }];
        at_fault(&constant(&value), VALUE, cause);
    }
}

/// Parentheses in parentheses: the value is the third level.
#[test]
fn sixty_five_deep() {
    let deep = |levels: usize| {
        let mut value = vec![open(70); levels - 2];
        value.extend([open(51), open(87), Payload(0), Close, Close]);
        value.extend(vec![Close; levels - 2]);
        constant(&value)
    };
    // Two levels of a constant, two of the literal.
    accepted(&deep(62));
    at_fault(&deep(63), VALUE + 62, Cause::TooDeep);
    at_fault(&deep(64), VALUE + 62, Cause::TooDeep);
    // An absent child is no record.
    let mut value = vec![open(70); 61];
    value.extend([open(50), Payload(0), Absent, Close]);
    value.extend(vec![Close; 61]);
    accepted(&constant(&value));
}

#[test]
fn steps_after_the_end() {
    let legal = constant(&literal());
    for step in [comment(0, 1), open(1), text("A"), Payload(0), Absent, Close]
    {
        let steps = [&legal[..], &[step]].concat();
        at_fault(&steps, legal.len(), Cause::AfterTheEnd);
    }
}

#[test]
fn room() {
    let list = joined(&constant(&literal()));
    let image = accepted(&constant(&literal()));
    let needed = image.len();
    for room in [needed, needed + 1, 1 << 20] {
        assert_eq!(steps::write(&list, room), Ok(image.clone()));
    }
    let due = Err(refusal(17, needed));
    for room in [0, 5, needed - 1] {
        assert_eq!(steps::write(&list, room), due);
    }
    // 16 comes first.
    let late = [&list[..], &[0]].concat();
    let due = Err(refusal(16, list.len()));
    assert_eq!(steps::write(&late, 0), due);
    let source = [b' '; 8];
    let needed = list.len();
    assert_eq!(steps::read(&source, &image, needed), Ok(list));
    let due = Err(refusal(17, needed));
    assert_eq!(steps::read(&source, &image, needed - 1), due);
    assert_eq!(steps::read(&source, &[2], 0), Err(refusal(3, 0)));
    assert_eq!(steps::read(&[0xFF], &image, 0), Err(refusal(2, 0)));
}

#[test]
fn a_body_of_the_most_bytes() {
    // All but the text: head, count, and two records.
    let text = |bytes: usize| text_of(1_048_576 - 2 - 13 - 15 + bytes);
    let ample = 2_000_000;
    let image = steps::write(&text(0), ample).expect("an image");
    assert_eq!(image.len(), 1_048_581);
    assert!(reader::read(b"", &image).is_ok());
    assert_eq!(steps::write(&text(0), 1_048_581), Ok(image));
    let due = Err(refusal(17, 1_048_581));
    assert_eq!(steps::write(&text(0), 1_048_580), due);
    let due = Err(refusal(17, 1_048_582));
    assert_eq!(steps::write(&text(1), ample), due);
}

/// A tree whose shebang has so many bytes.
fn text_of(bytes: usize) -> Vec<u8> {
    let kind = 2;
    let (start, end) = (0, 0);
    let tree = Step::Open {
        kind: 1,
        start,
        end,
    };
    let shebang = Step::Open { kind, start, end };
    let text = Step::Text {
        width: 0,
        text: vec![b'a'; bytes],
    };
    joined(&[tree, shebang, text, Close, Close])
}
