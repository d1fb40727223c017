//! Request 10 of document 02: a comment must start at or after the end of the
//! one before; archived images and the moves read by the earlier rule.

use std::{collections::BTreeMap, ops::Range};

use judge::{
    allotment::ALL_ROWS,
    batch::batch,
    calls::{self, Answer, Call, Given, LayoutArgs, RenderArgs, World},
    choice::Choice,
    figures::{self, Tallies},
    frame::{self, Frame},
    generate::{self, OrderWay},
    image::{self, node},
    mode::{NEW, OLD},
    moves::{Way, moved},
    program::{self, Widths},
    reader::{self, Reading},
    refusal::{Refusal, refusal},
    rows::Row,
    rule::{SUPPLIED, UNICODE_16_0},
    steps,
    width::REFERENCE,
};

const SEED: u64 = 11;
const AMPLE: usize = 1 << 22;
/// The offset of the first pair, and the bytes of each.
const FIRST: usize = 7;
const PAIR: usize = 8;

const SOURCE: &str = "abcdéfghij";

fn image_with(comments: &[Range<usize>]) -> Vec<u8> {
    image::write(comments, &node(1, 0..0, [None]))
}

/// The number and place by a reading, or `None`.
fn refused(comments: &[Range<usize>], reading: Reading) -> Option<Refusal> {
    let image = image_with(comments);
    reader::read_by(SOURCE.as_bytes(), &image, reading).err()
}

fn at_pair(place: usize) -> Option<Refusal> {
    Some(refusal(7, FIRST + PAIR * place))
}

#[test]
fn a_comment_starts_at_or_after_the_end_of_the_one_before() {
    let [strict, earlier] = [Reading::Strict, Reading::Earlier];
    for ordered in [
        &[][..],
        &[0..11],
        &[10..11],
        &[0..1, 1..2],
        &[0..1, 3..4, 4..6, 10..11],
    ] {
        assert_eq!(refused(ordered, strict), None, "{ordered:?}");
        assert_eq!(refused(ordered, earlier), None, "{ordered:?}");
    }
    for (list, place) in [
        (&[1..2, 0..1][..], 1),
        (&[0..2, 1..3], 1),
        (&[0..2, 0..2], 1),
        (&[0..3, 1..2], 1),
        (&[0..1, 1..2, 3..4, 2..3], 3),
        // Only the one before counts: the last is in order with the third.
        (&[6..7, 7..8, 0..1, 1..2], 2),
    ] {
        assert_eq!(refused(list, strict), at_pair(place), "{list:?}");
        assert_eq!(refused(list, earlier), None, "{list:?}");
    }
}

/// Pair by pair, whatever is wrong with each.
#[test]
fn the_first_pair_at_fault_is_named() {
    let [strict, earlier] = [Reading::Strict, Reading::Earlier];
    #[allow(clippy::reversed_empty_ranges)]
    let reversed = 9..8;
    for bad in [8..8, reversed, 8..12, 5..8] {
        let early = [2..3, 1..2, bad.clone()];
        assert_eq!(refused(&early, strict), at_pair(1), "{bad:?}");
        assert_eq!(refused(&early, earlier), at_pair(2), "{bad:?}");
        let late = [2..3, bad.clone(), 1..2];
        assert_eq!(refused(&late, strict), at_pair(1), "{bad:?}");
        assert_eq!(refused(&late, earlier), at_pair(1), "{bad:?}");
    }
    // One pair with both faults.
    assert_eq!(refused(&[2..3, 1..1], strict), at_pair(1));
    // The count is tested first of all.
    let mut cut = image_with(&[1..2, 0..1]);
    cut[6] = 9;
    let answer = reader::read(SOURCE.as_bytes(), &cut).unwrap_err();
    assert_eq!(answer, refusal(7, 5));
}

/// Which entries read by which rule.
#[test]
fn entries() {
    let image = image_with(&[3..4, 1..2]);
    let source = SOURCE.as_bytes();
    let file = Frame {
        source,
        image: &image,
    };
    let due = refusal(7, FIRST + PAIR);
    let layout = |archive| lay_out(source, &image, archive).map(|_| ());
    assert_eq!(layout(false), Err(due));
    assert_eq!(layout(true), Ok(()));
    let whole = program::format(file, Widths::Supplied);
    assert_eq!(whole.err(), Some(due));
    let frame = frame::join(source, &image);
    let said = program::output(&frame, Widths::Supplied);
    assert_eq!(said, "refused 7 at 15\n");
    assert!(program::answer_archived(&frame).is_ok());
    let counted = figures::count(file, &Tallies::default());
    assert_eq!(counted.err(), Some(due));
    let buffer = frame::framed(file);
    let batched = batch(&buffer, Choice::REFERENCE, 3, AMPLE);
    assert_eq!(batched.unwrap().table, [7, 15, 0]);
    assert_eq!(steps::read(source, &image, AMPLE), Err(due));
    let two = moved(Way::Forward, source, &image, AMPLE).unwrap();
    assert_eq!(moved(Way::Back, source, &two, AMPLE), Ok(image));
    // Rendering reads no comments.
    assert!(lay_out(source, &two, true).is_err(), "by its rule alone");
    let mut world = world();
    let given = Given {
        source,
        image: &two,
    };
    let args = RenderArgs {
        stop: 0,
        room: 0,
        width: REFERENCE,
        rule: UNICODE_16_0,
        allotment: ALL_ROWS,
    };
    assert!(calls::render_call(given, &mut world, args).is_ok());
}

fn world() -> World {
    World {
        store: vec![0; 40 * Row::CELLS],
        ..World::default()
    }
}

fn lay_out(
    source: &[u8],
    image: &[u8],
    archive: bool,
) -> Result<Answer, Refusal> {
    let args = LayoutArgs {
        stop: 0,
        close: true,
        mode: NEW,
        rule: SUPPLIED,
        archive,
    };
    calls::layout_call(Given { source, image }, &mut world(), args)
}

/// Every way of a list to be in order or not is refused as it should be by the
/// list's own places, and by nothing else.
#[test]
fn generated_lists_have_their_faults() {
    let mut counts: BTreeMap<(OrderWay, Option<u8>), usize> = BTreeMap::new();
    let mut versions = [0; 3];
    for index in 0..4_000 {
        let case = generate::order_case(SEED, index);
        let file = frame::split_any_size(&case.frame).expect("a frame");
        let Frame { source, image } = file;
        versions[usize::from(image[0])] += 1;
        let strict = reader::read(source, image).err();
        *counts
            .entry((case.way, strict.map(|r| r.number)))
            .or_default() += 1;
        let Ok(read) = reader::read_by(source, image, Reading::Earlier)
        else {
            continue;
        };
        let mut pairs = read.comments.windows(2);
        let due = pairs.position(|pair| pair[1].start < pair[0].end);
        let due = due.and_then(|place| at_pair(place + 1));
        assert_eq!(strict, due, "{index}");
    }
    assert!(versions[1] > 2_000 && versions[2] > 500, "{versions:?}");
    let of = |way, number| counts.get(&(way, number)).copied().unwrap_or(0);
    for (way, name) in OrderWay::ALL {
        let [accepted, by_order] = [of(way, None), of(way, Some(7))];
        match way {
            OrderWay::Ordered | OrderWay::Touching => {
                assert!(accepted > 300 && by_order == 0, "{name} {counts:?}");
            }
            // Now and then a list comes out as it was.
            OrderWay::Shuffled | OrderWay::Moved => {
                assert!(by_order > 200, "{name} {counts:?}");
            }
            _ => {
                assert!(by_order > 350 && accepted == 0, "{name} {counts:?}");
            }
        }
    }
}

/// The steps of a file whose image is of version 1 are its list's.
#[test]
fn generated_lists_are_those_of_steps() {
    let [mut same, mut unordered] = [0, 0];
    for index in 0..1_000 {
        let case = generate::order_case(SEED, index);
        let Frame { source, image } =
            frame::split_any_size(&case.frame).expect("a frame");
        let read = steps::read(source, image, AMPLE);
        match (image[0], read) {
            (1, Ok(list)) => {
                assert_eq!(steps::write(&list, AMPLE).as_deref(), Ok(image));
                // Damage may read as something else.
                if steps::write(&case.steps, AMPLE).is_ok() {
                    assert_eq!(list, case.steps);
                }
                same += 1;
            }
            (1, Err(Refusal { number: 7, place })) => {
                // A pair's offset as that of its step.
                let pair = (place as usize - FIRST) / PAIR;
                let due = refusal(16, 9 * pair);
                assert_eq!(steps::write(&case.steps, AMPLE), Err(due));
                unordered += 1;
            }
            _ => {}
        }
    }
    assert!(same > 100 && unordered > 300, "{same} and {unordered}");
}

/// What the strict entry accepts the archive entry answers alike; and a list
/// at both entries answers as at the archive entry alone, but for what the
/// strict one refuses.
#[test]
fn both_entries_in_one_list() {
    let [mut alike, mut refused, mut mixed] = [0, 0, 0];
    for index in 0..1_500 {
        let case = generate::order_list(SEED, index);
        let given = Given {
            source: &case.source,
            image: &case.image,
        };
        let mut world = case.world.clone();
        for one in &case.calls {
            let Call::Layout(args) = *one else {
                let _ = calls::call(given, &mut world, *one);
                continue;
            };
            let [(by_strict, strict), (by_archive, archived)] =
                at_both(given, &world, args);
            if by_strict == by_archive {
                assert_eq!(strict, archived);
                alike += 1;
            } else {
                let number = by_strict.unwrap_err().number;
                assert_eq!(number, 7);
                assert_eq!(strict, world, "a refused call changes nothing");
                refused += 1;
            }
            world = if args.archive { archived } else { strict };
        }
        mixed += usize::from(has_both(&case.calls));
    }
    let counts = [alike, refused, mixed];
    assert!(counts.into_iter().all(|count| count > 300), "{counts:?}");
}

/// What a layout call answers and leaves at the strict entry, and at that for
/// archived images.
fn at_both(
    given: Given,
    world: &World,
    args: LayoutArgs,
) -> [(Result<Answer, Refusal>, World); 2] {
    [false, true].map(|archive| {
        let mut world = world.clone();
        let args = LayoutArgs { archive, ..args };
        (calls::layout_call(given, &mut world, args), world)
    })
}

/// Whether a list has layout calls at either entry.
fn has_both(calls: &[Call]) -> bool {
    let at = |entry| {
        calls.iter().any(|one| match one {
            Call::Layout(args) => args.archive == entry,
            Call::Render(_) => false,
        })
    };
    at(false) && at(true)
}

/// Demand 3 at both entries: what a list leaves is what one go has due.
#[test]
fn the_cut_rule_at_both_entries() {
    let mut tried = 0;
    for index in 0..600 {
        let case = generate::order_list(SEED, index);
        let given = Given {
            source: &case.source,
            image: &case.image,
        };
        let (store, marks) = (&case.world.store, &case.world.marks);
        let calls = &case.calls;
        if !calls::reads_laid_rows_alone(given, store, marks, calls) {
            continue;
        }
        let mut world = case.world.clone();
        let answers = calls::run(given, &mut world, calls);
        let due = calls::plain_run(given, store, marks, calls);
        assert_eq!((answers, world), due, "{index}");
        tried += 1;
    }
    assert!(tried > 300, "{tried}");
}

/// By the earlier rule a text is what it was: a later comment first is placed
/// first.
#[test]
fn an_archived_list_is_placed_in_its_order() {
    let source = "import a; // c\n// d\nimport b;\n";
    let (_, tree) = judge::script::read(source).unwrap();
    let image = image::write(&[15..20, 10..15], &tree);
    let frame = frame::join(source.as_bytes(), &image);
    let text = program::answer_archived(&frame).unwrap().text;
    assert_eq!(text, "import a;\n// d\n// c\n\nimport b;\n");
    for mode in [OLD, NEW] {
        let choice = Choice {
            mode,
            ..Choice::REFERENCE
        };
        let file = Frame {
            source: source.as_bytes(),
            image: &image,
        };
        let (widths, earlier) = (Widths::Supplied, Reading::Earlier);
        let run = program::format_by(file, widths, choice, earlier);
        assert_eq!(run.unwrap().comments_left, 0);
    }
}
