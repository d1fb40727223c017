//! The generators keep what they promise.

use std::collections::BTreeMap;

use judge::{
    calls::{self, Answer, Given},
    choice::Choice,
    frame::{self, Frame},
    generate::{self, CallCase, Class},
    program::{self, Widths},
    reader::{self, Payload, Reading},
    refusal::Refusal,
    rows::{self, Row},
    table,
};

const SEED: u64 = 7;
const COUNT: u64 = 300;

#[test]
fn frames_depend_on_class_seed_and_index_alone() {
    for (class, name) in Class::ALL {
        let first: Vec<_> = generate::frames(class, SEED, 5).collect();
        let again: Vec<_> = generate::frames(class, SEED, 5).collect();
        assert_eq!(first, again, "{name}");
    }
    let other: Vec<_> = generate::frames(Class::Wild, 8, 5).collect();
    let wild: Vec<_> = generate::frames(Class::Wild, SEED, 5).collect();
    assert_ne!(wild, other);
}

#[test]
fn realistic_widths_are_the_true_ones() {
    for bytes in generate::frames(Class::Realistic, SEED, COUNT) {
        let supplied = program::output(&bytes, Widths::Supplied);
        assert_eq!(supplied, program::output(&bytes, Widths::True));
        let frame = frame::split_any_size(&bytes).unwrap();
        let Ok(accepted) = reader::read(frame.source, frame.image) else {
            continue;
        };
        accepted.tree.walk(&mut |record| {
            if let Payload::Text { width, text } = record.payload {
                // Names hold no white space; the shebang is trimmed.
                let due = unicode_width::true_width(text.trim_end());
                assert_eq!(width.map(usize::from), Some(due));
            }
        });
    }
}

#[test]
fn realistic_frames_are_accepted_but_for_size() {
    for bytes in generate::frames(Class::Realistic, SEED, COUNT) {
        if let Err(refusal) = program::answer(&bytes, Widths::Supplied) {
            assert!(matches!(refusal.number, 5 | 8 | 13), "{refusal}");
        }
    }
}

#[test]
fn wild_and_edge_trees_are_legal() {
    for class in [Class::Wild, Class::Edges] {
        for bytes in generate::frames(class, SEED, COUNT) {
            let frame = frame::split_any_size(&bytes).unwrap();
            let (source, image) = (frame.source, frame.image);
            reader::read_by(source, image, Reading::Earlier).unwrap();
        }
    }
}

#[test]
fn edges_end_where_wanted() {
    let mut ends = [0; 83];
    for bytes in generate::frames(Class::Edges, SEED, COUNT) {
        let text = program::output(&bytes, Widths::Supplied);
        for line in text.lines() {
            ends[line.chars().count().min(82)] += 1;
        }
    }
    assert!(ends[78] > 20 && ends[79] > 20 && ends[80] > 20, "{ends:?}");
}

/// What refusal 11 can find of the first `Call` of a case's rows: where its
/// second part starts, and whose the fault is.
fn call_fault(
    case: &CallCase,
    answer: Result<Answer, Refusal>,
) -> Option<(&'static str, &'static str)> {
    let from = case.world.rendering.next_row;
    let rows = case.world.rows(case.world.room_for_rows());
    let is_call = |row: &Row| row.kind == rows::CALL;
    let place = from + rows.get(from..)?.iter().position(is_call)?;
    let call = rows[place];
    let second = if call.second_part == call.after {
        "the end"
    } else {
        "elsewhere"
    };
    let fault = match answer {
        Ok(_) => "none",
        Err(Refusal {
            number: 11,
            place: at,
        }) => {
            let at = at as usize;
            let row = rows.get(at)?;
            if at == place {
                "the call"
            } else if at < place || at >= call.after as usize {
                return None;
            } else if row.after as usize <= at {
                "a part that ends where it begins"
            } else if row.after > call.after {
                "a part that outgrows it"
            } else {
                "another part"
            }
        }
        Err(_) => return None,
    };
    Some((second, fault))
}

/// A comparison tries 20,000 lists.
#[test]
fn calls_have_wrong_parts_of_every_kind() {
    let mut counts = BTreeMap::new();
    for index in 0..20_000 {
        let case = generate::call_case(SEED, index);
        let given = Given {
            source: &case.source,
            image: &case.image,
        };
        let mut world = case.world.clone();
        if let [render @ calls::Call::Render(_)] = case.calls[..] {
            let answer = calls::call(given, &mut world, render);
            if let Some(found) = call_fault(&case, answer) {
                *counts.entry(found).or_insert(0) += 1;
            }
        }
    }
    let due = [
        (("the end", "none"), 200),
        (("the end", "a part that ends where it begins"), 200),
        (("the end", "a part that outgrows it"), 200),
        (("the end", "another part"), 200),
        (("elsewhere", "none"), 200),
        (("elsewhere", "the call"), 200),
        (("elsewhere", "a part that ends where it begins"), 50),
        (("elsewhere", "a part that outgrows it"), 50),
    ];
    for (kind, least) in due {
        let count = counts.get(&kind).copied().unwrap_or(0);
        assert!(count >= least, "{kind:?} {counts:?}");
    }
}

#[test]
fn sizes_are_refused_past_their_value_alone() {
    for case in generate::size_cases() {
        let frame = Frame {
            source: &case.source,
            image: &case.image,
        };
        let answer = program::within_limits(frame, Widths::Supplied);
        let number = answer.err().map_or(0, |refusal| refusal.number);
        assert_eq!(number, case.refusal, "{}", case.name);
    }
}

/// A comparison tries 50,000: every width, and lines that end about there.
#[test]
fn wide_frames_have_every_width_and_its_edges() {
    let mut widths = BTreeMap::new();
    let mut ends = [0; 5];
    for index in 0..20_000 {
        let (bytes, width) = generate::wide_frame(SEED, index);
        *widths.entry(width).or_insert(0) += 1;
        let Ok(frame) = judge::frame::split_any_size(&bytes) else {
            continue;
        };
        let choice = Choice {
            width,
            ..Choice::REFERENCE
        };
        let run = program::format_as(frame, Widths::Supplied, choice);
        let Ok(run) = run else {
            continue;
        };
        for line in run.text.lines() {
            let past = (line.chars().count() + 2).wrapping_sub(width);
            if past < ends.len() {
                ends[past] += 1;
            }
        }
    }
    for width in 40..=200 {
        assert!(widths.contains_key(&width), "{width}");
    }
    for width in [0, 1, 7, 39, 201, 1_000, u32::MAX as usize] {
        assert!(widths.contains_key(&width), "{width}");
    }
    assert!(ends.iter().all(|count| *count > 100), "{ends:?}");
}

#[test]
fn the_table_has_no_unexplained_zero() {
    let table = table::table(SEED, 1_500);
    let zeros = table.lines().filter(|line| line.ends_with("| 0 |"));
    for line in zeros {
        assert!(line.contains("unreachable"), "{line}");
    }
}
