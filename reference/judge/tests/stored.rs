//! The stored answers hold every case that they can.

use std::collections::BTreeSet;

use judge::{
    answers::{calls, frames, replay, report, stored},
    calls::{Answer, Call, Given, LayoutArgs, RenderArgs, World},
    frame, generate, program, reader,
    refusal::Refusal,
    rule::{LEGAL, SUPPLIED},
    table,
};

/// A replay has room for so many bytes at once.
#[test]
fn each_set_has_room() {
    const ROOM: usize = 1 << 21;
    assert!(replay::calls_input().len() < ROOM);
    assert!(replay::frames_input().len() < ROOM);
}

#[test]
fn they_take_about_three_megabytes() {
    let frames: usize =
        stored::frames().map(|f| frames::answered(&f).len()).sum();
    let lists: usize = stored::lists()
        .map(|case| calls::answered(&case).len())
        .sum();
    assert!(frames + lists < 3_200_000, "{frames} and {lists}");
    assert!(stored::frames().count() > 2_500);
    assert!(stored::lists().count() > 300);
}

/// Each line of the table has a count, but for refusals that the program
/// never gives.
#[test]
fn the_table_has_no_gaps() {
    let table = table::stored();
    for line in table.lines().filter(|line| line.contains("| 0 |")) {
        assert!(line.contains("unreachable"), "{line}");
    }
}

#[test]
fn a_source_too_long_is_among_the_lists() {
    let long = reader::MOST_SOURCE + 1;
    assert!(stored::lists().any(|case| case.source.len() == long));
    let largest = stored::frames().map(|frame| frame.len()).max();
    assert_eq!(largest, Some(frame::MOST_BYTES + 1));
}

/// Many lists stop at each of several declarations, and make refused calls
/// between.
#[test]
fn lists_stop_at_every_declaration() {
    let stops = |case: &judge::generate::CallCase| {
        let stops = case.calls.iter().filter_map(|call| match call {
            Call::Layout(LayoutArgs {
                stop, close: false, ..
            }) => Some(*stop),
            _ => None,
        });
        stops.collect::<BTreeSet<_>>()
    };
    let through = stored::lists().filter(|case| {
        let read = reader::read(&case.source, &case.image);
        let declarations =
            read.map_or(0, |read| read.tree.children.len() - 1);
        let all = (0..=declarations).collect();
        declarations >= 3 && stops(case).is_superset(&all)
    });
    let count = through.count();
    assert!(count >= 30, "{count}");
}

/// Under 40, over 200, another than the carried one, and a carried one that
/// no call could have chosen; and widths that are accepted.
#[test]
fn every_cause_of_15_is_among_the_lists() {
    let mut causes = BTreeSet::new();
    for case in replay::lists() {
        let given = Given {
            source: &case.source,
            image: &case.image,
        };
        let mut world = case.world.clone();
        for one in &case.calls {
            let carried = world.rendering.width;
            let answer = judge::calls::call(given, &mut world, *one);
            let number = answer.err().map(|refusal| refusal.number);
            if let Call::Render(RenderArgs { width, .. }) = *one {
                causes.insert((number, cause(width, carried)));
            }
        }
    }
    let due = [
        (Some(15), "0"),
        (Some(15), "under 40"),
        (Some(15), "over 200"),
        (Some(15), "the largest"),
        (Some(15), "another"),
        (Some(15), "none that is legal"),
        (None, "the first"),
        (None, "the same"),
    ];
    for one in due {
        assert!(causes.contains(&one), "{one:?} {causes:?}");
    }
}

/// What 12 refuses by the mode, and calls in both modes that are accepted,
/// closing with comments that waited among them.
#[test]
fn every_cause_of_12_by_the_mode_is_among_the_lists() {
    let mut causes = BTreeSet::new();
    for case in replay::lists() {
        let given = Given {
            source: &case.source,
            image: &case.image,
        };
        let mut world = case.world.clone();
        for one in &case.calls {
            let before = world.laying;
            let answer = judge::calls::call(given, &mut world, *one);
            let number = answer.err().map(|refusal| refusal.number);
            if let Call::Layout(LayoutArgs { close, mode, .. }) = *one {
                let carried = (before.begun, before.mode);
                causes.insert((number, mode_cause(mode, carried)));
                let placed = world.laying.at.comments_placed;
                if close && placed > before.at.comments_placed {
                    causes.insert((number, "closed with more comments"));
                }
            }
        }
    }
    let due = [
        (Some(12), "over 1"),
        (Some(12), "the largest"),
        (Some(12), "another"),
        (Some(12), "carried before it has begun"),
        (Some(12), "none that is legal"),
        (None, "the first"),
        (None, "the old one again"),
        (None, "the new one again"),
        (None, "closed with more comments"),
    ];
    for one in due {
        assert!(causes.contains(&one), "{one:?} {causes:?}");
    }
}

/// What 20 and 12 refuse by the rule, of both kinds of calls; each rule chosen
/// first and again; and texts that cut a character.
#[test]
fn every_cause_by_the_rule_is_among_the_lists() {
    let mut causes = BTreeSet::new();
    let mut torn = BTreeSet::new();
    for case in replay::lists() {
        let given = Given {
            source: &case.source,
            image: &case.image,
        };
        let mut world = case.world.clone();
        for one in &case.calls {
            let before = world.clone();
            let answer = judge::calls::call(given, &mut world, *one);
            let number = answer.err().map_or(0, |refusal| refusal.number);
            match *one {
                Call::Layout(LayoutArgs { rule, .. }) => {
                    let laying = before.laying;
                    let cause = rule_cause(rule, laying.begun, laying.rule);
                    causes.insert(("layout", number, rule, cause));
                }
                Call::Render(RenderArgs { rule, .. }) => {
                    let carried = before.rendering.rule;
                    let cause = rule_cause(rule, true, carried);
                    causes.insert(("rendering", number, rule, cause));
                    if number == 11 && answer != supplied(given, before, one)
                    {
                        torn.insert(rule);
                    }
                }
            }
        }
    }
    assert_eq!(torn, BTreeSet::from([2, 3]));
    for kind in ["layout", "rendering"] {
        for rule in [0, 4, 1 << 32, usize::MAX] {
            for cause in ["none yet", "another"] {
                let due = (kind, 20, rule, cause);
                assert!(causes.contains(&due), "{due:?}");
            }
        }
        for rule in LEGAL {
            for (number, cause) in [
                (0, "none yet"),
                (0, "the same"),
                (12, "another"),
                (12, "none that is legal"),
            ] {
                let due = (kind, number, rule, cause);
                assert!(causes.contains(&due), "{due:?}");
            }
            let cut = kind == "layout" || rule != SUPPLIED;
            let due = (kind, 2, rule, "none yet");
            assert_eq!(causes.contains(&due), cut, "{due:?}");
        }
    }
    for rule in LEGAL {
        let due = ("layout", 12, rule, "carried before it has begun");
        assert!(causes.contains(&due), "{due:?}");
    }
}

/// What a rendering call answers where widths are supplied.
fn supplied(
    given: Given,
    mut world: World,
    call: &Call,
) -> Result<Answer, Refusal> {
    world.rendering.rule = 0;
    let mut call = *call;
    if let Call::Render(RenderArgs { rule, .. }) = &mut call {
        *rule = SUPPLIED;
    }
    judge::calls::call(given, &mut world, call)
}

fn rule_cause(rule: usize, begun: bool, carried: usize) -> &'static str {
    match carried {
        0 => "none yet",
        _ if !begun => "carried before it has begun",
        4.. => "none that is legal",
        _ if rule == carried => "the same",
        _ => "another",
    }
}

fn mode_cause(mode: usize, carried: (bool, usize)) -> &'static str {
    match (mode, carried) {
        (0xFFFF_FFFF, _) => "the largest",
        (2.., _) => "over 1",
        (_, (false, 0)) => "the first",
        (_, (false, _)) => "carried before it has begun",
        (_, (true, 2..)) => "none that is legal",
        (0, (true, 0)) => "the old one again",
        (1, (true, 1)) => "the new one again",
        _ => "another",
    }
}

fn cause(width: usize, carried: usize) -> &'static str {
    match (width, carried) {
        (0, _) => "0",
        (..40, _) => "under 40",
        (0xFFFF_FFFF, _) => "the largest",
        (201.., _) => "over 200",
        (_, 0) => "the first",
        (_, 40..=200) if width == carried => "the same",
        (_, 40..=200) => "another",
        _ => "none that is legal",
    }
}

#[test]
fn the_program_reaches_its_limits_among_the_frames() {
    let widths = program::Widths::Supplied;
    let runs = stored::frames();
    let runs: Vec<_> = runs
        .filter_map(|f| program::answer(&f, widths).ok())
        .collect();
    assert!(runs.iter().any(|run| run.rows.len() == program::ROWS));
    assert!(runs.iter().any(|run| run.text.len() == program::OUTPUT));
}

#[test]
fn the_worked_frames_come_first() {
    let texts: Vec<_> = stored::frames()
        .take(3)
        .map(|f| program::output(&f, program::Widths::Supplied))
        .collect();
    let due = ["#!/x\n\n", "refused 3 at 0\n", "refused 20 at 0\n"];
    assert_eq!(texts, due);
}

#[test]
fn lists_of_steps_take_less_than_sixty_kilobytes() {
    assert!(replay::steps_input().len() <= 60_000);
    let lists = stored::step_lists();
    assert_eq!(lists[0], b"");
    // Each is there once.
    let distinct: BTreeSet<&Vec<u8>> = lists.iter().collect();
    assert_eq!(distinct.len(), lists.len());
}

#[test]
fn moves_take_about_eighty_kilobytes() {
    let bytes = replay::moves_input().len();
    assert!((30_000..85_000).contains(&bytes), "{bytes}");
}

/// All pairs of operators on both sides, with each answer to them; of the
/// others each refusal but 1, whose source is long.
#[test]
fn verdicts_take_about_a_hundred_kilobytes() {
    let bytes = replay::verdicts_input().len();
    assert!((90_000..120_000).contains(&bytes), "{bytes}");
    let said = replay::verdicts_output();
    for number in 2..=7 {
        let line = format!("verdicts refused with {number}: ");
        assert!(said.contains(&line), "{said}");
    }
    let fixed = generate::operator_cases().iter();
    let pairs = fixed.filter(|case| {
        case.stored
            && case.name.contains("` as ")
            && case.name.contains("of `")
    });
    assert_eq!(pairs.count(), 2 * 14 * 14);
}

/// Images of all sizes, and what is refused.
#[test]
fn formulas_take_about_eighty_kilobytes() {
    let bytes = replay::formulas_input().len();
    assert!((70_000..90_000).contains(&bytes), "{bytes}");
    let refused = "formulas refused with 24: ";
    assert!(replay::formulas_output().contains(refused));
}

#[test]
fn batches_take_less_than_eighty_kilobytes() {
    let bytes = replay::batches_input().len();
    assert!((30_000..80_000).contains(&bytes), "{bytes}");
    assert!(stored::batches().count() >= 60);
}

/// `reference/replay-answers` was run after the last change.
#[test]
fn the_replay_has_these_answers() {
    let at = concat!(env!("CARGO_MANIFEST_DIR"), "/../../crates");
    let read = |name| std::fs::read(format!("{at}/{name}")).expect("there");
    assert!(read("replay_calls/data/calls") == replay::calls_input());
    assert!(read("replay_calls/data/steps") == replay::steps_input());
    assert!(read("replay_calls/data/moves") == replay::moves_input());
    let verdicts = replay::verdicts_input();
    assert!(read("replay_calls/data/verdicts") == verdicts);
    assert!(read("replay_files/data/frames") == replay::frames_input());
    assert!(read("replay_files/data/batches") == replay::batches_input());
    let formulas = replay::formulas_input();
    assert!(read("replay_formulas/data/formulas") == formulas);
    let formulas = replay::formulas_output().into_bytes();
    assert!(read("replay_formulas/stdout") == formulas);
    let calls = [
        replay::calls_output(),
        replay::steps_output(),
        replay::moves_output(),
        replay::verdicts_output(),
    ];
    assert!(read("replay_calls/stdout") == calls.concat().into_bytes());
    let files = [replay::frames_output(), replay::batches_output()];
    assert!(read("replay_files/stdout") == files.concat().into_bytes());
}

/// The same of the program `report`.
#[test]
fn the_report_has_its_sample() {
    let at = concat!(env!("CARGO_MANIFEST_DIR"), "/../../crates/report");
    let read = |name| std::fs::read(format!("{at}/{name}")).expect("there");
    assert!(read("stdin") == report::input());
    assert!(read("stdout") == report::output().into_bytes());
}
