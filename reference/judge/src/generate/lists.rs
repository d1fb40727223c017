//! Lists of calls to try, and single calls from states of any kind.

use super::{
    Draft, damaged, edges, entries, feet, modes, random_rows, realistic,
    widths, wild,
};
use crate::{
    allotment::ALL_ROWS,
    calls::{Call, LayoutArgs, LayoutState, RenderArgs, RenderState, World},
    choice::Choice,
    driver::{Pen, Run, Stop},
    frame::{self, Frame},
    listed::Listed,
    mode::OLD,
    program::{self, Widths},
    random::Random,
    reader::{MOST_SOURCE, Reading},
    rows::Row,
    rule::SUPPLIED,
    width::REFERENCE,
};

/// Calls, what they are given and what stands before them.
#[derive(Clone, Debug)]
pub struct CallCase {
    pub source: Vec<u8>,
    pub image: Vec<u8>,
    pub world: World,
    pub calls: Vec<Call>,
}

/// A case by seed and index.
pub fn case(seed: u64, index: u64) -> CallCase {
    let random = &mut Random::new(100, seed, index);
    let case = match random.below(9) {
        0 => unreadable(random),
        1 => one_layout(random),
        2 | 3 => one_rendering(random),
        4 => every_declaration(random),
        _ => list(random),
    };
    entries::chosen(case, seed, index)
}

/// A list that stops at every declaration, by seed and index.
pub fn cut_case(seed: u64, index: u64) -> CallCase {
    let case = every_declaration(&mut Random::new(102, seed, index));
    entries::chosen(case, seed, index)
}

/// Such a list, or any, on a file with comments after its last declaration,
/// by seed and index.
pub fn foot_case(seed: u64, index: u64) -> CallCase {
    let random = &mut Random::new(106, seed, index);
    let (choice, draft) = (choice(random), feet::draft(random));
    let case = if random.once_in(2) {
        at_every_declaration(random, draft, choice)
    } else {
        listed(random, draft, choice)
    };
    entries::chosen(case, seed, index)
}

/// A source or an image that the reader turns down, by seed and index.
pub fn unreadable_case(seed: u64, index: u64) -> CallCase {
    let case = unreadable(&mut Random::new(103, seed, index));
    entries::chosen(case, seed, index)
}

fn draft(random: &mut Random, width: usize) -> Draft {
    match random.below(5) {
        0 => wild::draft(random),
        1 => edges::draft_at(random, width),
        2 => feet::draft(random),
        _ => realistic::draft(random),
    }
}

/// The run of a draft, whose comments may be in any order.
pub(super) fn formatted(
    draft: &Draft,
    image: &[u8],
    choice: Choice,
) -> Option<Run> {
    let source = draft.source.as_bytes();
    let frame = Frame { source, image };
    let (widths, reading) = (Widths::Supplied, Reading::Earlier);
    program::format_by(frame, widths, choice, reading).ok()
}

/// The width of a list: that of `fmt_parsed`, or any.
pub(super) fn width(random: &mut Random) -> usize {
    if random.once_in(2) {
        REFERENCE
    } else {
        widths::legal(random)
    }
}

/// Width and mode of a list; its widths are supplied.
pub(super) fn choice(random: &mut Random) -> Choice {
    Choice {
        width: width(random),
        mode: modes::legal(random),
        rule: SUPPLIED,
    }
}

/// Store and marks about as large as needed, with anything in them.
fn world(random: &mut Random, rows: usize, numbers: usize) -> World {
    let near = |random: &mut Random, size: usize| match random.below(6) {
        0 => size.saturating_sub(1),
        1 => size,
        _ => size + random.below(4),
    };
    let cells = near(random, rows) * Row::CELLS + random.below(Row::CELLS);
    let marks = near(random, numbers);
    let junk = random.below(3);
    World {
        store: (0..cells).map(|_| cell(random, junk)).collect(),
        marks: (0..marks).map(|_| random.byte()).collect(),
        ..World::default()
    }
}

fn cell(random: &mut Random, junk: usize) -> u32 {
    match junk {
        0 => 0,
        1 => random.below(12) as u32,
        _ => u32::from_be_bytes([(); 4].map(|()| random.byte())),
    }
}

/// Calls from fresh states; most stop where a caller would.
fn list(random: &mut Random) -> CallCase {
    let choice = choice(random);
    let draft = draft(random, choice.width);
    listed(random, draft, choice)
}

/// Such calls on a file.
pub(super) fn listed(
    random: &mut Random,
    draft: Draft,
    choice: Choice,
) -> CallCase {
    let image = draft.image();
    let Some(run) = formatted(&draft, &image, choice) else {
        return unreadable(random);
    };
    let world = world(random, run.rows.len(), run.marks.len());
    let mut calls = Vec::new();
    let mut laid = 0;
    for _ in 0..random.between(1, 9) {
        calls.push(if random.once_in(2) {
            layout(random, &run, &mut laid, choice)
        } else {
            rendering(random, &run, laid, choice)
        });
    }
    CallCase {
        source: draft.source.into_bytes(),
        image,
        world,
        calls,
    }
}

/// Layout with a stop before each declaration, rendering behind it with a
/// stop at the same rows, and calls between that are refused.
fn every_declaration(random: &mut Random) -> CallCase {
    let choice = choice(random);
    let draft = match random.below(3) {
        0 => draft(random, choice.width),
        _ => realistic::short_draft(random),
    };
    at_every_declaration(random, draft, choice)
}

/// The same on a file.
pub(super) fn at_every_declaration(
    random: &mut Random,
    draft: Draft,
    choice: Choice,
) -> CallCase {
    let image = draft.image();
    let Some(run) = formatted(&draft, &image, choice) else {
        return unreadable(random);
    };
    let world = World {
        store: junk_for(random, run.rows.len() + 1),
        marks: vec![random.byte(); run.marks.len() + 1],
        ..World::default()
    };
    CallCase {
        calls: through(random, &run, choice),
        source: draft.source.into_bytes(),
        image,
        world,
    }
}

/// Calls that stop at each declaration in turn.
fn through(random: &mut Random, run: &Run, choice: Choice) -> Vec<Call> {
    let Choice { width, mode, rule } = choice;
    let layout = |stop, close| {
        Call::Layout(LayoutArgs {
            stop,
            close,
            mode,
            rule,
            archive: false,
        })
    };
    let render = |stop, room| {
        Call::Render(RenderArgs {
            stop,
            room,
            width,
            rule,
            allotment: ALL_ROWS,
        })
    };
    let last = run.stops.len() - 1;
    let mut calls = Vec::new();
    for (place, stop) in run.stops.iter().enumerate() {
        calls.push(layout(place, false));
        calls.extend(refused_at(random, run, place, choice));
        // Rendering may lag behind, and is level again at the last.
        if place == last || !random.once_in(3) {
            calls.push(render(stop.next_row, 1 << 16));
        }
    }
    calls.push(layout(last, true));
    calls.extend(refused_at(random, run, last, choice));
    calls.push(render(run.rows.len(), run.text.len()));
    calls
}

fn junk_for(random: &mut Random, rows: usize) -> Vec<u32> {
    let junk = random.below(3);
    (0..rows * Row::CELLS).map(|_| cell(random, junk)).collect()
}

/// A call that is refused, most times, where layout stands at a place.
fn refused_at(
    random: &mut Random,
    run: &Run,
    place: usize,
    choice: Choice,
) -> Option<Call> {
    let Choice { width, mode, rule } = choice;
    let last = run.stops.len() - 1;
    let here = run.stops[place].next_row;
    let layout = |stop, close, mode| {
        Call::Layout(LayoutArgs {
            stop,
            close,
            mode,
            rule,
            archive: false,
        })
    };
    let render = |stop, room, width| {
        Call::Render(RenderArgs {
            stop,
            room,
            width,
            rule,
            allotment: ALL_ROWS,
        })
    };
    let refused = match random.below(14) {
        0 => layout(last + 1, false, mode),
        1 => layout(place.saturating_sub(1), false, mode),
        2 => layout(place, place < last, mode),
        3 => render(run.rows.len() + 2, 1 << 16, width),
        4 => render(here, 0, width),
        5 => render(here, 1 << 16, *random.pick(&widths::ILLEGAL)),
        // No other width once one is chosen; at the first stop none is.
        6 if place > 0 => render(here, 0, widths::legal(random)),
        7 | 8 => {
            let stop = random.between(place, last);
            let close = place == last && random.once_in(2);
            layout(stop, close, modes::other(mode))
        }
        9 => layout(place, false, *random.pick(&modes::ILLEGAL)),
        _ => return None,
    };
    Some(refused)
}

fn layout(
    random: &mut Random,
    run: &Run,
    laid: &mut usize,
    choice: Choice,
) -> Call {
    let declarations = run.stops.len() - 1;
    let stop = match random.below(8) {
        0 => random.between(0, declarations + 1),
        1 => declarations,
        _ => random.between((*laid).min(declarations), declarations),
    };
    let close = if stop == declarations {
        random.once_in(2)
    } else {
        random.once_in(10)
    };
    *laid = stop;
    Call::Layout(LayoutArgs {
        stop,
        close,
        mode: modes::chosen(random, choice.mode),
        rule: choice.rule,
        archive: false,
    })
}

fn rendering(
    random: &mut Random,
    run: &Run,
    laid: usize,
    choice: Choice,
) -> Call {
    let last = run.rows.len();
    let declaration = random.between(0, laid.min(run.stops.len() - 1));
    let stop = match random.below(8) {
        0 => random.between(0, last + 4),
        1 => last,
        _ => run.stops[declaration].next_row,
    };
    let room = match random.below(6) {
        0 => random.below(40),
        1 => run.text.len(),
        _ => 1 << 16,
    };
    Call::Render(RenderArgs {
        stop,
        room,
        width: widths::chosen(random, choice.width),
        rule: choice.rule,
        allotment: ALL_ROWS,
    })
}

/// A source or an image that the reader turns down.
pub(super) fn unreadable(random: &mut Random) -> CallCase {
    let bytes = damaged::frame(random);
    let empty = Frame {
        source: b"",
        image: b"",
    };
    let frame = frame::split_any_size(&bytes).unwrap_or(empty);
    let mut source = frame.source.to_vec();
    if random.once_in(30) {
        source = vec![b' '; MOST_SOURCE + 1];
    }
    CallCase {
        source,
        image: frame.image.to_vec(),
        world: world(random, 9, 3),
        calls: vec![
            Call::Layout(LayoutArgs {
                stop: 0,
                close: random.once_in(2),
                mode: modes::chosen(random, OLD),
                rule: SUPPLIED,
                archive: false,
            }),
            Call::Render(RenderArgs {
                stop: 0,
                room: 10,
                width: widths::chosen(random, REFERENCE),
                rule: SUPPLIED,
                allotment: ALL_ROWS,
            }),
        ],
    }
}

/// One layout call from a state that no call need have answered.
pub(super) fn one_layout(random: &mut Random) -> CallCase {
    let draft = draft(random, REFERENCE);
    let image = draft.image();
    let mode = modes::legal(random);
    let choice = Choice {
        mode,
        ..Choice::REFERENCE
    };
    let Some(run) = formatted(&draft, &image, choice) else {
        return unreadable(random);
    };
    let mut world = world(random, run.rows.len() + 3, 1);
    world.laying = LayoutState {
        mode: modes::carried(random, mode),
        ..layout_state(random, &run, &draft, &world)
    };
    if !world.laying.begun && random.once_in(2) {
        world.laying.mode = 0;
    }
    let declarations = run.stops.len() - 1;
    let past = usize::from(random.once_in(9));
    let stop = random.between(0, declarations + past);
    let close = stop == declarations && random.once_in(2);
    CallCase {
        source: draft.source.into_bytes(),
        image,
        world,
        calls: vec![Call::Layout(LayoutArgs {
            stop,
            close,
            mode: modes::chosen(random, mode),
            rule: SUPPLIED,
            archive: false,
        })],
    }
}

fn layout_state(
    random: &mut Random,
    run: &Run,
    draft: &Draft,
    world: &World,
) -> LayoutState {
    let rows = world.room_for_rows();
    let past = usize::from(random.once_in(12));
    let begun = !random.once_in(8);
    let state = LayoutState {
        begun,
        closed: random.once_in(12),
        next_declaration: random.between(0, run.stops.len() - 1 + past),
        at: Stop {
            next_row: *random.pick(&[0, 0, 1, rows / 2, rows, rows + past]),
            next_number: *random.pick(&[0, 7, 1_048_576, 1_048_576 + past]),
            comments_placed: random.between(0, draft.comments.len() + past),
            position: random.between(0, draft.source.len() + past),
        },
        mode: 0,
        rule: if begun { SUPPLIED } else { 0 },
    };
    if random.once_in(12) {
        LayoutState::default()
    } else {
        state
    }
}

/// One rendering call on rows of any shape from a state of any kind.
fn one_rendering(random: &mut Random) -> CallCase {
    let source: Vec<u8> = (0..40).map(|_| random.byte()).collect();
    let image = b"\x01\0\0\0\x07\0\0abcde".to_vec();
    let sizes = [source.len(), image.len()];
    let from = random.below(3);
    let mut rows = vec![Row::default(); from];
    match random.below(9) {
        0..=3 => rows.extend(random_rows::call(random, sizes, from)),
        kind => {
            rows.extend(random_rows::rows(random, sizes, from));
            if kind < 6 {
                random_rows::damage(random, &mut rows);
            }
        }
    }
    on_rows(random, source, image, &rows, from)
}

/// A rendering call on these rows, from one of them, from a state of any kind.
pub(super) fn on_rows(
    random: &mut Random,
    source: Vec<u8>,
    image: Vec<u8>,
    rows: &[Row],
    from: usize,
) -> CallCase {
    let mut world = world(random, rows.len(), 12);
    let fitting = world.room_for_rows().min(rows.len());
    world.put_rows(0, &rows[..fitting]);
    let width = width(random);
    world.rendering = render_state(random, &mut world, from, width);
    let room = *random.pick(&[0, 50, 1 << 20, 1 << 20, 1 << 20]);
    let stop = match random.below(10) {
        0 => random.between(0, rows.len() + 2),
        _ => fitting,
    };
    CallCase {
        source,
        image,
        world,
        calls: vec![Call::Render(RenderArgs {
            stop,
            room,
            width: widths::chosen(random, width),
            rule: SUPPLIED,
            allotment: ALL_ROWS,
        })],
    }
}

fn render_state(
    random: &mut Random,
    world: &mut World,
    next_row: usize,
    width: usize,
) -> RenderState {
    let past = usize::from(random.once_in(15));
    let in_use = random.between(0, world.marks.len() + past);
    if !random.once_in(15) {
        for mark in world.marks.iter_mut().take(in_use) {
            *mark &= 1;
        }
    }
    let column = (1 << 56) + past;
    RenderState {
        pen: Pen {
            indent: *random.pick(&[0, 0, 1, 3, 20, 384, 384 + past]),
            next_indent: *random.pick(&[0, 0, 0, 1, 2, 384, 384 + past]),
            column: *random.pick(&[0, 0, 1, 40, width - 1, width, column]),
        },
        marks_in_use: in_use,
        next_row: next_row + past,
        width: match random.below(3) {
            0 => 0,
            _ => widths::chosen(random, width),
        },
        rule: 0,
        listed: Listed::default(),
    }
}
