//! Single calls from states that are those of a stop inside a document, but
//! for one fact.

use super::{CallCase, Document, lists, of_any};
use crate::{
    allotment::ALL_ROWS,
    calls::{Call, RenderState, World},
    driver::{Pen, RenderedRows},
    listed::{Listed, OpenRow, Way, around, closed},
    random::Random,
    rows::Row,
};

const RANDOM: u64 = 122;

/// What isn't as a call answered it.
#[derive(Clone, Copy, Debug, PartialEq, Eq, PartialOrd, Ord)]
pub enum Twist {
    /// Nothing, or the allotment.
    None,
    Wraps,
    Way,
    LeftOut,
    Doubled,
    Moved,
    Exchanged,
    /// A row more at the end.
    Added,
    NextRow,
    /// The rows around are listed from a later one on.
    Later,
    /// The same from one before the first listed, which encloses the next too.
    Earlier,
    /// The margin is one step short of what closing takes.
    Short,
    /// It is just enough.
    Enough,
    /// It stands in `next_indent` alone.
    InNext,
    /// A number that stands for a row that no store has.
    FarRow,
    TooMany,
    /// 12's bounds.
    Bounds,
    /// A row between the first listed one and the next isn't whole.
    Row,
    /// There are no marks.
    Marks,
}

impl Twist {
    pub const ALL: [Twist; 19] = [
        Twist::None,
        Twist::Wraps,
        Twist::Way,
        Twist::LeftOut,
        Twist::Doubled,
        Twist::Moved,
        Twist::Exchanged,
        Twist::Added,
        Twist::NextRow,
        Twist::Later,
        Twist::Earlier,
        Twist::Short,
        Twist::Enough,
        Twist::InNext,
        Twist::FarRow,
        Twist::TooMany,
        Twist::Bounds,
        Twist::Row,
        Twist::Marks,
    ];
}

/// A case by seed and index: each twist in turn, on a stop with open rows if
/// the document has one.
pub fn case(seed: u64, index: u64) -> (Twist, CallCase) {
    let random = &mut Random::new(RANDOM, seed, index);
    let twist = Twist::ALL[index as usize % Twist::ALL.len()];
    let document = of_any(random);
    let stops = document.stops();
    let place = place(random, twist, &document, &stops);
    let stop = &stops[place];
    let mut world = handed_on(&document, stop);
    twisted(random, twist, &document, &mut world);
    let left = stops.len() - 1 - place;
    let end = match random.once_in(4) {
        true => *random.pick(&document.ends),
        false => document.rows.len(),
    };
    let Call::Render(mut args) = lists::whole(&document, end) else {
        unreachable!("a rendering call");
    };
    let near = [0, 1, 1, left.max(1), left + 1, ALL_ROWS, ALL_ROWS];
    args.allotment = match random.once_in(3) {
        true => lists::allotment(random, left),
        false => *random.pick(&near),
    };
    let case = CallCase {
        source: document.source,
        image: document.image,
        world,
        calls: vec![Call::Render(args)],
    };
    (twist, case)
}

/// A document's store, marks and state at a stop.
fn handed_on(document: &Document, stop: &RenderedRows) -> World {
    let mut world = document.world();
    world.marks[..stop.marks.len()].copy_from_slice(&stop.marks);
    world.rendering = RenderState {
        pen: stop.pen,
        marks_in_use: stop.marks.len(),
        next_row: stop.next_row,
        width: document.page.width,
        rule: document.page.rule,
        listed: stop.listed,
    };
    world
}

/// A stop inside a row, if there is one; where the margin is twisted, one whose
/// closing takes a step.
fn place(
    random: &mut Random,
    twist: Twist,
    document: &Document,
    stops: &[RenderedRows],
) -> usize {
    let takes_steps = |stop: &RenderedRows| {
        let open = stop.listed.rows();
        closed(&document.rows, &open, Pen::default()).is_none()
    };
    let is_of_margin =
        matches!(twist, Twist::Short | Twist::Enough | Twist::InNext);
    let inside: Vec<usize> = (0..stops.len())
        .filter(|place| stops[*place].listed.count > 0)
        .collect();
    let stepped = inside.iter().copied();
    let stepped = stepped.filter(|place| takes_steps(&stops[*place]));
    let stepped: Vec<usize> = stepped.collect();
    match (inside.is_empty(), stepped.is_empty()) {
        (true, _) => random.below(stops.len()),
        (false, false) if is_of_margin => *random.pick(&stepped),
        (false, _) => *random.pick(&inside),
    }
}

/// Does to a state what is wanted of it.
fn twisted(
    random: &mut Random,
    twist: Twist,
    document: &Document,
    world: &mut World,
) {
    const MOST: usize = 384;
    let state = &mut world.rendering;
    let next = state.next_row;
    match twist {
        Twist::None => {}
        Twist::NextRow => {
            state.next_row = *random.pick(&[next + 1, next.max(1) - 1]);
        }
        Twist::Short | Twist::Enough | Twist::InNext => {
            state.pen = margin(random, twist, document, state);
        }
        Twist::Bounds => {
            let steps = [MOST, MOST + 1, 64, 65];
            state.pen.indent = *random.pick(&steps);
            state.pen.next_indent = *random.pick(&steps);
        }
        Twist::Row => {
            let row = random.between(state.reads_from(), next);
            let cell = row * Row::CELLS + random.below(Row::CELLS);
            world.store[cell] ^= 1 << random.below(3);
        }
        Twist::Marks => {
            world.marks.clear();
            state.marks_in_use = 0;
        }
        Twist::TooMany => {
            let count = state.listed.count;
            let counts = [257, 1 << 32, usize::MAX, 256 + count];
            let count = *random.pick(&counts);
            let numbers = state.listed.numbers().to_vec();
            state.listed = Listed::of_numbers(count, &numbers);
        }
        Twist::FarRow => state.listed = with_far_row(random, &state.listed),
        _ => {
            let open = other_rows(random, twist, document, state);
            state.listed = Listed::new(&open);
        }
    }
}

/// With a last row that no store has.
fn with_far_row(random: &mut Random, listed: &Listed) -> Listed {
    const FAR: u64 = 1 << 32;
    let mut numbers = listed.numbers().to_vec();
    let own = numbers.pop().unwrap_or(0);
    numbers.push(*random.pick(&[FAR, u64::MAX, FAR - 1, FAR + own]));
    Listed::of_numbers(numbers.len(), &numbers)
}

/// Listed rows with something done to them.
fn other_rows(
    random: &mut Random,
    twist: Twist,
    document: &Document,
    state: &RenderState,
) -> Vec<OpenRow> {
    let rows = &document.rows;
    let next = state.next_row;
    let mut open = state.listed.rows();
    match twist {
        Twist::Later => {
            open.drain(..random.between(0, open.len()));
        }
        Twist::Earlier => {
            let row = random.below(state.reads_from() + 1);
            let all = around(rows, row, next);
            open = all.into_iter().map(|row| any(random, row)).collect();
        }
        Twist::Added => {
            let row = random.below(rows.len().max(1));
            open.push(any(random, row));
        }
        _ if open.is_empty() => open.push(any(random, next)),
        _ => one_twisted(random, twist, &mut open),
    }
    open
}

/// A row with any facts.
fn any(random: &mut Random, row: usize) -> OpenRow {
    OpenRow {
        row,
        wraps: random.once_in(2),
        way: *random.pick(&Way::ALL),
    }
}

/// One of some listed rows, with something done to it.
fn one_twisted(random: &mut Random, twist: Twist, open: &mut Vec<OpenRow>) {
    // The last one as often as all others.
    let last = open.len() - 1;
    let place = match random.once_in(2) {
        true => last,
        false => random.between(0, last),
    };
    let own = open[place];
    match twist {
        Twist::Wraps => open[place].wraps ^= true,
        Twist::Way => open[place].way = *random.pick(&Way::ALL),
        Twist::LeftOut => {
            open.remove(place);
        }
        Twist::Doubled => open.insert(place, own),
        Twist::Moved => {
            let row = own.row;
            open[place].row = *random.pick(&[row + 1, row.max(1) - 1]);
        }
        Twist::Exchanged => open.swap(place, last.min(1) * (last - place)),
        _ => unreachable!("{twist:?} is of the whole list"),
    }
}

/// Steps about as many as closing takes back. All of the steps in `indent` is
/// enough for any order of closing.
fn margin(
    random: &mut Random,
    twist: Twist,
    document: &Document,
    state: &RenderState,
) -> Pen {
    let open = state.listed.rows();
    let enough = |indent: usize, next_indent: usize| {
        let pen = Pen {
            indent,
            next_indent,
            column: state.pen.column,
        };
        closed(&document.rows, &open, pen).map(|_| pen)
    };
    let most = open.len();
    let all = (0..=most).find(|steps| enough(*steps, 0).is_some());
    let all = all.expect("a row takes one step at most");
    // So many may stand in `next_indent`.
    let next: Vec<usize> = (0..=all)
        .filter(|next| enough(all - next, *next).is_some())
        .collect();
    let next = *random.pick(&next);
    let [indent, next_indent] = match twist {
        Twist::Short if all > next => [all - next - 1, next],
        Twist::Short => [all - next, next.max(1) - 1],
        Twist::Enough => [all - next, next],
        _ => [0, all],
    };
    Pen {
        indent,
        next_indent,
        column: state.pen.column,
    }
}
