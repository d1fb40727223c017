//! Renderings by allotment (request 12): every stop of a document, and the ways
//! to it by turns; states handed in that are nearly those of a stop.

use judge::{
    allotment::ALL_ROWS,
    calls::{self, Answer, Call, Given, RenderArgs, RenderState, World},
    driver::RenderedRows,
    generate::{self, CallCase, Document},
    listed::{self, Cause},
    random::Random,
};

use super::{
    Tally,
    buffers::{first_difference, junk_bytes},
    lists,
};

/// No generator has this number.
const RANDOM: u64 = 123;

/// Ways through a document, in pieces of any size.
const PARTITIONS: usize = 3;

/// Every single stop of a document from fresh, then some ways through it, and
/// some with other stops between.
pub fn compare(tally: &mut Tally, seed: u64, index: u64) {
    let document = generate::document(seed, index);
    let stops = document.stops();
    let random = &mut Random::new(RANDOM, seed, index);
    for allotment in 1..=stops.len() {
        let mut ways = Ways::new(&document, &stops);
        if !ways.go(tally, "every stop", allotment) {
            return;
        }
    }
    let mut ways = Ways::new(&document, &stops);
    ways.go(tally, "all at once", ALL_ROWS);
    for _ in 0..PARTITIONS {
        let mut ways = Ways::new(&document, &stops);
        let most = *random.pick(&[1, 2, 5, 30, 200]);
        while ways.at + 1 < stops.len() {
            let allotment = random.between(1, most);
            if !ways.go(tally, "pieces", allotment) {
                return;
            }
        }
        ways.go(tally, "behind the end", random.between(1, most));
    }
    changing_stops(tally, random, &document);
}

/// The same document by stops that change from call to call.
fn changing_stops(
    tally: &mut Tally,
    random: &mut Random,
    document: &Document,
) {
    const CALLS: usize = 40;
    let most = 1 + document.rows.len() / 10;
    let calls = (0..CALLS).map(|_| {
        let stop = *random.pick(&document.ends);
        Call::Render(args(document, stop, random.between(1, most)))
    });
    let case = CallCase {
        source: document.source.clone(),
        image: document.image.clone(),
        world: document.world(),
        calls: calls.collect(),
    };
    lists::compare(tally, "allotments, changing stops", &case);
}

/// A list of calls with allotments; and what the judge's calls leave beside the
/// plain run, where that speaks of the list.
pub fn compare_list(tally: &mut Tally, seed: u64, index: u64) {
    let case = generate::allotment_list(seed, index);
    lists::compare(tally, "allotments, lists", &case);
    let given = Given {
        source: &case.source,
        image: &case.image,
    };
    let World { store, marks, .. } = &case.world;
    let fresh = World {
        store: store.clone(),
        marks: marks.clone(),
        ..World::default()
    };
    let list = &case.calls;
    if case.world != fresh
        || !calls::reads_laid_rows_alone(given, store, marks, list)
    {
        return;
    }
    tally.count("allotments, the plain run", 0);
    let (due, left) = calls::plain_run(given, store, marks, list);
    let mut world = fresh;
    let answers = calls::run(given, &mut world, list);
    let _ = tally.expect("what the plain run answers", &due, &answers)
        && tally.expect("what it leaves", &left, &world);
}

/// A state handed in, counted by its twist, and by the cause of 23.
pub fn compare_handed(tally: &mut Tally, seed: u64, index: u64) {
    let (twist, case) = generate::handed_case(seed, index);
    let heading = format!("allotments, handed in, {twist:?}");
    lists::compare(tally, &heading, &case);
    if let [Call::Render(args)] = case.calls[..]
        && let Some(cause) = cause(&case, args)
    {
        tally.count(&format!("allotments, 23 by {cause:?}"), 23);
    }
}

/// By which cause 23 refuses a call, if it does.
fn cause(case: &CallCase, args: RenderArgs) -> Option<Cause> {
    let given = Given {
        source: &case.source,
        image: &case.image,
    };
    let mut world = case.world.clone();
    let answer = calls::call(given, &mut world, Call::Render(args));
    let refused = answer.err().is_some_and(|other| other.number == 23);
    let RenderState {
        listed,
        next_row,
        pen,
        ..
    } = case.world.rendering;
    refused.then(|| {
        let rows = case.world.rows(args.stop);
        listed::fault(&rows, &listed, next_row, pen).expect("a cause")
    })
}

fn args(document: &Document, stop: usize, allotment: usize) -> RenderArgs {
    const ROOM: usize = 1 << 16;
    RenderArgs {
        stop,
        room: ROOM,
        width: document.page.width,
        rule: document.page.rule,
        allotment,
    }
}

/// A way through a document by the port, held against the stops that the
/// judge read off one run of the original.
struct Ways<'w> {
    document: &'w Document,
    stops: &'w [RenderedRows],
    /// How many rows were entered.
    at: usize,
    world: World,
}

impl<'w> Ways<'w> {
    fn new(document: &'w Document, stops: &'w [RenderedRows]) -> Self {
        Ways {
            document,
            stops,
            at: 0,
            world: document.world(),
        }
    }

    /// One call, with just the room that it needs; says whether it is right.
    fn go(&mut self, tally: &mut Tally, way: &str, allotment: usize) -> bool {
        let last = self.stops.len() - 1;
        let to = self.at.saturating_add(allotment).min(last);
        let (from, due) = (&self.stops[self.at], &self.stops[to]);
        let text = &due.text[from.text.len()..];
        let mut output = junk_bytes(text.len() + to % 3);
        let mut due_output = output.clone();
        due_output[..text.len()].copy_from_slice(text);
        let mut due_marks = self.world.marks.clone();
        due_marks[..due.marks.len()].copy_from_slice(&due.marks);
        let state = RenderState {
            pen: due.pen,
            marks_in_use: due.marks.len(),
            next_row: due.next_row,
            width: self.document.page.width,
            rule: self.document.page.rule,
            listed: due.listed,
        };
        let answer = Answer::Written {
            state,
            bytes: text.len(),
            entered: to - self.at,
        };
        let what = format!("{way}, {allotment} from {}", self.at);
        let got = self.call(&mut output, allotment);
        tally.count(&format!("allotments, {way}"), 0);
        let before = self.document.world().store;
        let difference = first_difference(&before, &self.world.store);
        if let Some(place) = &difference {
            tally.differ(format!("{what}, store: {place}"));
        }
        self.at = to;
        self.world.rendering = state;
        difference.is_none()
            && tally.expect(&what, &Ok(answer), &got)
            && tally.expect_bytes(&what, &due_marks, &self.world.marks)
            && tally.expect_bytes(&what, &due_output, &output)
    }

    fn call(
        &mut self,
        output: &mut [u8],
        allotment: usize,
    ) -> Result<Answer, judge::refusal::Refusal> {
        let stop = self.document.rows.len();
        let World {
            store,
            marks,
            rendering,
            ..
        } = &mut self.world;
        let given = self.document.given();
        let args = args(self.document, stop, allotment);
        crate::render(given, store, marks, output, rendering, args)
    }
}
