//! A file laid out with a stop before each declaration, then rendered with a
//! stop at the same rows; and the whole run with the program's sizes. All of
//! it in both modes, and by each rule. Each layout call is made at both
//! entries: the strict one answers as that for archived images, or refuses the
//! file for the order of its comments.

use judge::{
    allotment::ALL_ROWS,
    calls::{
        Answer, Given, LayoutArgs, LayoutState, RenderArgs, RenderState,
    },
    choice::Choice,
    contents::{Contents, Place},
    driver::{Page, Run, Shown},
    frame::Frame,
    listed::Listed,
    mode::{NEW, OLD},
    program::{self, OUTPUT, Widths},
    reader::Reading,
    refusal::{Refusal, refusal},
    rows::{self, Row},
    rule::{LEGAL, SUPPLIED, UNICODE_15_1, UNICODE_16_0},
};

use super::{
    Tally,
    buffers::{first_difference, junk_bytes, junk_cells},
    texts,
};
use crate::Formatted;

/// Compares layout and rendering in pieces, and the whole run.
pub fn compare(tally: &mut Tally, class: &str, frame: Frame, width: usize) {
    let Frame { source, image } = frame;
    let file = File {
        given: Given { source, image },
        contents: texts::contents(frame),
    };
    for (mode, rule) in ways(image) {
        let choice = Choice { width, mode, rule };
        let strict = program::format_as(frame, Widths::Supplied, choice);
        compare_as(tally, class, &file, choice, strict);
    }
    compare_illegal(tally, &file, frame);
}

/// Modes with rules: supplied widths in both modes, and Unicode's two editions
/// in one each, which is another for images of an odd length. For a first byte 2
/// Unicode 16.0 in both modes, which alone isn't refused.
fn ways(image: &[u8]) -> [(usize, usize); 4] {
    if image.first() == Some(&2) {
        return [
            (OLD, SUPPLIED),
            (NEW, UNICODE_15_1),
            (OLD, UNICODE_16_0),
            (NEW, UNICODE_16_0),
        ];
    }
    let [mut one, mut other] = [UNICODE_15_1, UNICODE_16_0];
    if image.len() % 2 == 1 {
        (one, other) = (other, one);
    }
    [(OLD, SUPPLIED), (NEW, SUPPLIED), (OLD, one), (NEW, other)]
}

/// A file, and what it says, if the reader accepts it.
struct File<'f> {
    given: Given<'f>,
    contents: Option<Contents<'f>>,
}

fn compare_as(
    tally: &mut Tally,
    class: &str,
    file: &File,
    choice: Choice,
    strict: Result<Run, Refusal>,
) {
    let due = strict.as_ref().map_err(|refusal| *refusal).and_then(|run| {
        program::fits(run).map(|()| Formatted {
            bytes: run.text.len() as u64,
            comments_left: run.comments_left as u64,
            rows: run.rows.len() as u64,
            numbers: run.closed.next_number as u64,
        })
    });
    let number = due.err().map_or(0, |refusal| refusal.number);
    let mode = if choice.mode == OLD { "" } else { ", mode 1" };
    let rule = match choice.rule {
        SUPPLIED => String::new(),
        rule => format!(", rule {rule}"),
    };
    tally.count(&format!("whole run, {class}{mode}{rule}"), number);
    compare_whole(tally, file, choice, strict.as_ref().ok(), due);
    let refusal = strict.as_ref().err().copied();
    let archived = archived(file.given, choice, strict);
    if let Some(Refusal { number: 7, .. }) = refusal {
        let number = archived.as_ref().err().map_or(0, |other| other.number);
        tally.count(&format!("archived, {class}{mode}{rule}"), number);
    }
    match archived {
        // A layout call has no width.
        Err(Refusal { number: 15, .. }) => {}
        Err(other) => {
            let both = [refusal.unwrap_or(other), other];
            compare_refused(tally, file.given, choice, both);
        }
        Ok(run) => compare_pieces(tally, file, choice, &run, refusal),
    }
}

/// The run of an image that is read by the earlier rule. It refuses no more,
/// and by 7 less.
fn archived(
    given: Given,
    choice: Choice,
    strict: Result<Run, Refusal>,
) -> Result<Run, Refusal> {
    let Given { source, image } = given;
    match strict {
        Err(Refusal { number: 7, .. }) => {
            let frame = Frame { source, image };
            let (widths, earlier) = (Widths::Supplied, Reading::Earlier);
            program::format_by(frame, widths, choice, earlier)
        }
        _ => strict,
    }
}

fn compare_pieces(
    tally: &mut Tally,
    file: &File,
    choice: Choice,
    run: &Run,
    backwards: Option<Refusal>,
) {
    let contents = file.contents.as_ref().expect("the reader accepts it");
    texts::expect_run(tally, contents, choice.mode, run);
    let mut cut = Cut {
        tally,
        given: file.given,
        contents,
        choice,
        run,
        backwards,
        store: junk_cells((run.rows.len() + 2) * Row::CELLS + 4),
        marks: junk_bytes(run.marks.len() + 3),
    };
    let _ = cut.layout().is_some() && cut.rendering().is_some();
}

/// The whole run; a refusal leaves the output as it was.
fn compare_whole(
    tally: &mut Tally,
    file: &File,
    choice: Choice,
    run: Option<&Run>,
    due: Result<Formatted, Refusal>,
) {
    let mut output = junk_bytes(OUTPUT);
    let mut due_output = output.clone();
    let got = crate::format(file.given, choice, &mut output);
    if let (Ok(said), Some(contents)) = (got, &file.contents) {
        let left = (choice.mode, said.comments_left as usize);
        let text = &output[..OUTPUT.min(said.bytes as usize)];
        texts::expect_file(tally, texts::FILES, contents, left, text);
    }
    if let Some(run) = run.filter(|_| due.is_ok()) {
        due_output[..run.text.len()].copy_from_slice(run.text.as_bytes());
    }
    let _ = tally.expect("the whole run's answer", &due, &got)
        && tally.expect_bytes("the whole run's output", &due_output, &output);
}

/// The whole run with a width, a mode or a rule that can't be chosen: 20 before
/// the file's own refusals, 12, then 15, also where there are too many rows.
fn compare_illegal(tally: &mut Tally, file: &File, frame: Frame) {
    const NARROW: usize = 39;
    let choice = |width, mode, rule| Choice { width, mode, rule };
    for choice in [
        choice(NARROW, OLD, UNICODE_16_0),
        choice(NARROW, NEW, SUPPLIED),
        choice(80, 2, SUPPLIED),
        choice(NARROW, usize::MAX, UNICODE_15_1),
        choice(80, OLD, 0),
        choice(80, NEW, 4),
        choice(NARROW, 2, 1 << 32),
        choice(80, OLD, (1 << 32) + 2),
        choice(80, OLD, usize::MAX),
    ] {
        let run = program::format_as(frame, Widths::Supplied, choice);
        let due = Err(run.expect_err("a choice that isn't legal"));
        compare_whole(tally, file, choice, None, due);
    }
}

/// Layout calls that the reader refuses, at the strict entry and at that for
/// archived images.
fn compare_refused(
    tally: &mut Tally,
    given: Given,
    choice: Choice,
    refusals: [Refusal; 2],
) {
    for (archive, refusal) in [false, true].into_iter().zip(refusals) {
        let args = LayoutArgs {
            stop: 0,
            close: false,
            mode: choice.mode,
            rule: choice.rule,
            archive,
        };
        let what = format!("a refused layout, {args:?}");
        let mut store = junk_cells(20);
        let due_store = store.clone();
        let fresh = LayoutState::default();
        let got = crate::layout(given, &mut store, &fresh, args);
        let _ = tally.expect(&what, &Err(refusal), &got)
            && expect_store(tally, &what, &due_store, &store);
    }
}

/// What a rendering call to one of the stops gives.
struct Part<'p> {
    stop: usize,
    shown: &'p Shown,
    text: &'p [u8],
    /// The rows entered.
    entered: usize,
    /// Those of the pieces at which it starts and ends.
    places: [Place; 2],
}

struct Cut<'c> {
    tally: &'c mut Tally,
    given: Given<'c>,
    contents: &'c Contents<'c>,
    choice: Choice,
    run: &'c Run,
    /// What the strict entry answers, where the comments run backwards.
    backwards: Option<Refusal>,
    store: Vec<u32>,
    marks: Vec<u8>,
}

impl Cut<'_> {
    /// Lays out to each declaration in turn, then closes; `None` when it
    /// went wrong.
    fn layout(&mut self) -> Option<()> {
        let mut state = LayoutState::default();
        let mut due_store = self.store.clone();
        for (place, stop) in self.run.stops.iter().enumerate() {
            let from = state.at.next_row;
            let due = LayoutState {
                begun: true,
                closed: false,
                next_declaration: place,
                at: *stop,
                mode: self.choice.mode,
                rule: self.choice.rule,
            };
            let rows = &self.run.rows[from..stop.next_row];
            put_rows(&mut due_store, from, rows);
            self.lay_out(&mut state, due, &due_store)?;
            self.other_mode(&state)?;
            self.other_rule(&state)?;
        }
        self.one_row_short(&state)?;
        // The final `Line`, and in the new mode what waited.
        let from = state.at.next_row;
        put_rows(&mut due_store, from, &self.run.rows[from..]);
        let due = LayoutState {
            closed: true,
            at: self.run.closed,
            ..state
        };
        self.lay_out(&mut state, due, &due_store)
    }

    fn lay_out(
        &mut self,
        state: &mut LayoutState,
        due: LayoutState,
        due_store: &[u32],
    ) -> Option<()> {
        let placed = self.run.closed.comments_placed;
        let comments = self.run.comments_left + placed;
        let answer = Answer::LaidOut {
            state: due,
            comments_left: comments - due.at.comments_placed,
        };
        let what = format!("layout from {state:?}");
        let args = self.args(due.next_declaration, due.closed);
        let before = *state;
        *state = due;
        let cells = self.store.len();
        self.at_both(&what, &before, args, cells, (Ok(answer), due_store))
    }

    /// What a layout call of this choice is told.
    fn args(&self, stop: usize, close: bool) -> LayoutArgs {
        LayoutArgs {
            stop,
            close,
            mode: self.choice.mode,
            rule: self.choice.rule,
            archive: false,
        }
    }

    /// A layout call in so many cells of the store: at the strict entry, and
    /// from the same store at that for archived images.
    fn at_both(
        &mut self,
        what: &str,
        state: &LayoutState,
        args: LayoutArgs,
        cells: usize,
        (answer, due_store): (Result<Answer, Refusal>, &[u32]),
    ) -> Option<()> {
        let before = self.store.clone();
        for (archive, due) in [(false, self.strict(answer)), (true, answer)] {
            self.store.clone_from(&before);
            let args = LayoutArgs { archive, ..args };
            let due_store = if due.is_ok() { due_store } else { &before };
            let what = format!("{what}, archive {archive}");
            let store = &mut self.store[..cells];
            let got = crate::layout(self.given, store, state, args);
            let right = self.tally.expect(&what, &due, &got)
                && expect_store(self.tally, &what, due_store, &self.store);
            if !right {
                return None;
            }
        }
        Some(())
    }

    /// What the strict entry answers where that for archived images answers
    /// this: 7 where the comments run backwards, but after 20.
    fn strict(
        &self,
        answer: Result<Answer, Refusal>,
    ) -> Result<Answer, Refusal> {
        match (self.backwards, answer) {
            (Some(_), Err(Refusal { number: 20, .. })) | (None, _) => answer,
            (Some(refusal), _) => Err(refusal),
        }
    }

    /// Closing with room for one row too few: 8, and no cell is changed.
    fn one_row_short(&mut self, state: &LayoutState) -> Option<()> {
        let rows = self.run.rows.len();
        let cells = rows * Row::CELLS - 1;
        let args = self.args(state.next_declaration, true);
        let due = Err(refusal(8, rows));
        self.at_both("layout one row short", state, args, cells, (due, &[]))
    }

    /// Another mode than the carried one, legal or not: 12, and no cell is
    /// changed.
    fn other_mode(&mut self, state: &LayoutState) -> Option<()> {
        let others = [1 - self.choice.mode, 2, 1 << 32, usize::MAX];
        let stop = state.next_declaration;
        let other = others[stop % others.len()];
        self.refused_layout(state, [other, self.choice.rule], 12)
    }

    /// Another rule than the carried one: 12, or 20 where it isn't legal, and
    /// no cell is changed.
    fn other_rule(&mut self, state: &LayoutState) -> Option<()> {
        let stop = state.next_declaration;
        let (other, number) = self.other(stop);
        self.refused_layout(state, [self.choice.mode, other], number)
    }

    /// A rule that isn't the carried one, by turns, and what refuses it: for a
    /// first byte 2 always 20.
    fn other(&self, turn: usize) -> (usize, u8) {
        let (other, number) = other_rule(self.choice.rule, turn);
        match self.given.image.first() {
            Some(2) => (other, 20),
            _ => (other, number),
        }
    }

    /// A layout call that lays nothing, closes at the end, and is refused for
    /// its mode or its rule.
    fn refused_layout(
        &mut self,
        state: &LayoutState,
        chosen: [usize; 2],
        number: u8,
    ) -> Option<()> {
        let stop = state.next_declaration;
        let [mode, rule] = chosen;
        let args = LayoutArgs {
            mode,
            rule,
            ..self.args(stop, stop + 1 == self.run.stops.len())
        };
        let what = format!("layout by mode and rule {chosen:?}");
        let due = Err(refusal(number, 0));
        let cells = self.store.len();
        self.at_both(&what, state, args, cells, (due, &[]))
    }

    /// Renders to the row of each stop in turn, then to the end.
    fn rendering(&mut self) -> Option<()> {
        let run = self.run;
        let mut state = RenderState::default();
        self.one_mark_short()?;
        let end = Shown {
            pen: run.pen,
            bytes: run.text.len(),
            entered: run.entered,
            marks: run.marks.clone(),
        };
        let stops = run.stops.iter().map(|stop| stop.next_row);
        let stops = stops.chain([run.rows.len()]);
        let shown = run.shown.iter().chain([&end]);
        let places = texts::places(self.contents, run);
        let mut from = (Place::default(), 0, 0);
        for ((stop, shown), place) in stops.zip(shown).zip(places) {
            let part = Part {
                stop,
                shown,
                text: &run.text.as_bytes()[from.1..shown.bytes],
                entered: shown.entered - from.2,
                places: [from.0, place],
            };
            self.one_byte_short(&state, &part)?;
            self.render(&mut state, &part)?;
            self.other_width(&state, stop)?;
            self.other_page(&state, stop)?;
            from = (place, shown.bytes, shown.entered);
        }
        Some(())
    }

    fn render(&mut self, state: &mut RenderState, due: &Part) -> Option<()> {
        let Part {
            stop,
            shown,
            text,
            entered,
            ..
        } = *due;
        // Exactly full, or with bytes to spare.
        let mut output = junk_bytes(text.len() + 3 * (stop % 2));
        let mut due_output = output.clone();
        due_output[..text.len()].copy_from_slice(text);
        let mut due_marks = self.marks.clone();
        due_marks[..shown.marks.len()].copy_from_slice(&shown.marks);
        let after = RenderState {
            pen: shown.pen,
            marks_in_use: shown.marks.len(),
            next_row: stop,
            width: self.choice.width,
            rule: self.choice.rule,
            listed: Listed::default(),
        };
        let answer = Answer::Written {
            state: after,
            bytes: text.len(),
            entered,
        };
        let what = format!("rendering from {state:?}");
        let got = self.call(state, stop, &mut output);
        if let Ok(Answer::Written { bytes, .. }) = got {
            let written = &output[..bytes.min(output.len())];
            let (sort, all) = (texts::DECLARATIONS, self.contents);
            texts::expect(self.tally, sort, all, due.places, written);
        }
        *state = after;
        let right = self.tally.expect(&what, &Ok(answer), &got)
            && self.tally.expect_bytes(&what, &due_marks, &self.marks)
            && self.tally.expect_bytes(&what, &due_output, &output);
        right.then_some(())
    }

    /// Output for one byte too few: 10, and nothing is changed.
    fn one_byte_short(
        &mut self,
        state: &RenderState,
        due: &Part,
    ) -> Option<()> {
        let Part { stop, text, .. } = *due;
        if text.is_empty() {
            return Some(());
        }
        let mut output = junk_bytes(text.len() - 1);
        let [due_output, due_marks] = [output.clone(), self.marks.clone()];
        let got = self.call(state, stop, &mut output);
        let what = "rendering one byte short";
        let due = Err(refusal(10, text.len()));
        let right = self.tally.expect(what, &due, &got)
            && self.tally.expect_bytes(what, &due_marks, &self.marks)
            && self.tally.expect_bytes(what, &due_output, &output);
        right.then_some(())
    }

    /// Another width than the carried one, legal or not: 15, and nothing is
    /// changed.
    fn other_width(
        &mut self,
        state: &RenderState,
        stop: usize,
    ) -> Option<()> {
        let width = self.choice.width;
        let others = [0, 39, 40, 80, 200, 201, usize::MAX, width + 1];
        let other = others[stop % others.len()];
        if other == width {
            return Some(());
        }
        let page = Page {
            width: other,
            ..self.page()
        };
        self.refused_page(state, stop, page, 15)
    }

    /// Another rule than the carried one: 12, or 20 where it isn't legal, and
    /// nothing is changed.
    fn other_page(&mut self, state: &RenderState, stop: usize) -> Option<()> {
        let (rule, number) = self.other(stop);
        let page = Page {
            rule,
            ..self.page()
        };
        self.refused_page(state, stop, page, number)
    }

    /// A rendering call that reads nothing and is refused for its page.
    fn refused_page(
        &mut self,
        state: &RenderState,
        stop: usize,
        page: Page,
        number: u8,
    ) -> Option<()> {
        let mut output = junk_bytes(9);
        let [due_output, due_marks] = [output.clone(), self.marks.clone()];
        let got = self.call_on(page, state, stop, &mut output);
        let what = format!("rendering on {page:?}");
        let right = self.tally.expect(&what, &Err(refusal(number, 0)), &got)
            && self.tally.expect_bytes(&what, &due_marks, &self.marks)
            && self.tally.expect_bytes(&what, &due_output, &output);
        right.then_some(())
    }

    /// Marks for one number too few: 9, and nothing is changed.
    fn one_mark_short(&mut self) -> Option<()> {
        let needed = rows::marks_needed(&self.run.rows) as usize;
        if needed == 0 {
            return Some(());
        }
        let before = self.marks.clone();
        let rows = self.run.rows.len();
        let page = self.page();
        let got = crate::render(
            self.given,
            &mut self.store,
            &mut self.marks[..needed - 1],
            &mut [],
            &RenderState::default(),
            whole(rows, page),
        );
        let what = "rendering one mark short";
        let due = Err(refusal(9, needed));
        let right = self.tally.expect(what, &due, &got)
            && self.tally.expect_bytes(what, &before, &self.marks);
        right.then_some(())
    }

    /// A rendering call, which must leave the store alone.
    fn call(
        &mut self,
        state: &RenderState,
        stop: usize,
        output: &mut [u8],
    ) -> Result<Answer, Refusal> {
        self.call_on(self.page(), state, stop, output)
    }

    fn page(&self) -> Page {
        let Choice { width, rule, .. } = self.choice;
        Page { width, rule }
    }

    fn call_on(
        &mut self,
        page: Page,
        state: &RenderState,
        stop: usize,
        output: &mut [u8],
    ) -> Result<Answer, Refusal> {
        let before = self.store.clone();
        let answer = crate::render(
            self.given,
            &mut self.store,
            &mut self.marks,
            output,
            state,
            whole(stop, page),
        );
        let what = "the store after rendering";
        expect_store(self.tally, what, &before, &self.store);
        answer
    }
}

/// What a rendering call that may enter all rows is told.
fn whole(stop: usize, page: Page) -> RenderArgs {
    RenderArgs {
        stop,
        room: 0,
        width: page.width,
        rule: page.rule,
        allotment: ALL_ROWS,
    }
}

/// A rule that isn't this legal one, by turns, and what refuses it where this
/// one is carried.
fn other_rule(rule: usize, turn: usize) -> (usize, u8) {
    let others = [
        1 + rule % 3,
        0,
        1 + (rule + 1) % 3,
        4,
        (1 << 32) + rule,
        usize::MAX,
    ];
    let other = others[turn % others.len()];
    (other, if LEGAL.contains(&other) { 12 } else { 20 })
}

fn put_rows(store: &mut [u32], at: usize, rows: &[Row]) {
    let cells = store[at * Row::CELLS..].chunks_exact_mut(Row::CELLS);
    for (cells, row) in cells.zip(rows) {
        cells.copy_from_slice(&row.cells());
    }
}

fn expect_store(
    tally: &mut Tally,
    what: &str,
    due: &[u32],
    got: &[u32],
) -> bool {
    let difference = first_difference(due, got);
    if let Some(where_) = &difference {
        tally.differ(format!("{what}: {where_}"));
    }
    difference.is_none()
}
