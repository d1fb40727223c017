//! A rendering call: refusals 20, 1, 2 unless widths are supplied, 3, 11, 12,
//! 15, 22, 23, 9, 10.

use super::{Answer, Given, MOST_ROWS, World, row_check};
use crate::{
    allotment,
    driver::{Page, Pen, RenderedRows, Start, Texts, render_rows},
    listed::{self, Listed},
    reader,
    refusal::{Refusal, refusal},
    rows::{self, Row},
    rule, width,
};

const MOST_INDENT: usize = 384;
const MOST_COLUMN: usize = 1 << 56;

/// The state that rendering carries from call to call. Fresh is all 0.
#[derive(Clone, Copy, Debug, Default, PartialEq, Eq)]
pub struct RenderState {
    pub pen: Pen,
    pub marks_in_use: usize,
    pub next_row: usize,
    /// 0: none yet.
    pub width: usize,
    /// 0: none yet.
    pub rule: usize,
    /// The rows that enclose the next one.
    pub listed: Listed,
}

impl RenderState {
    /// From where 9 and 11 read.
    pub fn reads_from(&self) -> usize {
        self.listed.reads_from(self.next_row)
    }
}

/// What a rendering call is told.
#[derive(Clone, Copy, Debug, PartialEq, Eq)]
pub struct RenderArgs {
    /// The row to stop before.
    pub stop: usize,
    /// The bytes of output.
    pub room: usize,
    pub width: usize,
    pub rule: usize,
    /// The rows that it may enter.
    pub allotment: usize,
}

/// Renders from where the state stands to before the stop, as many rows as are
/// allotted.
pub fn render_call(
    given: Given,
    world: &mut World,
    args: RenderArgs,
) -> Result<Answer, Refusal> {
    let RenderArgs { stop, rule, .. } = args;
    rule::check_for(rule, given.image)?;
    reader::check_source_length(given.source)?;
    if rule != rule::SUPPLIED {
        reader::check_encoding(given.source)?;
    }
    reader::check_header(given.image)?;
    if stop > world.room_for_rows() || stop > MOST_ROWS {
        return Err(refusal(11, 0));
    }
    let words = rows::fixed_words();
    let texts = Texts {
        source: given.source,
        image: given.image,
        words: words.as_bytes(),
    };
    let rows = world.rows(stop);
    row_check::check(texts, &rows, world.rendering.reads_from(), rule)?;
    check_carried(world, &rows, args)?;
    check_marks(world, &rows)?;
    let rendered = render(world, texts, &rows, args);
    if rendered.text.len() > args.room {
        return Err(refusal(10, rendered.text.len()));
    }
    Ok(write(world, args, &rendered))
}

/// The refusals by the state and what is chosen: 12, 15, 22 and 23.
fn check_carried(
    world: &World,
    rows: &[Row],
    args: RenderArgs,
) -> Result<(), Refusal> {
    let state = &world.rendering;
    check_state(world, args.stop)?;
    rule::check_carried(args.rule, state.rule)?;
    width::check(args.width, state.width)?;
    allotment::check(args.allotment)?;
    listed::check(rows, &state.listed, state.next_row, state.pen)
}

fn render(
    world: &World,
    texts: Texts,
    rows: &[Row],
    args: RenderArgs,
) -> RenderedRows {
    let state = &world.rendering;
    let start = Start {
        row: state.next_row,
        listed: &state.listed.rows(),
        pen: state.pen,
        marks: &world.marks[..state.marks_in_use],
    };
    let RenderArgs { width, rule, .. } = args;
    let page = Page { width, rule };
    render_rows(texts, rows, start, page, args.allotment)
}

/// Refusal 12, but for the rule.
fn check_state(world: &World, stop: usize) -> Result<(), Refusal> {
    let RenderState {
        pen,
        marks_in_use,
        next_row,
        ..
    } = world.rendering;
    let in_use = world.marks.get(..marks_in_use);
    let legal = next_row <= stop
        && pen.indent <= MOST_INDENT
        && pen.next_indent <= MOST_INDENT
        && pen.column <= MOST_COLUMN
        && in_use.is_some_and(|marks| marks.iter().all(|mark| *mark <= 1));
    if legal { Ok(()) } else { Err(refusal(12, 0)) }
}

/// Refusal 9, on the rows that the call reads.
fn check_marks(world: &World, rows: &[Row]) -> Result<(), Refusal> {
    let place = rows::marks_needed(&rows[world.rendering.reads_from()..]);
    if place > world.marks.len() as u64 {
        return Err(Refusal { number: 9, place });
    }
    Ok(())
}

/// What an accepted call changes.
fn write(
    world: &mut World,
    args: RenderArgs,
    rendered: &RenderedRows,
) -> Answer {
    world.marks[..rendered.marks.len()].copy_from_slice(&rendered.marks);
    world.text.extend(&rendered.text);
    world.rendering = RenderState {
        pen: rendered.pen,
        marks_in_use: rendered.marks.len(),
        next_row: rendered.next_row,
        width: args.width,
        rule: args.rule,
        listed: rendered.listed,
    };
    Answer::Written {
        state: world.rendering,
        bytes: rendered.text.len(),
        entered: rendered.entered,
    }
}
