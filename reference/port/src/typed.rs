//! Layout, rendering and the whole run, in the judge's types.

use judge::{
    calls::{
        Answer, Given, LayoutArgs, LayoutState, RenderArgs, RenderState,
    },
    choice::Choice,
    driver::{Pen, Stop},
    listed::{Listed, MOST_LISTED},
    refusal::Refusal,
};

use crate::{Out, UNTOUCHED, port};

/// What the whole run says of an accepted file.
#[derive(Clone, Copy, Debug, PartialEq, Eq)]
pub struct Formatted {
    pub bytes: u64,
    pub comments_left: u64,
    pub rows: u64,
    pub numbers: u64,
}

/// A layout call of the port, at the entry that it names.
pub fn layout(
    given: Given,
    store: &mut [u32],
    state: &LayoutState,
    args: LayoutArgs,
) -> Result<Answer, Refusal> {
    let LayoutArgs {
        stop,
        close,
        mode,
        rule,
        archive,
    } = args;
    let mut out = Out::<12>::new();
    let numbers = [
        truth(state.begun),
        truth(state.closed),
        state.next_declaration as u64,
        state.at.next_row as u64,
        state.at.next_number as u64,
        state.at.comments_placed as u64,
        state.at.position as u64,
        state.mode as u64,
        state.rule as u64,
    ];
    let entry = match archive {
        true => port::layout_archived,
        false => port::layout,
    };
    let args = [stop as u64, truth(close), mode as u64, rule as u64];
    entry(
        given.source,
        given.image,
        store,
        &numbers,
        &args,
        out.places(),
    );
    let [comments_left, begun, closed, next, at @ ..] =
        out.accepted::<10>()?;
    let [next_row, next_number, comments_placed, position, mode, rule] =
        at.map(|number| number as usize);
    Ok(Answer::LaidOut {
        state: LayoutState {
            begun: begun != 0,
            closed: closed != 0,
            next_declaration: next as usize,
            at: Stop {
                next_row,
                next_number,
                comments_placed,
                position,
            },
            mode,
            rule,
        },
        comments_left: comments_left as usize,
    })
}

/// The numbers of a rendering state before those of the rows that it lists,
/// their count among them.
const STATE_NUMBERS: usize = 8;
/// Bytes written and rows entered.
const WRITTEN_NUMBERS: usize = 2;
/// A refusal's 0, then the answer.
pub(crate) const RENDER_OUT: usize = 1 + WRITTEN_NUMBERS + RENDER_STATE;
/// Places of a rendering state.
pub(crate) const RENDER_STATE: usize = STATE_NUMBERS + MOST_LISTED;

/// A rendering call of the port; the room is that of the output.
pub fn render(
    given: Given,
    store: &mut [u32],
    marks: &mut [u8],
    output: &mut [u8],
    state: &RenderState,
    args: RenderArgs,
) -> Result<Answer, Refusal> {
    let mut out = Out::<{ RENDER_OUT + 1 }>::new();
    let RenderArgs {
        stop,
        width,
        rule,
        allotment,
        ..
    } = args;
    port::render(
        given.source,
        given.image,
        store,
        marks,
        output,
        &render_numbers(state),
        &[stop, width, rule, allotment].map(|number| number as u64),
        out.places(),
    );
    written(&out)
}

/// A rendering state for the port: what stands behind the listed rows is
/// nothing that it reads.
pub fn render_numbers(state: &RenderState) -> [u64; RENDER_STATE] {
    let RenderState { pen, listed, .. } = state;
    let mut numbers = [UNTOUCHED; RENDER_STATE];
    let own = [
        pen.indent,
        pen.next_indent,
        pen.column,
        state.marks_in_use,
        state.next_row,
        state.width,
        state.rule,
        listed.count,
    ];
    numbers[..STATE_NUMBERS].copy_from_slice(&own.map(|own| own as u64));
    let rows = listed.numbers();
    numbers[STATE_NUMBERS..][..rows.len()].copy_from_slice(rows);
    numbers
}

/// The answer to a rendering call.
fn written<const N: usize>(out: &Out<N>) -> Result<Answer, Refusal> {
    let listed = WRITTEN_NUMBERS + STATE_NUMBERS;
    let count = (out.0[listed] as usize).min(MOST_LISTED);
    let answer = out.accepted_of(listed + count)?;
    let numbers: &[u64; WRITTEN_NUMBERS + STATE_NUMBERS] =
        answer.first_chunk().expect("long enough");
    let [
        bytes,
        entered,
        indent,
        next_indent,
        column,
        marks_in_use,
        next_row,
        width,
        rule,
        count,
    ] = numbers.map(|number| number as usize);
    Ok(Answer::Written {
        state: RenderState {
            pen: Pen {
                indent,
                next_indent,
                column,
            },
            marks_in_use,
            next_row,
            width,
            rule,
            listed: Listed::of_numbers(count, &answer[listed..]),
        },
        bytes,
        entered,
    })
}

/// The port's whole run, by its caller's choice.
pub fn format(
    given: Given,
    choice: Choice,
    output: &mut [u8],
) -> Result<Formatted, Refusal> {
    let mut out = Out::<6>::new();
    let Given { source, image } = given;
    let choice = numbers(choice);
    port::format(source, image, &choice, output, out.places());
    let [bytes, comments_left, rows, numbers] = out.accepted()?;
    Ok(Formatted {
        bytes,
        comments_left,
        rows,
        numbers,
    })
}

/// A choice for a whole file, or for each file of a batch.
pub(crate) fn numbers(choice: Choice) -> [u64; 3] {
    [choice.width, choice.mode, choice.rule].map(|number| number as u64)
}

/// Any number but 0 is true.
fn truth(value: bool) -> u64 {
    if value { 1 << 40 } else { 0 }
}
