//! Lists of calls with what is due for them.

use super::{put_bytes, put_long, put_number};
use crate::{
    calls::{
        self, Answer, Call, Given, LayoutArgs, LayoutState, RenderArgs,
        RenderState, World,
    },
    driver::Stop,
    generate::CallCase,
    refusal::Refusal,
};

/// A case with its answers and what it leaves.
pub fn answered(case: &CallCase) -> Vec<u8> {
    let mut out = Vec::new();
    put_bytes(&mut out, &case.source);
    put_bytes(&mut out, &case.image);
    put_world(&mut out, &case.world);
    let count = u16::try_from(case.calls.len()).expect("two bytes");
    out.extend(count.to_be_bytes());
    let given = Given {
        source: &case.source,
        image: &case.image,
    };
    let mut world = case.world.clone();
    for one in &case.calls {
        put_call(&mut out, one);
        put_answer(&mut out, calls::call(given, &mut world, *one));
    }
    put_world(&mut out, &world);
    put_bytes(&mut out, &world.text);
    out
}

fn put_world(out: &mut Vec<u8>, world: &World) {
    put_number(out, world.store.len());
    out.extend(world.store.iter().flat_map(|cell| cell.to_be_bytes()));
    put_bytes(out, &world.marks);
    put_layout_state(out, &world.laying);
    put_render_state(out, &world.rendering);
}

/// The byte that says at which entry a call is made.
const LAYOUT: u8 = 0;
const RENDERING: u8 = 1;
const ARCHIVE_LAYOUT: u8 = 2;

fn put_call(out: &mut Vec<u8>, call: &Call) {
    match *call {
        Call::Layout(LayoutArgs {
            stop,
            close,
            mode,
            rule,
            archive,
        }) => {
            out.push(if archive { ARCHIVE_LAYOUT } else { LAYOUT });
            put_number(out, stop);
            put_number(out, usize::from(close));
            put_number(out, mode);
            put_long(out, rule);
        }
        Call::Render(RenderArgs {
            stop,
            room,
            width,
            rule,
            allotment,
        }) => {
            out.push(RENDERING);
            put_number(out, stop);
            put_number(out, room);
            put_number(out, width);
            put_long(out, rule);
            put_long(out, allotment);
        }
    }
}

fn put_answer(out: &mut Vec<u8>, answer: Result<Answer, Refusal>) {
    let (number, place) =
        answer.err().map_or((0, 0), |r| (r.number, r.place));
    out.push(number);
    out.extend(place.to_be_bytes());
    match answer {
        Ok(Answer::LaidOut {
            state,
            comments_left,
        }) => {
            put_layout_state(out, &state);
            put_number(out, comments_left);
        }
        Ok(Answer::Written {
            state,
            bytes,
            entered,
        }) => {
            put_render_state(out, &state);
            put_number(out, bytes);
            put_number(out, entered);
        }
        Err(_) => {}
    }
}

fn put_layout_state(out: &mut Vec<u8>, state: &LayoutState) {
    let Stop {
        next_row,
        next_number,
        comments_placed,
        position,
    } = state.at;
    out.push(u8::from(state.begun));
    out.push(u8::from(state.closed));
    put_number(out, state.next_declaration);
    put_number(out, next_row);
    put_number(out, next_number);
    put_number(out, comments_placed);
    put_number(out, position);
    put_number(out, state.mode);
    put_number(out, state.rule);
}

fn put_render_state(out: &mut Vec<u8>, state: &RenderState) {
    put_number(out, state.pen.indent);
    put_number(out, state.pen.next_indent);
    put_long(out, state.pen.column);
    put_number(out, state.marks_in_use);
    put_number(out, state.next_row);
    put_number(out, state.width);
    put_number(out, state.rule);
    put_number(out, state.listed.count);
    for number in state.listed.numbers() {
        put_number(out, *number as usize);
    }
}
