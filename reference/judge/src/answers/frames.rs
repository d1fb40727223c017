//! Frames with what is due for them.

use super::{put_bytes, put_number};
use crate::{
    driver::{Run, Stop},
    program::{self, Widths},
    refusal::Refusal,
};

/// A frame with its answer.
pub fn answered(frame: &[u8]) -> Vec<u8> {
    let mut out = Vec::new();
    put_bytes(&mut out, frame);
    let answer = program::answer(frame, Widths::Supplied);
    let comments = is_of_comments(&answer);
    put_answer(&mut out, answer);
    if comments {
        put_answer(&mut out, program::answer_archived(frame));
    }
    out
}

/// Whether the comments are what refuses a frame, so that the archive entry may
/// answer otherwise.
pub fn is_of_comments(answer: &Result<Run, Refusal>) -> bool {
    matches!(answer, Err(Refusal { number: 7, .. }))
}

fn put_answer(out: &mut Vec<u8>, answer: Result<Run, Refusal>) {
    match answer {
        Err(refusal) => {
            out.push(refusal.number);
            out.extend(refusal.place.to_be_bytes());
        }
        Ok(run) => {
            out.push(0);
            out.extend(0u64.to_be_bytes());
            put_run(out, &run);
        }
    }
}

fn put_run(out: &mut Vec<u8>, run: &Run) {
    let cells = run.rows.iter().flat_map(|row| row.cells());
    let row_bytes = cells.flat_map(u32::to_be_bytes);
    put_number(out, run.rows.len());
    out.extend(fnv1a(row_bytes).to_be_bytes());
    put_number(out, run.marks.len());
    out.extend(fnv1a(run.marks.iter().copied()).to_be_bytes());
    put_number(out, run.comments_left);
    let declarations = run.stops.len() - 1;
    let declarations = u16::try_from(declarations).expect("two bytes");
    out.extend(declarations.to_be_bytes());
    for stop in &run.stops {
        put_stop(out, stop);
    }
    put_bytes(out, run.text.as_bytes());
}

fn put_stop(out: &mut Vec<u8>, stop: &Stop) {
    put_number(out, stop.next_row);
    put_number(out, stop.next_number);
    put_number(out, stop.comments_placed);
    put_number(out, stop.position);
}

/// FNV-1a with 32 bits.
pub fn fnv1a(bytes: impl IntoIterator<Item = u8>) -> u32 {
    bytes.into_iter().fold(0x811C_9DC5, |hash: u32, byte| {
        (hash ^ u32::from(byte)).wrapping_mul(0x0100_0193)
    })
}
