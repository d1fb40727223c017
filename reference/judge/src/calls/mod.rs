//! Lists of layout and rendering calls, by the original's own parts.
//!
//! A call gets the state that the last accepted call of its kind answered,
//! and store and marks as all calls before left them.

mod layout;
mod plain;
mod render;
mod row_check;

pub use layout::{LayoutArgs, LayoutState, layout_call};
pub use plain::{plain_run, reads_laid_rows_alone};
pub use render::{RenderArgs, RenderState, render_call};

use crate::{refusal::Refusal, rows::Row};

pub const MOST_ROWS: usize = 2_097_152;
pub const MOST_ROW_DEPTH: usize = 256;

/// A call's arguments, but for what it is handed on.
#[derive(Clone, Copy, Debug, PartialEq, Eq)]
pub enum Call {
    Layout(LayoutArgs),
    Render(RenderArgs),
}

/// What an accepted call answers. A rendering state has places for all rows
/// that it may list, so that it can be copied.
#[allow(clippy::large_enum_variant)]
#[derive(Clone, Copy, Debug, PartialEq, Eq)]
pub enum Answer {
    LaidOut {
        state: LayoutState,
        comments_left: usize,
    },
    Written {
        state: RenderState,
        bytes: usize,
        entered: usize,
    },
}

/// What calls read, and never change.
#[derive(Clone, Copy, Debug)]
pub struct Given<'g> {
    pub source: &'g [u8],
    pub image: &'g [u8],
}

/// What calls change: both buffers, both states, and the joined text.
#[derive(Clone, Debug, Default, PartialEq, Eq)]
pub struct World {
    pub store: Vec<u32>,
    pub marks: Vec<u8>,
    pub laying: LayoutState,
    pub rendering: RenderState,
    pub text: Vec<u8>,
}

impl World {
    /// Rows that the store has room for: its length over nine, rounded down.
    pub fn room_for_rows(&self) -> usize {
        self.store.len() / Row::CELLS
    }

    /// The rows of the store from its start to before `stop`.
    pub fn rows(&self, stop: usize) -> Vec<Row> {
        let cells = &self.store[..stop * Row::CELLS];
        let rows = cells.chunks_exact(Row::CELLS);
        rows.map(|row| Row::from_cells(row.try_into().expect("nine")))
            .collect()
    }

    /// Writes rows over the store, from row `at` on.
    pub fn put_rows(&mut self, at: usize, rows: &[Row]) {
        for (place, row) in (at..).zip(rows) {
            let cell = place * Row::CELLS;
            self.store[cell..cell + Row::CELLS].copy_from_slice(&row.cells());
        }
    }
}

/// Makes one call; a refused one leaves all as it was.
pub fn call(
    given: Given,
    world: &mut World,
    call: Call,
) -> Result<Answer, Refusal> {
    match call {
        Call::Layout(args) => layout_call(given, world, args),
        Call::Render(args) => render_call(given, world, args),
    }
}

/// Makes calls one after the other.
pub fn run(
    given: Given,
    world: &mut World,
    calls: &[Call],
) -> Vec<Result<Answer, Refusal>> {
    calls.iter().map(|one| call(given, world, *one)).collect()
}
