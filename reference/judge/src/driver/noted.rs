//! A run of the original with notes, and where it stands as it enters each
//! row.

use super::{
    decode::{Spelled, decode},
    margin::drifts,
    notes::{Around, Note, walk},
    render::{Page, Pen, Rendering},
    start::{Halt, Start},
};
use crate::{
    listed::{Listed, OpenRow},
    rows::Row,
};

pub(super) struct Noted<'n> {
    rows: &'n [Row],
    from: usize,
    notes: Vec<Note>,
    pen: Pen,
    text: String,
    wrapped: Vec<usize>,
    greatest: usize,
}

impl<'n> Noted<'n> {
    /// Renders all rows from a start, at which none is listed.
    pub(super) fn new(
        texts: &dyn Spelled,
        rows: &'n [Row],
        start: Start,
        page: Page,
    ) -> Self {
        let from = start.row;
        let nodes = decode(texts, rows, from, rows.len());
        let mut rendering = Rendering::new(start.pen, start.marks, page);
        rendering.nodes(&nodes);
        let drifting = drifts(rendering.notes(), rows, from);
        assert_eq!(drifting, None, "the margin drifts at a row");
        Noted {
            rows,
            from,
            notes: rendering.notes().to_vec(),
            pen: rendering.pen(),
            wrapped: rendering.wrapped(),
            greatest: rendering.greatest(),
            text: rendering.finish().text,
        }
    }

    /// Where it stands when as many rows are entered, or in the end.
    pub(super) fn stop(&self, allotment: usize) -> Halt {
        let mut entered = 0;
        let mut found = None;
        walk(&self.notes, self.rows, self.from, |row, note, around| {
            let spent = entered == allotment;
            match spent {
                true => found = Some(self.halt(entered, row, note, around)),
                false => entered += 1,
            }
            spent
        });
        found.unwrap_or_else(|| self.end(entered))
    }

    /// All of them, the first of which has entered no row.
    pub(super) fn stops(&self) -> Vec<Halt> {
        let mut all = Vec::new();
        walk(&self.notes, self.rows, self.from, |row, note, around| {
            all.push(self.halt(all.len(), row, note, around));
            false
        });
        all.push(self.end(all.len()));
        all
    }

    fn halt(
        &self,
        entered: usize,
        next_row: usize,
        note: &Note,
        around: &[Around],
    ) -> Halt {
        let open: Vec<OpenRow> = around.iter().map(|one| one.open).collect();
        Halt {
            next_row,
            listed: Listed::new(&open),
            pen: note.pen,
            text: self.text[..note.bytes].into(),
            wrapped: note.wrapped.to_vec(),
            greatest: note.greatest,
            entered,
        }
    }

    fn end(&self, entered: usize) -> Halt {
        Halt {
            next_row: self.from.max(self.rows.len()),
            listed: Listed::default(),
            pen: self.pen,
            text: self.text.clone(),
            wrapped: self.wrapped.clone(),
            greatest: self.greatest,
            entered,
        }
    }
}
