//! What stands in the original's `Renderer` as it enters each node, noted by
//! its own `render_node`; read along the rows, it says where a rendering that
//! may enter so many rows stops.

use std::rc::Rc;

use super::{
    super::{Node, Renderer},
    layout::kind,
    render::{Pen, pen_of},
};
use crate::{
    listed::{OpenRow, Way},
    rows::{self, Row},
};

/// What stood there as a node was entered: a row, or a group that a `Call`
/// makes up.
#[derive(Clone, Debug)]
pub(super) struct Note {
    kind: u32,
    /// Whether the part that it stands in wraps.
    wrap: bool,
    /// Of a `Call`, whether its arguments trail.
    trails: bool,
    pub pen: Pen,
    /// What stood there when it was done.
    pub done: Pen,
    /// The length of the buffer.
    pub bytes: usize,
    /// The greatest value that `column` was set to.
    pub greatest: usize,
    /// The numbers of the groups that wrapped, ascending.
    pub wrapped: Rc<[usize]>,
}

/// The notes of a `Renderer`, if it keeps any.
#[derive(Debug, Default)]
pub(in super::super) struct Notes {
    kept: bool,
    all: Vec<Note>,
    /// Nodes that `Call`s make up, of those that were entered whole.
    made_up: usize,
}

/// Nodes that a `Call` makes up, by whether its arguments trail: a group
/// around each part, or one around an `IndentNext` of both.
const MADE_UP: [usize; 2] = [3, 2];

impl Notes {
    pub(super) fn kept() -> Self {
        Notes {
            kept: true,
            ..Notes::default()
        }
    }

    /// How many rows were entered, where no row is under way.
    pub(super) fn rows(&self) -> usize {
        self.all.len() - self.made_up
    }

    pub(super) fn all(&self) -> &[Note] {
        &self.all
    }
}

/// `render_node` enters a node, which has this place among the notes.
pub(in super::super) fn enter(
    renderer: &mut Renderer,
    node: &Node,
    wrap: bool,
) -> Option<usize> {
    if !renderer.notes.kept {
        return None;
    }
    let pen = pen_of(renderer);
    let note = Note {
        kind: kind(node),
        wrap,
        trails: false,
        pen,
        done: pen,
        bytes: renderer.buf.len(),
        greatest: renderer.greatest,
        wrapped: wrapped(renderer),
    };
    if note.kind == rows::CALL {
        renderer.notes.made_up += MADE_UP[0];
    }
    renderer.notes.all.push(note);
    Some(renderer.notes.all.len() - 1)
}

/// It is about to render a `Call`, which it entered last, whose arguments
/// trail.
pub(in super::super) fn trails(renderer: &mut Renderer) {
    let notes = &mut renderer.notes;
    if let Some(call) = notes.all.last_mut() {
        call.trails = true;
        notes.made_up -= MADE_UP[0] - MADE_UP[1];
    }
}

/// It is done with a node.
pub(in super::super) fn leave(renderer: &mut Renderer, note: Option<usize>) {
    let pen = pen_of(renderer);
    if let Some(note) = note {
        renderer.notes.all[note].done = pen;
    }
}

/// The numbers of the groups that wrapped, which only become more.
fn wrapped(renderer: &Renderer) -> Rc<[usize]> {
    match renderer.notes.all.last() {
        Some(last) if last.wrapped.len() == renderer.wrapped.len() => {
            Rc::clone(&last.wrapped)
        }
        _ => {
            let mut all: Vec<_> = renderer.wrapped.iter().copied().collect();
            all.sort_unstable();
            all.into()
        }
    }
}

/// A row that encloses the one just entered, with the note of it.
#[derive(Clone, Copy, Debug)]
pub(super) struct Around<'n> {
    pub open: OpenRow,
    pub note: &'n Note,
}

/// Reads notes along rows: `visit` gets each row that was entered, its note
/// and the rows around it, outermost first, until it says that it has enough.
/// Says whether it did.
pub(super) fn walk<'n>(
    notes: &'n [Note],
    rows: &'n [Row],
    from: usize,
    visit: impl FnMut(usize, &'n Note, &[Around<'n>]) -> bool,
) -> bool {
    let mut walk = Walk {
        notes: notes.iter(),
        rows,
        around: Vec::new(),
        visit,
    };
    let enough = walk.part(from, rows.len());
    assert!(enough || walk.notes.next().is_none(), "a note is left");
    enough
}

struct Walk<'n, V> {
    notes: std::slice::Iter<'n, Note>,
    rows: &'n [Row],
    around: Vec<Around<'n>>,
    visit: V,
}

impl<'n, V> Walk<'n, V>
where
    V: FnMut(usize, &'n Note, &[Around<'n>]) -> bool,
{
    fn part(&mut self, from: usize, to: usize) -> bool {
        let mut place = from;
        while place < to {
            if self.row(place) {
                return true;
            }
            place = self.rows[place].after as usize;
        }
        false
    }

    fn row(&mut self, place: usize) -> bool {
        let row = &self.rows[place];
        let note = self.note(row.kind);
        if let Some(around) = self.around.last_mut() {
            around.open.wraps = note.wrap;
        }
        if (self.visit)(place, note, &self.around) {
            return true;
        }
        let open = OpenRow {
            row: place,
            wraps: false,
            way: Way::Trailing,
        };
        self.around.push(Around { open, note });
        let second = row.second_part as usize;
        let enough = match row.kind {
            rows::IF_WRAP => {
                let number = row.number as usize;
                match note.wrapped.binary_search(&number) {
                    Ok(_) => self.row(place + 1),
                    Err(_) => self.row(second),
                }
            }
            rows::CALL => self.call(place, note.trails),
            _ => self.part(place + 1, row.after as usize),
        };
        if !enough {
            self.around.pop();
        }
        enough
    }

    /// The callee and the arguments, and the groups made up around them.
    fn call(&mut self, place: usize, trails: bool) -> bool {
        let row = &self.rows[place];
        let second = row.second_part as usize;
        self.note(rows::GROUP);
        if !trails {
            let deeper = self.note(rows::INDENT_NEXT).wrap;
            let call = self.around.last_mut().expect("the call");
            call.open.way =
                if deeper { Way::MadeWrapped } else { Way::MadeFlat };
        }
        if self.part(place + 1, second) {
            return true;
        }
        self.note(rows::GROUP);
        self.part(second, row.after as usize)
    }

    /// The next note, which must be of this kind.
    fn note(&mut self, kind: u32) -> &'n Note {
        let note = self.notes.next().expect("a note for each row");
        assert_eq!(note.kind, kind, "the notes stray from the rows");
        note
    }
}
