//! Rows of any legal shape, and damage to them.

use crate::{
    random::Random,
    rows::{self, Row},
};

/// Nested rows whose first is row `base`, with texts within these sizes of
/// source and image.
pub fn rows(random: &mut Random, sizes: [usize; 2], base: usize) -> Vec<Row> {
    let left = *random.pick(&[1, 5, 20, 60]);
    let mut maker = Maker::new(random, sizes, base, left);
    while maker.left > 0 {
        maker.row(1);
    }
    maker.rows
}

/// The same with a `Call` among the first rows, whose second part and whose
/// parts' ranges may be set anew: those are what refusal 11 says of a `Call`.
pub fn call(random: &mut Random, sizes: [usize; 2], base: usize) -> Vec<Row> {
    let left = *random.pick(&[4, 8, 16]);
    let mut maker = Maker::new(random, sizes, base, left);
    if maker.random.once_in(3) {
        maker.row(1);
    }
    let place = maker.rows.len();
    maker.of_kind(rows::CALL, 1);
    while maker.left > 0 {
        maker.row(1);
    }
    let mut rows = maker.rows;
    move_second_part(random, &mut rows[place], base + place);
    let below = rows[place].after as usize - base;
    if !random.once_in(4) && place + 1 < below {
        // The last row stands behind the second part, most times.
        let first = *random.pick(&[place + 1, below - 1]);
        let part = random.between(first, below - 1);
        let call = rows[place];
        move_end(random, &mut rows[part], call, base + part);
    }
    rows
}

/// To the call's end, or to any row near it.
fn move_second_part(random: &mut Random, call: &mut Row, place: usize) {
    let after = call.after as usize;
    call.second_part = match random.below(5) {
        0 | 1 => call.second_part,
        2 | 3 => call.after,
        _ => random.between(place, after + 1) as u32,
    };
}

/// A range that is none, that outgrows the call, or any.
fn move_end(random: &mut Random, row: &mut Row, call: Row, place: usize) {
    row.after = match random.below(6) {
        0 | 1 => place as u32,
        2 | 3 => call.after + 1,
        4 => call.after,
        _ => random.between(place, call.after as usize) as u32,
    };
}

struct Maker<'r> {
    random: &'r mut Random,
    sizes: [usize; 3],
    base: usize,
    left: usize,
    rows: Vec<Row>,
}

impl<'r> Maker<'r> {
    fn new(
        random: &'r mut Random,
        [source, image]: [usize; 2],
        base: usize,
        left: usize,
    ) -> Self {
        Maker {
            random,
            sizes: [source, image, rows::fixed_words().len()],
            base,
            left,
            rows: Vec::new(),
        }
    }

    fn here(&self) -> u32 {
        (self.base + self.rows.len()) as u32
    }

    fn row(&mut self, depth: usize) {
        let nested = depth < 12 && self.left > 1;
        let kind = match self.random.below(if nested { 16 } else { 7 }) {
            // Leaves first; then rows with parts, calls more than once.
            leaf @ 0..=6 => leaf as u32 + rows::WRAP_PARENT,
            inner @ 7..=9 => inner as u32 - 7 + rows::GROUP,
            10 | 11 => rows::IF_WRAP,
            12 | 13 => rows::CALL,
            _ => rows::GROUP,
        };
        self.of_kind(kind, depth);
    }

    fn of_kind(&mut self, kind: u32, depth: usize) {
        self.left = self.left.saturating_sub(1);
        let place = self.rows.len();
        let cells = self.own_cells(kind);
        self.rows.push(cells);
        match kind {
            rows::GROUP | rows::INDENT | rows::INDENT_NEXT => {
                self.parts(depth);
            }
            rows::IF_WRAP => {
                self.row(depth + 1);
                self.rows[place].second_part = self.here();
                self.row(depth + 1);
            }
            rows::CALL => {
                self.parts(depth);
                self.rows[place].second_part = self.here();
                self.parts(depth);
            }
            _ => {}
        }
        self.rows[place].after = self.here();
    }

    fn parts(&mut self, depth: usize) {
        for _ in 0..self.random.below(5).min(self.left) {
            self.row(depth + 1);
        }
    }

    fn own_cells(&mut self, kind: u32) -> Row {
        let mut row = Row {
            kind,
            ..Row::default()
        };
        if matches!(kind, rows::GROUP | rows::IF_WRAP | rows::CALL) {
            row.number = self.random.below(12) as u32;
        }
        if kind == rows::CALL {
            row.second_number = self.random.below(12) as u32;
        }
        if matches!(kind, rows::COMMENT | rows::STR | rows::ASCII) {
            self.put_text(&mut row);
        }
        if kind == rows::STR {
            row.width = *self.random.pick(&[0, 1, 5, 40, 79, 80, u32::MAX]);
        }
        row
    }

    /// A text may cut a character, or be no UTF-8 at all.
    fn put_text(&mut self, row: &mut Row) {
        let origin = self.random.below(3);
        let size = self.sizes[origin];
        let start = self.random.between(0, size);
        row.origin = origin as u32;
        row.start = start as u32;
        row.length = self.random.between(0, size - start) as u32;
    }
}

/// Changes a few numbers, each by a little or to anything.
pub fn damage(random: &mut Random, rows: &mut [Row]) {
    for _ in 0..random.between(1, 2) {
        let place = random.below(rows.len());
        let mut cells = rows[place].cells();
        let cell = random.pick(&[0, 1, 2, 3, 4, 4, 4, 5, 6, 7, 8]);
        cells[*cell] = match random.below(4) {
            0 => cells[*cell].wrapping_add(1),
            1 => cells[*cell].wrapping_sub(1),
            2 => random.below(rows.len() + 2) as u32,
            _ => u32::MAX,
        };
        rows[place] = Row::from_cells(cells);
    }
}
