//! What calls carry from one to the next. A fresh state is the default one.

use crate::{limits::MAX_LISTED_ROWS, linked::numbers};

/// How far layout came. The default is fresh.
///
/// ```
/// let mut state = rrufthim::calls::LayoutState::default();
/// state.next_row = 7; // as it was kept elsewhere
/// ```
#[derive(Clone, Debug, Default, PartialEq, Eq, Hash)]
#[non_exhaustive]
pub struct LayoutState {
    /// Whether a call was made, and so the shebang laid.
    pub begun: bool,
    /// Whether the final line was added.
    pub closed: bool,
    /// The declaration that comes next.
    pub next_declaration: usize,
    /// The row of the store that is written next.
    pub next_row: usize,
    /// The number that the next group gets.
    pub next_number: usize,
    /// How many comments are in rows.
    pub comments_placed: usize,
    /// How far the source was looked through for comments and empty lines.
    pub position: usize,
    /// What the calls so far chose for the comments at the foot: 0 for
    /// [`Comments::AsRoto`](crate::Comments::AsRoto), 1 for
    /// [`Comments::All`](crate::Comments::All); 0 if there was no call yet.
    pub mode: usize,
    /// What they chose for the columns of texts: 1 for
    /// [`Widths::Supplied`](crate::Widths::Supplied), 2 for
    /// [`Unicode15_1`](crate::Widths::Unicode15_1), 3 for
    /// [`Unicode16_0`](crate::Widths::Unicode16_0); 0 if there was no call
    /// yet.
    pub rule: usize,
}

impl LayoutState {
    pub(super) fn numbers(&self) -> [usize; 9] {
        [
            self.begun.into(),
            self.closed.into(),
            self.next_declaration,
            self.next_row,
            self.next_number,
            self.comments_placed,
            self.position,
            self.mode,
            self.rule,
        ]
    }

    pub(super) fn from_numbers(numbers: [usize; 9]) -> Self {
        let [begun, closed, declaration, row, at @ ..] = numbers;
        let [number, placed, position, mode, rule] = at;
        LayoutState {
            begun: begun != 0,
            closed: closed != 0,
            next_declaration: declaration,
            next_row: row,
            next_number: number,
            comments_placed: placed,
            position,
            mode,
            rule,
        }
    }
}

/// How far rendering came. The default is fresh.
#[derive(Clone, Debug, Default, PartialEq, Eq, Hash)]
#[non_exhaustive]
pub struct RenderState {
    /// How many steps of four columns lines start in.
    pub indent: usize,
    /// How many more the lines after this one do.
    pub next_indent: usize,
    /// The column that was reached.
    pub column: usize,
    /// How many marks are in use.
    pub marks_in_use: usize,
    /// The row of the store that is rendered next.
    pub next_row: usize,
    /// The width that the calls so far chose, 0 if there was none yet.
    pub width: usize,
    /// What they chose for the columns of texts, by the numbers of
    /// [`LayoutState::rule`]; 0 if there was none yet.
    pub rule: usize,
    /// The rows that enclose the next one, outermost first: none, unless a
    /// call stopped inside a row since it had entered as many as it was
    /// allotted.
    pub listed: Vec<ListedRow>,
}

/// The numbers of a rendering state before those of the rows that it lists.
const RENDER_NUMBERS: usize = 8;
/// The places of a rendering state.
pub(super) const RENDER_STATE: usize = RENDER_NUMBERS + MAX_LISTED_ROWS;

impl RenderState {
    /// More rows than a state lists are as many as there are places for, and
    /// a count that is refused by 23.
    pub(super) fn numbers(&self) -> [u64; RENDER_STATE] {
        let mut all = [0; RENDER_STATE];
        let own = numbers([
            self.indent,
            self.next_indent,
            self.column,
            self.marks_in_use,
            self.next_row,
            self.width,
            self.rule,
            self.listed.len(),
        ]);
        let (before, rows) = all.split_at_mut(RENDER_NUMBERS);
        before.copy_from_slice(&own);
        for (place, row) in rows.iter_mut().zip(&self.listed) {
            *place = row.number();
        }
        all
    }

    pub(super) fn from_numbers(state: &[usize; RENDER_STATE]) -> Self {
        let [indent, next_indent, column, at @ ..] = state;
        let [marks_in_use, next_row, width, rule, count, rows @ ..] = at;
        let listed = rows.iter().take(*count);
        let listed = listed.map(|row| ListedRow::from_number(*row as u64));
        RenderState {
            indent: *indent,
            next_indent: *next_indent,
            column: *column,
            marks_in_use: *marks_in_use,
            next_row: *next_row,
            width: *width,
            rule: *rule,
            listed: listed.collect(),
        }
    }
}

/// A row that encloses the next one. Both facts of it are believed.
#[derive(Clone, Debug, PartialEq, Eq, Hash)]
#[non_exhaustive]
pub struct ListedRow {
    /// Its place in the store.
    pub row: usize,
    /// Whether its parts wrap; of a call of a function those of the part that
    /// the next row is in.
    pub wraps: bool,
    /// Which way a call of a function went; of any other row the first.
    pub way: Way,
}

/// Which way a call of a function went.
#[derive(Clone, Copy, Debug, PartialEq, Eq, Hash)]
pub enum Way {
    /// Its arguments trail on the line of its callee.
    Trailing,
    /// A group is made up around both, on one line.
    MadeFlat,
    /// It is made up, over lines.
    MadeWrapped,
}

impl ListedRow {
    /// A row as it was kept elsewhere.
    pub fn new(row: usize, wraps: bool, way: Way) -> Self {
        ListedRow { row, wraps, way }
    }

    /// The numbers that stand for one row.
    const FACTS: u64 = 6;

    /// The number by which the library lists it: row * 6 + way * 2 + wraps. A
    /// row for which there is no such number is one that 11 and 12 refuse.
    fn number(&self) -> u64 {
        let facts = 2 * self.way as u64 + u64::from(self.wraps);
        let row = self.row as u64;
        let first = row.saturating_mul(Self::FACTS);
        first.saturating_add(facts)
    }

    fn from_number(number: u64) -> Self {
        let facts = number % Self::FACTS;
        ListedRow {
            row: (number / Self::FACTS) as usize,
            wraps: facts % 2 == 1,
            way: match facts / 2 {
                0 => Way::Trailing,
                1 => Way::MadeFlat,
                _ => Way::MadeWrapped,
            },
        }
    }
}

#[cfg(test)]
mod tests {
    use super::*;
    use crate::linked::sizes;

    #[test]
    fn a_row_is_its_number_and_back() {
        let row = ListedRow {
            row: 7,
            wraps: true,
            way: Way::MadeWrapped,
        };
        assert_eq!(row.number(), 7 * 6 + 2 * 2 + 1);
        for number in [0, 1, 2, 3, 4, 5, 6, 47, u64::from(u32::MAX)] {
            assert_eq!(ListedRow::from_number(number).number(), number);
        }
        let far = ListedRow::new(usize::MAX, true, Way::MadeWrapped);
        assert!(far.number() > u64::from(u32::MAX));
    }

    #[test]
    fn a_state_is_its_numbers_and_back() {
        let state = RenderState {
            next_row: 9,
            listed: (0..MAX_LISTED_ROWS as u64)
                .map(ListedRow::from_number)
                .collect(),
            ..RenderState::default()
        };
        let numbers = sizes(state.numbers());
        assert_eq!(RenderState::from_numbers(&numbers), state);
        let mut more = state.clone();
        more.listed.push(ListedRow::from_number(0));
        let count = RENDER_NUMBERS - 1;
        assert_eq!(more.numbers()[count], MAX_LISTED_ROWS as u64 + 1);
        assert_eq!(more.numbers()[count + 1..], state.numbers()[count + 1..]);
    }
}
