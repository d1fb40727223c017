//! What a call is told to do.

use crate::limits::ALL_ROWS;

/// What a layout call is told to do.
///
/// ```
/// use rrufthim::calls::LayoutArgs;
///
/// let all_of_two = LayoutArgs::up_to(2).with_close(true);
/// assert_eq!((all_of_two.stop, all_of_two.close), (2, true));
/// ```
#[derive(Clone, Debug, PartialEq, Eq, Hash)]
#[non_exhaustive]
pub struct LayoutArgs {
    /// The declaration to stop before.
    pub stop: usize,
    /// Whether to close, which is allowed where all declarations are laid
    /// out: the comments that are still waiting come behind them, where every
    /// comment is kept, and then the final line.
    pub close: bool,
}

impl LayoutArgs {
    /// Lay out up to this declaration, that one not included, and don't
    /// close.
    pub fn up_to(stop: usize) -> Self {
        LayoutArgs { stop, close: false }
    }

    /// The same, and close or don't.
    #[must_use]
    pub fn with_close(mut self, close: bool) -> Self {
        self.close = close;
        self
    }
}

/// What a rendering call is told to do.
#[derive(Clone, Debug, PartialEq, Eq, Hash)]
#[non_exhaustive]
pub struct RenderArgs {
    /// The row to stop before.
    pub stop: usize,
    /// How many rows may be entered; at least one.
    pub allotment: usize,
}

impl RenderArgs {
    /// Render up to this row, that one not included, whatever rows there are.
    pub fn up_to(stop: usize) -> Self {
        RenderArgs {
            stop,
            allotment: ALL_ROWS,
        }
    }

    /// The same, but enter at most so many rows and stop when they are spent,
    /// wherever that is: the next call goes on from there.
    #[must_use]
    pub fn with_allotment(mut self, rows: usize) -> Self {
        self.allotment = rows;
        self
    }
}
