//! What a caller may choose.

/// What a caller may choose. The default keeps every comment, on lines of 80
/// columns, and counts these as the image says; [`Options::AS_ROTO`] is what
/// Roto's own formatter does.
///
/// ```
/// use rrufthim::{Comments, Options, Widths};
///
/// let print_shop = Options::default().with_width(100);
/// assert_eq!(print_shop.width, 100);
/// assert_eq!(print_shop.comments, Comments::All);
/// assert_eq!(Options::AS_ROTO.comments, Comments::AsRoto);
/// assert_eq!(Options::AS_ROTO.width, Options::default().width);
///
/// let tokyo = Options::default().with_widths(Widths::Unicode16_0);
/// assert_eq!(tokyo.width, 80);
/// assert_eq!(print_shop.widths, Widths::Supplied);
/// ```
#[derive(Clone, Debug, PartialEq, Eq, Hash)]
#[non_exhaustive]
pub struct Options {
    /// The columns of a line, from
    /// [`MIN_LINE_WIDTH`](crate::limits::MIN_LINE_WIDTH) to
    /// [`MAX_LINE_WIDTH`](crate::limits::MAX_LINE_WIDTH): a group that would
    /// end behind them is wrapped. Others are refused by 15.
    pub width: usize,
    /// Which comments the text holds.
    pub comments: Comments,
    /// How many columns texts take.
    pub widths: Widths,
}

/// Which comments a text holds: it is about those after the last place of the
/// last declaration where a comment can stand, such as a filing reference at
/// the foot. All others are in the text in any case.
#[derive(Clone, Copy, Debug, Default, PartialEq, Eq, Hash)]
pub enum Comments {
    /// Each comment of the list.
    #[default]
    All,
    /// Those that Roto's own formatter keeps: the ones at the foot are left
    /// out, and the answer names them.
    AsRoto,
}

impl Comments {
    /// The mode of docs/02-change-requests.md, 4: 0 old, 1 new.
    pub(crate) fn mode(self) -> usize {
        match self {
            Comments::AsRoto => 0,
            Comments::All => 1,
        }
    }
}

/// How many columns a text takes: the rule by which a line is measured.
///
/// It matters where characters take two columns, as those of Japanese do, or
/// none, as combining accents do. Roto's own formatter, and so
/// [`Supplied`](Self::Supplied), counts literals in bytes, three for most
/// characters of Japanese, and wraps lists of them that would fit. By an
/// edition of Unicode names and literals are counted alike:
/// [`columns`](crate::calls::columns) says of a text what is counted.
#[derive(Clone, Copy, Debug, Default, PartialEq, Eq, Hash)]
#[non_exhaustive]
pub enum Widths {
    /// As Roto's own formatter does: of names and the shebang the columns
    /// that the image says, of literals and all else the bytes.
    #[default]
    Supplied,
    /// By Unicode 15.1, the sum over the text's characters: 2 for a wide or
    /// fullwidth one (East_Asian_Width W or F), else 0 for a nonspacing or
    /// enclosing mark (General_Category Mn or Me), else 1. What the image
    /// says isn't looked at.
    Unicode15_1,
    /// The same by Unicode 16.0. An image of version 2, which says no columns
    /// ([`archive`](crate::archive)), is formatted by this rule alone, and by
    /// any other refused by 20.
    Unicode16_0,
}

impl Widths {
    /// The rule of docs/02-change-requests.md, 8.
    pub(crate) fn rule(self) -> usize {
        match self {
            Widths::Supplied => 1,
            Widths::Unicode15_1 => 2,
            Widths::Unicode16_0 => 3,
        }
    }
}

impl Options {
    /// What Roto's own formatter does, comments lost at the foot included.
    pub const AS_ROTO: Options = Options {
        width: 80,
        comments: Comments::AsRoto,
        widths: Widths::Supplied,
    };

    /// The same with lines of so many columns.
    #[must_use]
    pub fn with_width(mut self, width: usize) -> Self {
        self.width = width;
        self
    }

    /// The same with these comments.
    #[must_use]
    pub fn with_comments(mut self, comments: Comments) -> Self {
        self.comments = comments;
        self
    }

    /// The same with texts measured by this rule.
    #[must_use]
    pub fn with_widths(mut self, widths: Widths) -> Self {
        self.widths = widths;
        self
    }
}

impl Default for Options {
    fn default() -> Self {
        Options::AS_ROTO.with_comments(Comments::All)
    }
}
