//! A line of a difference.

/// The two texts of a difference.
#[derive(Clone, Copy, Debug, PartialEq, Eq)]
pub enum Side {
    Old,
    New,
}

/// A line, with its newline if it has one.
#[derive(Clone, Copy, Debug, PartialEq, Eq)]
pub enum Line<'t> {
    Kept(&'t [u8]),
    Only(Side, &'t [u8]),
}

impl Line<'_> {
    pub fn is_kept(&self) -> bool {
        matches!(self, Line::Kept(_))
    }

    pub fn is_of(&self, side: Side) -> bool {
        match self {
            Line::Kept(_) => true,
            Line::Only(of, _) => *of == side,
        }
    }

    /// Adds it, with the sign before it and the words for a last line without
    /// a newline.
    pub fn write(&self, out: &mut Vec<u8>) {
        let (sign, text) = match self {
            Line::Kept(text) => (b' ', text),
            Line::Only(Side::Old, text) => (b'-', text),
            Line::Only(Side::New, text) => (b'+', text),
        };
        out.push(sign);
        out.extend(*text);
        if !text.ends_with(b"\n") {
            out.extend(b"\n\\ No newline at end of file\n");
        }
    }
}
