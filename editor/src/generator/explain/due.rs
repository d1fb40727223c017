//! What may come next in a list.

/// The steps that may come next, as far as kinds and sorts go.
#[derive(Clone, Debug, Default, PartialEq, Eq)]
#[non_exhaustive]
pub struct Due {
    /// What comes is to the record that is open: its name, its value and so
    /// on; empty where that is the record's own payload, or its end.
    pub role: &'static str,
    /// A record of one of these kinds.
    pub kinds: Vec<u8>,
    /// An absent child.
    pub absent: bool,
    /// The end of the record that is open.
    pub close: bool,
    /// The text of the record that was just opened.
    pub text: bool,
    /// Its payload byte, of at most this.
    pub payload: Option<u8>,
    /// A comment.
    pub comment: bool,
    /// The list's end: the tree is closed.
    pub end: bool,
}
