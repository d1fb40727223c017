//! Widths as an image supplies them, else those of the real `unicode-width`.
//!
//! The formatter asks for the width of a text by this crate's name. A text is
//! known by its address, since equal texts may carry different widths.

use std::{cell::RefCell, collections::HashMap};

thread_local! {
    static SUPPLIED: RefCell<HashMap<usize, usize>> = RefCell::default();
}

/// Widths that hold in this thread until this value is dropped.
pub struct Supplied(());

impl Supplied {
    /// Takes pairs of a text's address and its width.
    pub fn new(widths: impl IntoIterator<Item = (usize, usize)>) -> Self {
        SUPPLIED.with_borrow_mut(|map| {
            assert!(map.is_empty(), "one set of widths at a time");
            map.extend(widths);
        });
        Supplied(())
    }
}

impl Drop for Supplied {
    fn drop(&mut self) {
        SUPPLIED.with_borrow_mut(HashMap::clear);
    }
}

/// The width by Unicode alone.
pub fn true_width(text: &str) -> usize {
    real::UnicodeWidthStr::width(text)
}

/// The trait by which the formatter asks.
pub trait UnicodeWidthStr {
    fn width(&self) -> usize;
}

impl UnicodeWidthStr for str {
    fn width(&self) -> usize {
        let address = self.as_ptr().addr();
        SUPPLIED
            .with_borrow(|map| map.get(&address).copied())
            .unwrap_or_else(|| true_width(self))
    }
}
