//! A child module of `fmt`, so that it sees `State`, `Node` and `Renderer`.
//!
//! It runs them as `fmt_parsed` does, and keeps what `fmt_parsed` drops: the
//! nodes as rows, the state at each declaration, the groups that wrapped.

mod decode;
mod held;
mod layout;
mod margin;
mod noted;
mod notes;
mod render;
mod resumed;
mod start;

pub use decode::{RenderedRows, Texts, every_stop, render_rows};
pub use held::{Held, HeldTexts, format};
pub use layout::{Layout, Stop, run, run_as};
pub use margin::margins_tried;
// The build for timing keeps no notes.
#[cfg_attr(not(debug_assertions), expect(unused_imports))]
pub(super) use notes::{Notes, enter, leave, trails};
pub use render::{Page, Pen, Shown};
pub use start::Start;

use std::cell::Cell;

use crate::{choice::Choice, mode, rows::Row, rule};

thread_local! {
    static CHOICE: Cell<Choice> = const { Cell::new(Choice::REFERENCE) };
}

/// The `max` that `fmt_parsed` gets on this thread.
pub(super) fn width() -> usize {
    CHOICE.get().width
}

/// Whether `fmt_parsed` closes in the new mode on this thread.
pub(super) fn keeps_all() -> bool {
    CHOICE.get().mode == mode::NEW
}

/// What a text measures on this thread, where the original has `own`. The
/// build for timing doesn't ask for the rule.
pub(super) fn measure(text: &str, own: usize) -> usize {
    if cfg!(debug_assertions) {
        rule::measure(CHOICE.get().rule, text, own)
    } else {
        own
    }
}

/// Runs something for which `fmt_parsed` has another `max`, mode or rule.
fn with_choice<T>(choice: Choice, run: impl FnOnce() -> T) -> T {
    /// The choice before, which holds again however the run ends.
    struct Before(Choice);
    impl Drop for Before {
        fn drop(&mut self) {
            CHOICE.set(self.0);
        }
    }
    if cfg!(not(debug_assertions)) {
        assert_eq!(choice.rule, rule::SUPPLIED, "this build has no other");
    }
    let _before = Before(CHOICE.replace(choice));
    run()
}

/// Runs a part of it whose texts are measured by a rule.
fn with_rule<T>(rule: usize, run: impl FnOnce() -> T) -> T {
    let choice = Choice {
        rule,
        ..Choice::REFERENCE
    };
    with_choice(choice, run)
}

/// All that a run of the formatter on one file gives.
#[derive(Debug)]
pub struct Run {
    /// The whole document, the final `Line` included.
    pub rows: Vec<Row>,
    /// The state before each declaration, and after the last one.
    pub stops: Vec<Stop>,
    /// How far rendering is there, if it stops at the same rows.
    pub shown: Vec<Shown>,
    /// The state after closing.
    pub closed: Stop,
    pub comments_left: usize,
    pub text: String,
    /// A byte for each group number, 1 for wrapped.
    pub marks: Vec<u8>,
    /// The rendering state at the end.
    pub pen: Pen,
    /// The rows entered, 0 in the build for timing.
    pub entered: usize,
    /// The greatest value that `column` was set to, 0 before the first. The
    /// build for timing doesn't keep it.
    pub greatest_column: usize,
}
