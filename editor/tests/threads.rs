//! The formatter that a thread keeps for the one-call functions.

mod support;

use std::{
    cell::RefCell,
    panic::{AssertUnwindSafe, catch_unwind},
    sync::mpsc::{Sender, channel},
    thread,
};

use rrufthim::{Options, fmt_parsed, fmt_written, write_tree};
use support::{SOURCE, tariff};

fn text() -> String {
    let (tree, extras) = tariff();
    let formatted = fmt_parsed(&tree, SOURCE, &extras);
    formatted.expect("a text").text
}

#[test]
fn each_thread_keeps_its_own() {
    let due = text();
    thread::scope(|scope| {
        for _ in 0..8 {
            scope.spawn(|| (0..100).for_each(|_| assert_eq!(text(), due)));
        }
    });
}

/// Formats when it is dropped.
struct AtTheEnd(Sender<String>);

impl Drop for AtTheEnd {
    fn drop(&mut self) {
        self.0.send(text()).expect("a receiver");
    }
}

thread_local! {
    static AT_THE_END: RefCell<Option<AtTheEnd>> =
        const { RefCell::new(None) };
}

/// What a thread keeps may be gone before the last call.
#[test]
fn a_thread_that_ends_may_still_format() {
    let due = text();
    for first in [true, false] {
        let (send, receive) = channel();
        let run = move || {
            if first {
                text();
            }
            AT_THE_END.set(Some(AtTheEnd(send)));
            text();
        };
        thread::spawn(run).join().expect("no panic");
        assert_eq!(receive.recv().expect("a text"), due);
    }
}

/// A panic in the function for widths takes the buffers with it, no more.
#[test]
fn a_panic_leaves_the_thread_as_good_as_new() {
    let (due, (tree, extras)) = (text(), tariff());
    let width = |_: &str| panic!("no width");
    let call = || {
        fmt_written(SOURCE, &Options::default(), |out| {
            write_tree(out, &tree, &extras.comments, width)
        })
    };
    assert!(catch_unwind(AssertUnwindSafe(call)).is_err());
    assert_eq!(text(), due);
}
