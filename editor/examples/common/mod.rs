//! What the programs share, `save`, the hook, the report and `reference/fmt`:
//! their words, which files paths name, what they say, their status, and the
//! one rule by which a file is replaced.

// None of them uses all of it.
#![allow(dead_code)]

pub mod diff;
pub mod find;
pub mod frame;
pub mod order;
pub mod put;
pub mod report;
pub mod shown;
pub mod target;

use std::{ffi::OsString, io::Write};

use order::{Order, Program, Stop};
use report::Report;

/// All of a program, for the words behind its name; answers the status.
pub fn run(
    program: &Program,
    words: impl Iterator<Item = OsString>,
    out: &mut dyn Write,
    err: &mut dyn Write,
    work: impl FnOnce(&Order, &mut Report<'_>),
) -> u8 {
    let mut report = Report::new(program, out, err);
    match Order::read(program, words) {
        Ok(order) => {
            report.check = order.check;
            work(&order, &mut report);
        }
        Err(Stop::Help) => report.say(&program.help()),
        Err(Stop::Fault(why)) => report.blame(&program.fault(&why)),
    }
    report.status()
}
