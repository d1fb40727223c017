//! The figures of files, for a desk lead's quarter: `report PATH...` counts
//! all frames among some paths. `report --help` says how it is used.

#[path = "../common/mod.rs"]
pub(crate) mod common;
mod feed;
mod row;

use std::{
    env,
    ffi::OsString,
    io::{self, Write},
    path::Path,
    process::ExitCode,
};

use rrufthim::{FormatError, figures};

use common::{
    find,
    frame::Frame,
    order::{Form, Order, Program, Sought},
    report::{Fate, Report},
};
use row::{Row, csv, table};

const REPORT: Program = Program {
    name: "report",
    counted: "frame",
    sought: Sought::FRAMES,
    usage: "usage: report [--csv] [--feed] [--] PATH...",
    manual: MANUAL,
    takes: &["--csv", "--feed"],
    fault_in: |paths| {
        let none = paths.is_empty();
        none.then(|| "no path is given".into())
    },
};

const MANUAL: &str = "\
Counts each frame NAME.frame that is a path, or lies in a folder that is one:
what its text gives as Roto's own formatter writes it, on lines of 80 columns.
A line for each has its figures and its name. Then come the totals, of those
counted, how many were counted and refused, and groups wrapped over groups
given. Of more than 4,096 files the first so many are counted.

  --csv       the lines of the files alone, as comma-separated values: file,
              bytes, newlines, column, given, wrapped, placed, left, refused,
              place, words
  --feed      in place of a report, what the program `report` reads: the files
              one after another, each with its two lengths. If a frame can't be
              read, nothing is written
  --help      says this

A frame that the formatter refuses counts nowhere: its line has number, place
and words of the refusal. One that can't be read is named in its line, and on
standard error.

In a folder, these are passed over: links to folders, folders named .git or
target, and folders that hold a CACHEDIR.TAG.

Status: 2 if a path has no frame, or something can't be read or written; else
0. What makes it 2 is said on standard error.";

fn main() -> ExitCode {
    let (mut out, mut err) = (io::stdout().lock(), io::stderr().lock());
    ExitCode::from(run(env::args_os().skip(1), &mut out, &mut err))
}

/// All of it, for the words behind the program's name; answers the status.
pub(crate) fn run(
    words: impl Iterator<Item = OsString>,
    out: &mut dyn Write,
    err: &mut dyn Write,
) -> u8 {
    common::run(&REPORT, words, out, err, |order, report| {
        let frames = find::files(&order.paths, report);
        match order.form {
            Form::Feed => feed::write(&frames, report),
            Form::Table | Form::Csv => count_all(order, &frames, report),
        }
    })
}

/// A line for each frame, and in a table what they give together.
fn count_all(
    order: &Order,
    frames: &[impl AsRef<Path>],
    report: &mut Report<'_>,
) {
    let (heads, line): (_, fn(&Path, &Row) -> String) = match order.form {
        Form::Csv => (csv::heads(), csv::line),
        _ => (table::heads(), table::line),
    };
    let mut counted = figures::Report::new();
    let mut refused = 0;
    report.say(&heads);
    for path in frames {
        let path = path.as_ref();
        let row = row_of(path, &mut counted, report);
        refused += usize::from(matches!(row, Row::Refused(_)));
        report.say(&line(path, &row));
    }
    if order.form == Form::Table {
        report.say(&table::foot(&counted, refused, frames.len()));
    }
}

/// What there is to say of a frame, which is counted if it can be.
fn row_of(
    path: &Path,
    counted: &mut figures::Report,
    report: &mut Report<'_>,
) -> Row {
    let frame = match Frame::read(path) {
        Ok(frame) => frame,
        Err(error) => {
            report.end(path, Fate::Failed, &error.to_string());
            return Row::Unread(error.to_string());
        }
    };
    match counted.count(frame.file()) {
        Ok(figures) => Row::Counted(figures),
        Err(error) => Row::Refused(error),
    }
}

/// The number and the place of a refusal.
pub(crate) fn numbers(error: &FormatError) -> (usize, usize) {
    match &error.cause {
        rrufthim::Cause::Refused(refusal) => {
            (refusal.number(), refusal.place())
        }
        _ => unreachable!("a count is refused by a number"),
    }
}
