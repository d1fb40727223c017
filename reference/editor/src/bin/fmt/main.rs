//! Formats Roto files in place and keeps every comment. `fmt --help` says how
//! it is used.

use std::{
    env, fs,
    io::{self, Write},
    path::Path,
    process::ExitCode,
    thread,
};

use editor::{
    common::{
        self, find,
        order::{Order, Program, Sought},
        put::{self, Text},
        report::{self, Fate, Report},
        target::Target,
    },
    own,
};
use rrufthim::Formatter;

/// For the parser, which goes as deep as a file's brackets: 65,536 of them
/// take a third of it.
const STACK: usize = 512 << 20;

const FMT: Program = Program {
    name: "fmt",
    counted: "file",
    sought: Sought {
        extension: "roto",
        name: ".roto file",
        any_named: true,
    },
    usage: "\
usage: fmt [--check] [--diff] [--width N] [--unicode V] [--as-roto]
           [--no-settings] [--] PATH...",
    manual: MANUAL,
    takes: &[
        "--check",
        "--diff",
        "--width",
        "--unicode",
        "--as-roto",
        "--no-settings",
    ],
    fault_in: |paths| {
        let none = paths.is_empty();
        none.then(|| "no path is given".into())
    },
};

const MANUAL: &str = "\
Formats Roto files in place and keeps every comment: each file that is a path,
and each NAME.roto in a folder that is one. A file is replaced only if it has a
text that holds all of its comments and is read as the same file; else it is
named, with line and column where the fault has a place, and stays as it is.
Mode, owner and links are kept.

  --check       writes nothing, and says which files would change
  --diff        the same, and shows what would change, as diff -u does
  --width N     lines of N columns, from 40 to 200, in place of 80
  --unicode V   columns by Unicode V, 15.1 or 16.0, for names and literals; else
                literals are counted in bytes, as Roto's own formatter does
  --as-roto     the text of Roto's own formatter: a file of which that would
                drop comments is refused
  --no-settings passes over files of settings
  --help        says this

What isn't chosen here is as the settings of the file's folder say: those of
the nearest rrufthim.toml, in the folder itself or above it.

In a folder, these are passed over: links to folders, folders named .git or
target, and folders that hold a CACHEDIR.TAG.

Status: 2 if a file is refused or left alone, a folder has no .roto file, or
something can't be read or written; else 1 if a file would change, with --check
alone; else 0. What makes it 2 is said on standard error.";

/// All of it, on a stack of its own.
fn main() -> ExitCode {
    let large = thread::Builder::new().stack_size(STACK);
    let thread = large.spawn(run);
    let status = match thread.map(|thread| thread.join().expect("no panic")) {
        Ok(status) => status,
        Err(error) => {
            let _ = writeln!(io::stderr(), "fmt: {error}");
            report::FAILED
        }
    };
    ExitCode::from(status)
}

fn run() -> u8 {
    let (mut out, mut err) = (io::stdout().lock(), io::stderr().lock());
    let words = env::args_os().skip(1);
    common::run(&FMT, words, &mut out, &mut err, format_all)
}

fn format_all(order: &Order, report: &mut Report<'_>) {
    // One for all: its buffers are kept.
    let mut formatter = Formatter::new();
    for path in &find::files(&order.paths, report) {
        match order.options(path) {
            Ok(options) => {
                formatter = formatter.with_options(options);
                one(&mut formatter, path, order, report);
            }
            Err(error) => report.end(path, Fate::Failed, &error.to_string()),
        }
    }
    report.sum_up();
}

fn one(
    formatter: &mut Formatter,
    path: &Path,
    order: &Order,
    report: &mut Report<'_>,
) {
    match read(path) {
        Ok(target) => format(formatter, &target, order, report),
        Err(error) => report.fail(path, &error),
    }
}

/// A target may be absent; a file that is to be formatted may not.
fn read(path: &Path) -> io::Result<Target> {
    fs::metadata(path)?;
    Target::read(path)
}

/// Formats one file, whose source is what it holds.
fn format(
    formatter: &mut Formatter,
    target: &Target,
    order: &Order,
    report: &mut Report<'_>,
) {
    let Some(source) = target.held() else {
        return report.fail(target.path(), &io::ErrorKind::NotFound.into());
    };
    let own = match own::text_of(formatter, source) {
        Ok(own) => own,
        Err(why) => return report.end(target.path(), Fate::Refused, &why),
    };
    let text = Text {
        bytes: own.text.as_bytes(),
        comments_left: &[],
        outgrown: own.outgrown,
    };
    put::put(target, source, &text, order, report);
}
