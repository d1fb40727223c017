//! What a repository's hook runs: all frames of some folders, formatted in
//! batches, or looked at whether they are. `hook --help` says how it is used.
//!
//! What stands in a target is somebody's work: it is replaced only if the
//! frame holds it (../common/put.rs).

#[path = "../common/mod.rs"]
pub(crate) mod common;

use std::{
    env,
    ffi::OsString,
    io::{self, Write},
    path::{Path, PathBuf},
    process::ExitCode,
};

use rrufthim::{
    Batch, Formatted, Options, limits::MAX_BATCH, settings::SettingsError,
};

use common::{
    find,
    frame::Frame,
    order::{Order, Program, Sought},
    put::{self, Text},
    report::{Fate, Report},
    target::Target,
};

const HOOK: Program = Program {
    name: "hook",
    counted: "frame",
    sought: Sought::FRAMES,
    usage: "\
usage: hook [--check] [--diff] [--force] [--width N] [--unicode V] [--as-roto]
            [--no-settings] [--] PATH...",
    manual: MANUAL,
    takes: &[
        "--check",
        "--diff",
        "--force",
        "--width",
        "--unicode",
        "--as-roto",
        "--no-settings",
    ],
    fault_in: |paths| {
        let none = paths.is_empty();
        none.then(|| "no path is given".into())
    },
};

const MANUAL: &str = "\
Formats each frame NAME.frame that is a path, or lies in a folder that is one,
and writes its text beside it as NAME.roto, if that isn't the text already.
A NAME.roto that is neither the frame's source nor the text was changed since
the frame was made: it is named, and left alone.

  --check       writes nothing, and says which files would change
  --diff        the same, and shows what would change, as diff -u does
  --force       overwrites what was changed since its frame was made
  --width N     lines of N columns, from 40 to 200, in place of 80
  --unicode V   columns by Unicode V, 15.1 or 16.0, in place of what the frames
                say of names and of the bytes of literals
  --as-roto     as Roto's own formatter does it: comments after the last
                declaration are left out
  --no-settings passes over files of settings
  --help        says this

What isn't chosen here is as the settings of the file's folder say: those of
the nearest rrufthim.toml, in the folder itself or above it.

In a folder, these are passed over: links to folders, folders named .git or
target, and folders that hold a CACHEDIR.TAG.

Status: 2 if a frame is refused, a file is left alone, a path has no frame, or
something can't be read or written; else 1 if a file would change, with
--check alone; else 0. What makes it 2 is said on standard error.";

fn main() -> ExitCode {
    let (mut out, mut err) = (io::stdout().lock(), io::stderr().lock());
    ExitCode::from(run(env::args_os().skip(1), &mut out, &mut err))
}

/// All of it, for the words behind the program's name; answers the status.
pub(crate) fn run(
    words: impl Iterator<Item = OsString>,
    out: &mut dyn Write,
    err: &mut dyn Write,
) -> u8 {
    common::run(&HOOK, words, out, err, format_all)
}

/// A frame, and what its text is formatted by.
struct Job {
    frame: PathBuf,
    options: Result<Options, SettingsError>,
}

fn format_all(order: &Order, report: &mut Report<'_>) {
    let frames = find::files(&order.paths, report);
    let jobs = frames.into_iter().map(|frame| {
        let options = order.options(&target(&frame));
        Job { frame, options }
    });
    // One for all: its buffers are kept.
    let mut batch = Batch::new();
    let jobs: Vec<_> = jobs.collect();
    for alike in jobs.chunk_by(|a, b| a.options == b.options) {
        for some in alike.chunks(MAX_BATCH) {
            match &some[0].options {
                Ok(options) => {
                    batch = batch.with_options(options.clone());
                    format(&mut batch, some, order, report);
                }
                Err(error) => fail(some, error, report),
            }
        }
    }
    report.sum_up();
}

/// Where the text of a frame goes.
fn target(frame: &Path) -> PathBuf {
    frame.with_extension("roto")
}

/// Frames whose settings can't be read.
fn fail(jobs: &[Job], error: &SettingsError, report: &mut Report<'_>) {
    for job in jobs {
        report.end(&target(&job.frame), Fate::Failed, &error.to_string());
    }
}

/// Formats some frames, and writes what changes, in their order.
fn format(
    batch: &mut Batch,
    jobs: &[Job],
    order: &Order,
    report: &mut Report<'_>,
) {
    let read = jobs.iter().map(|job| Frame::read(&job.frame));
    let read: Vec<_> = read.collect();
    let files = read.iter().flatten().map(Frame::file);
    let mut answers = batch.format_files(files).into_iter();
    for (Job { frame: path, .. }, frame) in jobs.iter().zip(&read) {
        let answer = frame.as_ref().map(|frame| (frame, answers.next()));
        match answer {
            Ok((frame, Some(Ok(formatted)))) => {
                put(path, frame, &formatted, order, report);
            }
            Ok((_, Some(Err(error)))) => report.refuse(path, &error),
            Ok((_, None)) => unreachable!("each file has its answer"),
            Err(error) => report.fail(path, error),
        }
    }
}

/// Puts a text beside its frame, or says that it should be there.
fn put(
    path: &Path,
    frame: &Frame,
    formatted: &Formatted,
    order: &Order,
    report: &mut Report<'_>,
) {
    let place = target(path);
    let text = Text {
        bytes: formatted.text.as_bytes(),
        comments_left: &formatted.comments_left,
        outgrown: formatted.outgrown,
    };
    match Target::read(&place) {
        Ok(target) => {
            put::put(&target, &frame.source, &text, order, report);
        }
        Err(error) => report.fail(&place, &error),
    }
}
