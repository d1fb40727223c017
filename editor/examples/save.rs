//! Saves files as an editor would: `save FRAME TARGET FRAME TARGET ...`.
//! `save --help` says how it is used.
//!
//! A frame stands for what an editor has at hand, a source and its tree: four
//! bytes with the source's length, the source, the tree image.
//!
//! What stands in a target is somebody's work, as it is for the hook: it is
//! replaced only if it is the frame's source (common/put.rs). A target that is
//! the text already isn't written. Any other was changed since the frame was
//! made: it is named and left alone, and the status is 2. `--force` overwrites
//! it. Mode, owner and links are kept. Each pair is tried, whatever became of
//! those before it.

pub(crate) mod common;

use std::{
    env,
    ffi::OsString,
    io::{self, Write},
    path::{Path, PathBuf},
    process::ExitCode,
};

use rrufthim::Formatter;

use common::{
    frame::Frame,
    order::{Order, Program, Sought},
    put::{self, Text},
    report::{Fate, Report},
    shown::shown,
    target::Target,
};

/// A frame and a target.
const PAIR: usize = 2;

pub(crate) const SAVE: Program = Program {
    name: "save",
    counted: "file",
    sought: Sought::FRAMES,
    usage: "\
usage: save [--force] [--width N] [--unicode V] [--no-settings] [--]
            FRAME TARGET [FRAME TARGET]...",
    manual: MANUAL,
    takes: &["--force", "--width", "--unicode", "--no-settings"],
    fault_in,
};

const MANUAL: &str = "\
Formats each frame and writes its text, which holds every comment, to the
target behind it, if that isn't the text already. A target that is neither the
frame's source nor the text was changed since the frame was made: it is named,
and left alone. Mode, owner and links are kept. Each pair is tried, whatever
became of those before it.

  --force       overwrites what was changed since its frame was made
  --width N     lines of N columns, from 40 to 200, in place of 80
  --unicode V   columns by Unicode V, 15.1 or 16.0, in place of what the frames
                say of names and of the bytes of literals
  --no-settings passes over files of settings
  --help        says this

What isn't chosen here is as the settings of the target's folder say: those of
the nearest rrufthim.toml, in the folder itself or above it. Where they say that
comments are left out, a frame of which the text lacks one is refused.

Status: 2 if a frame is refused, a target is left alone, or something can't be
read or written; else 0. What makes it 2 is said on standard error.";

fn main() -> ExitCode {
    let (mut out, mut err) = (io::stdout().lock(), io::stderr().lock());
    ExitCode::from(run(env::args_os().skip(1), &mut out, &mut err))
}

/// All of it, for the words behind the program's name; answers the status.
pub(crate) fn run(
    words: impl Iterator<Item = OsString>,
    out: &mut dyn Write,
    err: &mut dyn Write,
) -> u8 {
    common::run(&SAVE, words, out, err, save_all)
}

fn fault_in(paths: &[PathBuf]) -> Option<String> {
    match paths.chunks(PAIR).last() {
        None => Some("no frame is given".into()),
        Some([frame]) => Some(format!("{} has no target", shown(frame))),
        Some(_) => None,
    }
}

fn save_all(order: &Order, report: &mut Report<'_>) {
    // One for all saves: its buffers are kept.
    let mut formatter = Formatter::new();
    for pair in order.paths.chunks_exact(PAIR) {
        let (frame, target) = (&pair[0], &pair[1]);
        match order.options(target) {
            Ok(options) => {
                formatter = formatter.with_options(options);
                save(&mut formatter, frame, target, order, report);
            }
            Err(error) => {
                report.end(target, Fate::Failed, &error.to_string());
            }
        }
    }
    report.sum_up();
}

/// Formats a frame and puts its text, which holds every comment, in its place.
pub(crate) fn save(
    formatter: &mut Formatter,
    path: &Path,
    target: &Path,
    order: &Order,
    report: &mut Report<'_>,
) {
    let frame = match Frame::read(path) {
        Ok(frame) => frame,
        Err(error) => return report.fail(path, &error),
    };
    let formatted = match formatter.format_file(frame.file()) {
        Ok(formatted) => formatted,
        Err(error) => return report.refuse(path, &error),
    };
    let outgrown = formatted.outgrown;
    let text = match formatted.complete() {
        Ok(text) => text.as_bytes(),
        Err(left) => {
            return report.end(path, Fate::Refused, &left.to_string());
        }
    };
    let text = Text {
        bytes: text,
        comments_left: &[],
        outgrown,
    };
    match Target::read(target) {
        Ok(target) => put::put(&target, &frame.source, &text, order, report),
        Err(error) => report.fail(target, &error),
    }
}
