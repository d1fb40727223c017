//! What is said, what is counted, and the status.

use std::{
    io::{self, Write},
    path::Path,
};

use rrufthim::{Cause, FormatError};

use super::{
    order::{Program, Sought},
    put::Text,
    shown::shown,
};

/// The status if something is said on standard error.
pub const FAILED: u8 = 2;
/// The status of a check, if a file would change.
pub const WOULD_CHANGE: u8 = 1;

/// What becomes of a file, or of a frame: one of these of each.
#[derive(Clone, Copy, Debug, PartialEq, Eq)]
pub enum Fate {
    /// It, or its target, is the text.
    Same,
    /// It is now, or would be.
    Changed,
    /// It has changed, and stays as it is.
    LeftAlone,
    /// The formatter has no text for it.
    Refused,
    /// It, or its target, can't be read or written.
    Failed,
}

/// Lines for people on two outputs, as things happen.
pub struct Report<'a> {
    program: &'a Program,
    out: &'a mut dyn Write,
    err: &'a mut dyn Write,
    /// Whether `out` is still read.
    open: bool,
    /// Whether anything was said on `err`.
    blamed: bool,
    /// Whether nothing is to be written.
    pub check: bool,
    fates: Vec<Fate>,
    paths_failed: usize,
}

impl<'a> Report<'a> {
    pub fn new(
        program: &'a Program,
        out: &'a mut dyn Write,
        err: &'a mut dyn Write,
    ) -> Self {
        Report {
            program,
            out,
            err,
            open: true,
            blamed: false,
            check: false,
            fates: Vec::new(),
            paths_failed: 0,
        }
    }

    /// What the program looks for in folders.
    pub fn sought(&self) -> &'a Sought {
        &self.program.sought
    }

    pub fn paths_failed(&self) -> usize {
        self.paths_failed
    }

    /// Says something on standard output. Who closed it, as `head` does, has
    /// read enough: the work goes on, and so the status is the same. Any other
    /// failure is one.
    pub fn say(&mut self, words: &str) {
        self.show(format!("{words}\n").as_bytes());
    }

    /// The same of bytes as they are.
    pub fn show(&mut self, bytes: &[u8]) {
        if !self.open {
            return;
        }
        let done = self.out.write_all(bytes);
        if let Err(error) = done.and_then(|()| self.out.flush()) {
            self.open = false;
            if error.kind() != io::ErrorKind::BrokenPipe {
                let name = self.program.name;
                self.blame(&format!("{name}: standard output: {error}"));
            }
        }
    }

    /// Says what is wrong on standard error. If that can't be written either,
    /// the status is all that is left.
    pub fn blame(&mut self, words: &str) {
        self.blamed = true;
        let _ = writeln!(self.err, "{words}");
    }

    /// A path that can't be read, or has no frame.
    pub fn fail_path(&mut self, path: &Path, why: &str) {
        self.paths_failed += 1;
        self.blame(&format!("{}: {why}", shown(path)));
    }

    /// What became of a file or a frame, said of it or of its target.
    pub fn end(&mut self, path: &Path, fate: Fate, words: &str) {
        self.fates.push(fate);
        let line = format!("{}: {words}", shown(path));
        match fate {
            Fate::Same => {}
            Fate::Changed => self.say(&line),
            Fate::LeftAlone | Fate::Refused | Fate::Failed => {
                self.blame(&line);
            }
        }
    }

    /// It, or its target, can't be read or written.
    pub fn fail(&mut self, path: &Path, error: &io::Error) {
        self.end(path, Fate::Failed, &error.to_string());
    }

    /// A frame that the formatter refuses: number and place of the refusal,
    /// and the words for it.
    pub fn refuse(&mut self, frame: &Path, error: &FormatError) {
        self.end(frame, Fate::Refused, &refused(error));
    }

    /// What is to be known of a text before it is relied on.
    pub fn remark(&mut self, target: &Path, text: &Text<'_>) {
        let target = shown(target);
        match text.comments_left {
            [] => {}
            [one] => {
                self.say(&format!("{target}: {one}: 1 comment is left out"));
            }
            [first, ..] => {
                let count = text.comments_left.len();
                let words = format!("{count} comments are left out");
                self.say(&format!(
                    "{target}: {first}: {words}, the first here"
                ));
            }
        }
        if text.outgrown {
            self.say(&format!("{target}: too long to be formatted again"));
        }
    }

    fn count(&self, fate: Fate) -> usize {
        self.fates.iter().filter(|one| **one == fate).count()
    }

    /// The last line: how many files or frames there were, and what became of
    /// those that weren't as they should be.
    pub fn sum_up(&mut self) {
        let changed = match self.check {
            true => "would change",
            false => "changed",
        };
        let (all, noun) = (self.fates.len(), self.program.counted);
        let mut line = format!("{all} {noun}{}", plural(all));
        line += &format!(": {} {changed}", self.count(Fate::Changed));
        for (count, words) in [
            (self.count(Fate::LeftAlone), "left alone"),
            (self.count(Fate::Refused), "refused"),
            (self.count(Fate::Failed), "failed"),
        ] {
            if count > 0 {
                line += &format!(", {count} {words}");
            }
        }
        if self.paths_failed > 0 {
            let paths = self.paths_failed;
            line += &format!("; {paths} path{} failed", plural(paths));
        }
        self.say(&line);
    }

    pub fn status(&self) -> u8 {
        let would_change = self.check && self.count(Fate::Changed) > 0;
        match (self.blamed, would_change) {
            (true, _) => FAILED,
            (false, true) => WOULD_CHANGE,
            (false, false) => 0,
        }
    }
}

/// Number and place of a refusal, and the words for it.
pub fn refused(error: &FormatError) -> String {
    match &error.cause {
        Cause::Refused(refusal) => {
            let (number, place) = (refusal.number(), refusal.place());
            format!("refused {number} at {place}: {error}")
        }
        _ => error.to_string(),
    }
}

fn plural(count: usize) -> &'static str {
    if count == 1 { "" } else { "s" }
}
