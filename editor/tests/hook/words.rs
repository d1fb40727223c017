//! The words behind the program's name, and its outputs.

use std::{
    ffi::{OsStr, OsString},
    io::{self, Write},
    os::unix::ffi::OsStrExt,
};

use super::{
    example::run,
    folder::{Folder, LINE, WIDE, said},
};

const USAGE: [&str; 2] = [
    "usage: hook [--check] [--diff] [--force] [--width N] [--unicode V] \
        [--as-roto]",
    "            [--no-settings] [--] PATH...",
];

#[test]
fn what_is_not_understood_is_said_once() {
    let width = "--width takes a number from 40 to 200, ";
    let edition = "--unicode takes an edition, 15.1 or 16.0, ";
    let none = format!("{edition}and none follows");
    let faults: [(&[&str], &str); 14] = [
        (&[], "no path is given"),
        (&["--check"], "no path is given"),
        (&["--"], "no path is given"),
        (&["x.frame", "--quiet"], "--quiet is no option"),
        (&["-c", "x.frame"], "-c is no option"),
        (&["-", "x.frame"], "- is no option"),
        (&["x.frame", "--width"], &format!("{width}and none follows")),
        (&["--width", "wide", "x.frame"], &format!("{width}not wide")),
        (&["--width", "39", "x.frame"], &format!("{width}not 39")),
        (&["--width", "201", "x.frame"], &format!("{width}not 201")),
        (&["--width", "-80", "x.frame"], &format!("{width}not -80")),
        (&["x.frame", "--unicode"], &none),
        (&["--unicode", "16", "x.frame"], &format!("{edition}not 16")),
        (&["--unicode", "x.frame"], &format!("{edition}not x.frame")),
    ];
    for (words, why) in faults {
        let said = said(words.iter().map(OsString::from));
        let [first, second] = USAGE;
        let more = "hook --help says more";
        let due = [&format!("hook: {why}"), first, second, more];
        assert_eq!(said.err, due);
        assert_eq!((said.status, said.out.len()), (2, 0), "{why}");
    }
    let odd = OsStr::from_bytes(b"-\xff").to_owned();
    let said = said([odd].into_iter());
    assert_eq!(said.err[0], r#"hook: "-\xFF" is no option"#);
}

/// A fault in the words is found before anything is done.
#[test]
fn nothing_is_written_then() {
    let folder = Folder::new("words");
    folder.put_lines("a.frame", WIDE);
    folder.put_lines("b.frame", WIDE);
    for words in [&["--width", "39"][..], &["--quiet"]] {
        let said = folder.run(words);
        assert_eq!((said.status, said.err.len()), (2, 4), "{said:?}");
        assert_eq!(folder.names(), ["a.frame", "b.frame"]);
    }
}

#[test]
fn help_is_an_answer() {
    let folder = Folder::new("help");
    folder.put_lines("a.frame", WIDE);
    let said = folder.run(&["--help"]);
    assert_eq!((said.status, said.err.len()), (0, 0));
    assert_eq!(said.out[..2], USAGE);
    for option in [
        "--check",
        "--diff",
        "--force",
        "--width N",
        "--unicode V",
        "--as-roto",
        "--no-settings",
        "--help",
    ] {
        let starts =
            |line: &String| line.starts_with(&format!("  {option} "));
        assert!(said.out.iter().any(starts), "{option}");
    }
    assert_eq!(folder.names(), ["a.frame"]);
}

/// Behind `--` all words are paths.
#[test]
fn paths_may_start_with_a_dash() {
    let words = ["--", "--check"].map(OsString::from);
    let said = said(words.into_iter());
    assert_eq!(said.status, 2);
    assert!(said.err[0].starts_with("--check: No such file"), "{said:?}");
}

/// An output that takes so many writes and then fails.
struct Fails {
    left: usize,
    kind: io::ErrorKind,
}

impl Write for Fails {
    fn write(&mut self, bytes: &[u8]) -> io::Result<usize> {
        self.left = self.left.checked_sub(1).ok_or(self.kind)?;
        Ok(bytes.len())
    }

    fn flush(&mut self) -> io::Result<()> {
        Ok(())
    }
}

/// Two files that change, with an output that fails after so many writes:
/// the status, and what is said of it.
fn run_into(left: usize, kind: io::ErrorKind, word: &str) -> (u8, String) {
    let folder = Folder::new(&format!("outputs-{kind:?}"));
    folder.put_lines("a.frame", WIDE);
    folder.put_lines("b.frame", WIDE);
    let mut err = Vec::new();
    let words = [word.into(), folder.0.clone().into()].into_iter();
    let status = run(words, &mut Fails { left, kind }, &mut err);
    let written = word == "--force";
    for name in ["a.roto", "b.roto"] {
        let text = folder.text(name);
        assert_eq!(text.as_deref(), written.then_some(LINE));
    }
    (status, String::from_utf8(err).expect("lines for people"))
}

/// Who closes the output has read enough: the work is done, the status is
/// what it would have been, and nothing is said of it.
#[test]
fn closed_outputs_end_quietly() {
    for left in 0..6 {
        let closed = io::ErrorKind::BrokenPipe;
        assert_eq!(run_into(left, closed, "--force"), (0, String::new()));
        assert_eq!(run_into(left, closed, "--check"), (1, String::new()));
        assert_eq!(run_into(left, closed, "--help"), (0, String::new()));
    }
}

/// An output that is full is a failure, said once.
#[test]
fn full_outputs_are_failures() {
    for word in ["--force", "--check", "--help"] {
        let (status, err) = run_into(0, io::ErrorKind::StorageFull, word);
        assert_eq!(status, 2);
        assert!(err.starts_with("hook: standard output: "), "{err}");
        assert_eq!(err.lines().count(), 1);
    }
}
