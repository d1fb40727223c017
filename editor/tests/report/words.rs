//! The words behind the program's name, and its outputs.

use std::{
    ffi::OsString,
    io::{self, Write},
};

use super::{
    example,
    folder::{Folder, WIDE, said},
};

#[test]
fn what_is_not_understood_is_said_once() {
    for (words, why) in [
        (&[][..], "no path is given"),
        (&["--csv"], "no path is given"),
        (&["--check", "x.frame"], "--check is no option"),
    ] {
        let said = said(words.iter().map(OsString::from));
        let usage = "usage: report [--csv] [--feed] [--] PATH...";
        let due =
            [&format!("report: {why}"), usage, "report --help says more"];
        assert_eq!(said.err, due);
        assert_eq!((said.status, said.out.len()), (2, 0), "{why}");
    }
    let help = said([OsString::from("--help")].into_iter());
    assert_eq!((help.status, help.err.len()), (0, 0));
    for option in ["--csv", "--feed", "--help"] {
        let starts =
            |line: &String| line.starts_with(&format!("  {option} "));
        assert!(help.out.iter().any(starts), "{option}");
    }
}

/// An output that takes so many writes and then fails.
struct Fails(usize, io::ErrorKind);

impl Write for Fails {
    fn write(&mut self, bytes: &[u8]) -> io::Result<usize> {
        self.0 = self.0.checked_sub(1).ok_or(self.1)?;
        Ok(bytes.len())
    }

    fn flush(&mut self) -> io::Result<()> {
        Ok(())
    }
}

/// Who closes the output has read enough; one that is full is a failure.
#[test]
fn outputs_that_fail() {
    let folder = Folder::new("outputs");
    folder.put_lines("a.frame", WIDE);
    let run = |left, kind, word: &str| {
        let mut err = Vec::new();
        let words = [word.into(), folder.0.clone().into()].into_iter();
        let status = example::run(words, &mut Fails(left, kind), &mut err);
        (status, String::from_utf8(err).expect("lines for people"))
    };
    for word in ["--", "--csv", "--feed"] {
        for left in 0..3 {
            let closed = io::ErrorKind::BrokenPipe;
            assert_eq!(run(left, closed, word), (0, String::new()));
        }
        let (status, err) = run(0, io::ErrorKind::StorageFull, word);
        assert_eq!((status, err.lines().count()), (2, 1));
        assert!(err.starts_with("report: standard output: "), "{err}");
    }
}
