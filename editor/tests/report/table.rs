//! The lines for people.

use std::{ffi::OsStr, fs, os::unix::ffi::OsStrExt, path::Path};

use rrufthim::{File, encode, figures::Report};

use super::{
    folder::{Folder, LINE, WIDE},
    support::{SOURCE, constants, tariff_image},
};

pub(crate) const HEADS: &str = "     bytes   newlines     column      given    \
    wrapped     placed       left file";
/// The figures of `LINE`.
const PLAIN: &str = "        18          1         17          1          0          \
    0          0 ";
const NONE: &str = "         -          -          -          -          -          \
    -          - ";

/// A folder with files that are counted, refused and unread.
pub(crate) fn mixed(name: &str) -> Folder {
    let folder = Folder::new(name);
    folder.put_lines("a b.frame", WIDE);
    folder.put_frame("tariff.frame", SOURCE, &tariff_image());
    let image = encode(&constants(LINE), &[0..5]).expect("an image");
    folder.put_frame("in/damaged.frame", "const\n", &image);
    folder.put_frame("two.frame", "", b"\x02");
    folder.put("cut.frame", b"\0\0\0\x09x");
    folder
}

/// The tariff's figures as the crate counts them.
fn tariff_figures() -> String {
    let image = tariff_image();
    let mut report = Report::new();
    let tariff = report.count(File::new(SOURCE, &image)).expect("counted");
    let cells = [
        tariff.bytes,
        tariff.newlines,
        tariff.column,
        tariff.given,
        tariff.wrapped,
        tariff.placed,
        tariff.left,
    ];
    cells.map(|cell| format!("{cell:>10} ")).concat()
}

#[test]
fn a_line_for_each_file_and_the_totals() {
    let folder = mixed("mixed");
    let said = folder.run(&[]);
    assert_eq!(said.status, 2);
    let name = |name: &str| folder.path(name).display().to_string();
    let figures = tariff_figures() + &name("tariff.frame");
    assert_eq!(said.out[0], HEADS);
    assert_eq!(said.out[1], PLAIN.to_owned() + &name("a b.frame"));
    let cut = format!("{NONE}{}: not read: cut off", name("cut.frame"));
    assert!(said.out[2].starts_with(&cut), "{said:?}");
    let damaged =
        format!("{NONE}{}: refused 6 at ", name("in/damaged.frame"));
    assert!(said.out[3].starts_with(&damaged), "{said:?}");
    // Words, with the place in the source.
    assert!(said.out[3].contains(": line "), "{said:?}");
    assert_eq!(said.out[4], figures);
    let two = format!("{NONE}{}: refused 20 at 0: the", name("two.frame"));
    assert!(said.out[5].starts_with(&two), "{said:?}");
    assert_eq!(said.out[6].split_whitespace().last(), Some("total"));
    let foot = [
        "files counted: 2",
        "files refused: 2",
        "wrapped over given, reduced: 3 over 14",
        "files not read: 1",
    ];
    assert_eq!(said.out[7..], foot);
    let cut = format!("{}: cut off within its source", name("cut.frame"));
    assert_eq!(said.err, [cut]);
}

/// Refused files alone are no failure of the report.
#[test]
fn refused_files_are_lines() {
    let folder = Folder::new("refused");
    folder.put_frame("a.frame", "", b"\x03");
    let said = folder.run(&[]);
    assert_eq!((said.status, said.err.len(), said.out.len()), (0, 0, 6));
    assert!(said.out[1].contains("a.frame: refused 3 at 0: the tree image"));
    assert!(said.out[2].ends_with(" total"));
    assert_eq!(said.last(), "wrapped over given, reduced: 0 over 1");
}

/// Whatever their names are: escapes, where a line would break.
#[test]
fn names_of_any_bytes() {
    let folder = Folder::new("names");
    for name in [&b"\xff.frame"[..], b"two\nlines.frame", b"a.b c.frame"] {
        folder.put_lines(Path::new(OsStr::from_bytes(name)), WIDE);
    }
    let said = folder.run(&[]);
    assert_eq!((said.status, said.out.len()), (0, 8), "{said:?}");
    assert!(said.out[1].ends_with("/a.b c.frame"), "{said:?}");
    assert!(said.out[2].ends_with(r#"/two\nlines.frame""#), "{said:?}");
    assert!(said.out[3].ends_with(r#"/\xFF.frame""#), "{said:?}");
}

#[test]
fn three_hundred_files() {
    let folder = Folder::new("many");
    for number in 0..300 {
        folder.put_lines(format!("{}/{number:03}.frame", number % 7), WIDE);
    }
    let said = folder.run(&[]);
    assert_eq!((said.status, said.out.len()), (0, 305));
    assert_eq!(said.out[302], "files counted: 300");
    let total = "      5400        300         17        300          0          \
        0          0 total";
    assert_eq!(said.out[301], total);
}

#[test]
fn paths_without_a_frame_are_named() {
    let folder = Folder::new("empty");
    let said = folder.run(&[]);
    assert_eq!((said.status, said.out.len()), (2, 5), "{said:?}");
    let due = format!("{}: no frame in it", folder.0.display());
    assert_eq!(said.err, [due]);
    fs::write(folder.path("x"), b"").expect("a file");
    let said = super::folder::said([folder.path("x").into()].into_iter());
    assert_eq!(said.status, 2);
    assert!(said.err[0].ends_with("x: its name doesn't end in .frame"));
}
