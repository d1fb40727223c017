//! What the program `report` reads.

use rrufthim::encode;

use super::{
    example,
    folder::{Folder, LINE, WIDE},
    support::constants,
};

/// The status, the bytes and the words.
fn feed(folder: &Folder) -> (u8, Vec<u8>, String) {
    let (mut out, mut err) = (Vec::new(), Vec::new());
    let words = ["--feed".into(), folder.0.clone().into()];
    let status = example::run(words.into_iter(), &mut out, &mut err);
    (
        status,
        out,
        String::from_utf8(err).expect("lines for people"),
    )
}

#[test]
fn frames_become_what_the_program_reads() {
    let folder = Folder::new("feed");
    let mut due = Vec::new();
    for (name, source) in [("a.frame", WIDE), ("b.frame", LINE)] {
        let image = encode(&constants(source), &[]).expect("an image");
        folder.put_frame(name, source, &image);
        due.extend((source.len() as u32).to_be_bytes());
        due.extend((image.len() as u32).to_be_bytes());
        due.extend(source.bytes());
        due.extend(image);
    }
    // Refused by the formatter, and not here.
    folder.put_frame("c.frame", "x", b"");
    due.extend(b"\0\0\0\x01\0\0\0\0x");
    assert_eq!(feed(&folder), (0, due, String::new()));
}

/// The sample's first file is the tariff.
#[test]
fn the_sample_begins_with_the_tariff() {
    let folder = Folder::new("sample");
    folder.put("a.frame", include_bytes!("../../../samples/tariff.frame"));
    let quarter = include_bytes!("../../../samples/quarter.files");
    assert!(quarter.starts_with(&feed(&folder).1));
}

/// A table that lacks a file looks like one that doesn't.
#[test]
fn all_of_it_or_nothing() {
    let folder = Folder::new("nothing");
    folder.put_lines("a.frame", WIDE);
    folder.put("b.frame", b"\0\0\0\x09x");
    let (status, out, err) = feed(&folder);
    assert_eq!((status, out.len()), (2, 0));
    assert!(err.contains("/b.frame: cut off within its source"), "{err}");
    assert!(err.ends_with("report: nothing is written\n"), "{err}");
    let (status, out, err) = feed(&Folder::new("no-frame"));
    assert_eq!((status, out.len()), (2, 0));
    assert!(err.contains(": no frame in it\n"), "{err}");
}
