//! Which texts are written, and which frames have none.

use rrufthim::{Version, ast::*, encode, encode_as, limits::MAX_BATCH};

use super::{
    folder::{Folder, LINE, Said, WIDE},
    support::{SOURCE, constants, list, list_tree, tariff_image, towns},
};

/// The status and the last line.
fn ends(said: &Said) -> (u8, &str) {
    (said.status, said.last())
}

#[test]
fn texts_are_written_where_they_change() {
    let folder = Folder::new("changes");
    folder.put_pair("a", WIDE);
    folder.put_lines("in/b.frame", LINE);
    folder.put("in/b.roto", LINE.as_bytes());
    folder.put("in/other.txt", b"no frame");
    let first = folder.run(&["--check"]);
    assert_eq!(ends(&first), (1, "2 frames: 1 would change"));
    assert!(first.out[0].ends_with("/a.roto: would change"), "{first:?}");
    assert_eq!(folder.text("a.roto").as_deref(), Some(WIDE));

    let second = folder.run(&[]);
    assert_eq!(ends(&second), (0, "2 frames: 1 changed"));
    assert!(second.out[0].ends_with("/a.roto: changed"), "{second:?}");
    assert_eq!(folder.text("a.roto").as_deref(), Some(LINE));
    assert_eq!(folder.text("in/b.roto").as_deref(), Some(LINE));
    assert_eq!(folder.names(), ["a.frame", "a.roto", "in"]);

    for (word, last) in [
        ("--check", "2 frames: 0 would change"),
        ("--force", "2 frames: 0 changed"),
    ] {
        let third = folder.run(&[word]);
        assert_eq!(ends(&third), (0, last));
        assert!(third.out.len() == 1 && third.err.is_empty());
    }
}

/// A target that isn't there is written, and `--check` says that it would be.
#[test]
fn absent_targets_are_written() {
    let folder = Folder::new("absent");
    folder.put_lines("a.frame", WIDE);
    let check = folder.run(&["--check"]);
    assert_eq!(ends(&check), (1, "1 frame: 1 would change"));
    assert!(check.out[0].ends_with("/a.roto: would change"), "{check:?}");
    assert_eq!(folder.names(), ["a.frame"]);
    assert_eq!(ends(&folder.run(&[])), (0, "1 frame: 1 changed"));
    assert_eq!(folder.text("a.roto").as_deref(), Some(LINE));
    assert_eq!(folder.names(), ["a.frame", "a.roto"]);
}

/// What has no text is named, with number, place and words where the
/// formatter refuses it; the others are written all the same.
#[test]
fn frames_without_a_text_are_named() {
    let folder = Folder::new("refused");
    folder.put_lines("a.frame", LINE);
    let image = encode(&constants(LINE), &[0..5]).expect("an image");
    folder.put_frame("b.frame", "const", &image);
    folder.put_frame("c.frame", "", b"\x03");
    folder.put_frame("g.frame", "", b"\x02");
    folder.put("d.frame", b"\0\0\0\x09x");
    folder.put("e.frame", b"");
    folder.put_lines("f.frame", LINE);
    for name in ["b.roto", "c.roto", "d.roto", "e.roto", "g.roto"] {
        folder.put(name, b"as it was");
    }
    let check = folder.run(&["--check"]);
    let last = "7 frames: 2 would change, 3 refused, 2 failed";
    assert_eq!(ends(&check), (2, last));
    assert_eq!(folder.text("a.roto"), None);
    let said = folder.run(&["--force"]);
    assert_eq!(ends(&said), (2, "7 frames: 2 changed, 3 refused, 2 failed"));
    assert_eq!(folder.text("a.roto").as_deref(), Some(LINE));
    assert_eq!(folder.text("f.roto").as_deref(), Some(LINE));
    for name in ["b.roto", "c.roto", "d.roto", "e.roto", "g.roto"] {
        assert_eq!(folder.text(name).as_deref(), Some("as it was"));
    }
    assert_eq!(said.err.len(), 5, "{said:?}");
    let due = [
        "/b.frame: refused 6 at 45: line 1, column 6: the tree has the \
         span 6..7, which is no range",
        "/c.frame: refused 3 at 0: the tree image's version or length is wrong",
        "/d.frame: cut off",
        "/e.frame: no frame",
        "/g.frame: refused 20 at 0: the tree image is of version 2",
    ];
    for (line, due) in said.err.iter().zip(due) {
        assert!(line.contains(due), "{line}");
    }
}

/// A frame of an archive says no widths: by Unicode 16.0 it has the text of a
/// frame that does, and by any other rule it is named.
#[test]
fn archived_frames_ask_for_unicode_16() {
    let folder = Folder::new("archived");
    let tree = constants(LINE);
    let image = encode_as(Version::Two, &tree, &[]).expect("an image");
    folder.put_frame("a.frame", LINE, &image);
    for words in [&["--check"][..], &["--unicode", "15.1"]] {
        let said = folder.run(words);
        assert_eq!(said.status, 2);
        let due = "/a.frame: refused 20 at 0: the tree image is of version \
            2, which has no widths: choose those of Unicode 16.0, or move it \
            back to version 1";
        assert!(said.err[0].ends_with(due), "{said:?}");
        assert_eq!(folder.names(), ["a.frame"]);
    }
    let said = folder.run(&["--unicode", "16.0"]);
    assert_eq!(ends(&said), (0, "1 frame: 1 changed"));
    assert_eq!(folder.text("a.roto").as_deref(), Some(LINE));
}

/// More than one batch, and a file that is too large for one.
#[test]
fn folders_of_any_size() {
    let folder = Folder::new("many");
    let frames = 2 * MAX_BATCH + 1;
    for place in 0..frames {
        folder.put_lines(format!("{place}.frame"), LINE);
    }
    let long = LINE.repeat(300);
    folder.put_lines("long.frame", &long);
    let ends_with = |words: &[&str], status, last: &str| {
        assert_eq!(ends(&folder.run(words)), (status, last));
    };
    ends_with(&["--check"], 1, "514 frames: 514 would change");
    ends_with(&[], 0, "514 frames: 514 changed");
    assert_eq!(folder.text("long.roto"), Some(long));
    let last = format!("{}.roto", frames - 1);
    assert_eq!(folder.text(last).as_deref(), Some(LINE));
    ends_with(&["--check"], 0, "514 frames: 0 would change");
}

#[test]
fn comments_are_chosen() {
    let folder = Folder::new("comments");
    folder.put_frame("tariff.frame", SOURCE, &tariff_image());
    assert_eq!(ends(&folder.run(&[])), (0, "1 frame: 1 changed"));
    let whole = folder.text("tariff.roto").expect("written");
    assert!(whole.ends_with("// Filing reference 44-B.\n"), "{whole}");

    // The comment is left out only of a file that the frame holds.
    let kept = folder.run(&["--as-roto"]);
    assert_eq!(ends(&kept), (2, "1 frame: 0 changed, 1 left alone"));
    assert_eq!(kept.out.len(), 1, "{kept:?}");
    assert_eq!(folder.text("tariff.roto"), Some(whole));

    folder.put("tariff.roto", SOURCE.as_bytes());
    let roto = folder.run(&["--as-roto"]);
    assert_eq!(ends(&roto), (0, "1 frame: 1 changed"));
    let due = "/tariff.roto: line 7, column 1: 1 comment is left out";
    assert!(roto.out[0].ends_with(due), "{roto:?}");
    let lacking = folder.text("tariff.roto").expect("written");
    assert!(lacking.ends_with("}\n"), "{lacking}");
}

/// `const A: u32 = [const, const, const, con];`: 41 columns without its
/// semicolon.
fn list_image() -> Vec<u8> {
    let mut tree = constants(LINE);
    let [Declaration::Const(constant)] = &mut tree.declarations[..] else {
        panic!("one constant");
    };
    let literal = |span: Span| {
        let literal = Literal::Integer(1, None);
        let literal = Meta::new(literal, span.clone());
        Meta::new(Expr::Literal(literal), span)
    };
    let list = [0..5, 0..5, 0..5, 0..3].map(literal);
    constant.expr = Meta::new(Expr::List(list.into()), 0..0);
    encode(&tree, &[]).expect("an image")
}

#[test]
fn widths_are_chosen() {
    let folder = Folder::new("widths");
    folder.put_frame("list.frame", LINE, &list_image());
    for (width, lines) in [("40", 6), ("41", 1), ("200", 1)] {
        folder.put("list.roto", LINE.as_bytes());
        let said = folder.run(&["--width", width]);
        assert_eq!(ends(&said), (0, "1 frame: 1 changed"));
        let text = folder.text("list.roto").expect("written");
        assert_eq!(text.lines().count(), lines, "{text}");
    }
}

/// A list of Japan's towns that fits a line, by an edition of Unicode.
#[test]
fn an_edition_is_chosen() {
    let folder = Folder::new("unicode");
    let source = list(&towns(0));
    let image = encode(&list_tree(&source), &[]).expect("an image");
    folder.put_frame("list.frame", &source, &image);
    for edition in ["15.1", "16.0"] {
        folder.put("list.roto", source.as_bytes());
        let said = folder.run(&["--unicode", edition]);
        assert_eq!(ends(&said), (0, "1 frame: 0 changed"));
    }
    let said = folder.run(&[]);
    assert_eq!(ends(&said), (0, "1 frame: 1 changed"));
    let wrapped = folder.text("list.roto").expect("written");
    assert_eq!(wrapped.lines().count(), 8, "{wrapped}");
}
