//! Roto's own src/fmt.rs with the patch of editor/plug.patch, which build.rs
//! applies by git and compiles without a warning, and the hook that
//! editor/README.md shows.

use std::{fs, path::PathBuf};

use editor::{
    hook,
    roto::{
        RotoError,
        fmt::{fmt_path, fmt_str},
        parser::{Parsed, parse_next_as},
    },
};
use judge::{
    choice::Choice,
    driver, frame,
    generate::{self, Class},
    mode::NEW,
    reader, tree,
};

const SEED: u64 = 11;
const README: &str = include_str!("../../../editor/README.md");
const PATCHED: &str =
    include_str!(concat!(env!("OUT_DIR"), "/roto/src/fmt.rs"));

/// The patched function gives the original's text, and at its foot the
/// comments that the original drops.
#[test]
fn the_patch() {
    let (mut whole, mut kept) = (0, 0);
    for bytes in generate::frames(Class::Realistic, SEED, 200) {
        let frame = frame::split_any_size(&bytes).expect("a frame");
        let accepted = reader::read(frame.source, frame.image);
        let accepted = accepted.expect("accepted");
        let input = tree::Input::new(&accepted, frame.image);
        let choice = Choice {
            mode: NEW,
            ..Choice::REFERENCE
        };
        let [original, due] = [Choice::REFERENCE, choice]
            .map(|choice| driver::run_as(&input, choice));
        parse_next_as(parsed(input));
        let text = fmt_str("a.roto", accepted.source, 0);
        let text = text.unwrap_or_else(|report| panic!("{report}"));
        assert_eq!(text, due.text);
        match original.comments_left {
            0 => {
                whole += 1;
                assert_eq!(text, original.text);
            }
            _ => {
                kept += 1;
                assert_ne!(text, original.text);
            }
        }
    }
    assert!(whole > 10 && kept > 10, "{whole}, {kept}");
}

fn parsed(input: tree::Input<'_>) -> Parsed {
    let tree::Input {
        ast, spans, extras, ..
    } = input;
    Parsed { ast, spans, extras }
}

/// A file with comments, and what is parsed of it.
fn commented(check: impl FnOnce(Parsed, &str)) {
    let bytes = generate::frames(Class::Realistic, SEED, 40).find(|bytes| {
        let frame = frame::split_any_size(bytes).expect("a frame");
        reader::read(frame.source, frame.image)
            .is_ok_and(|read| read.comments.len() > 1)
    });
    let bytes = bytes.expect("one with comments");
    let frame = frame::split_any_size(&bytes).expect("a frame");
    let accepted = reader::read(frame.source, frame.image).expect("accepted");
    let input = tree::Input::new(&accepted, frame.image);
    check(parsed(input), accepted.source);
}

/// What can't be formatted is an error of Roto's own, with a label where it has
/// a place in the file.
#[test]
fn places_are_labels() {
    commented(|mut parsed, source| {
        // The second comment before the first.
        parsed.extras.comments.swap(0, 1);
        let first = parsed.extras.comments[1];
        parse_next_as(parsed);
        let report = fmt_str("a.roto", source, 0).expect_err("out of order");
        let [RotoError::Format(error)] = &report.errors[..] else {
            panic!("{report:?}");
        };
        assert_eq!(error.location, first);
        let words = report.to_string();
        assert!(words.starts_with("Format error: the file has no text\n"));
        assert!(words.contains(": line "), "{words}");
    });
}

/// A place outside the file, or none, has words alone.
#[test]
fn no_place_has_words() {
    commented(|parsed, _| {
        parse_next_as(parsed);
        let report = fmt_str("a.roto", "", 0).expect_err("no such spans");
        assert!(matches!(&report.errors[..], [RotoError::Custom(_)]));
        assert!(report.to_string().starts_with("line 1, column 1: "));
    });
}

/// What README.md shows of patch and hook is what is compiled here.
#[test]
fn what_is_shown() {
    const HOOK: &str = include_str!("../src/hook.rs");
    let (_, shown) = README.split_once("pub fn format(path").expect("a hook");
    let (shown, _) = shown.split_once("```").expect("its end");
    let (_, due) = HOOK.split_once("pub fn format(path").expect("there");
    assert_eq!(shown, due);
    let (_, diff) = README.split_once("```diff\n").expect("the patch");
    let (diff, _) = diff.split_once("```").expect("its end");
    let put_in = diff.lines().filter_map(|line| line.strip_prefix('+'));
    let put_in: Vec<_> = put_in.collect();
    // Its head, and the body of the function without its end.
    for lines in [&put_in[..1], &put_in[3..]] {
        assert!(PATCHED.contains(&lines.join("\n")), "{lines:?}");
    }
    assert!(put_in.len() > 20);
}

/// A folder that is empty at first.
fn folder(name: &str) -> PathBuf {
    let root = PathBuf::from(env!("CARGO_TARGET_TMPDIR")).join("in_roto");
    let path = root.join(name);
    if path.exists() {
        fs::remove_dir_all(&path).expect("its own");
    }
    fs::create_dir_all(&path).expect("a folder");
    path
}

/// The hook formats a file once, keeps its foot, and checks.
#[test]
fn the_hook() {
    let path = folder("hook").join("a file.roto");
    let wide = "const  A: u32 = 1;\n\n// Filed\n";
    fs::write(&path, wide).expect("a file");
    assert_eq!(hook::format(&path, true).ok(), Some(false));
    assert_eq!(fs::read_to_string(&path).expect("there"), wide);
    assert_eq!(hook::format(&path, false).ok(), Some(false));
    let text = "const A: u32 = 1;\n\n// Filed\n";
    assert_eq!(fs::read_to_string(&path).expect("there"), text);
    assert_eq!(hook::format(&path, false).ok(), Some(true));
    assert_eq!(fmt_path(&path).ok().as_deref(), Some(text));
}

/// What it can't format stays as it is.
#[test]
fn the_hook_leaves_alone_what_it_cannot_format() {
    let folder = folder("left");
    let long = format!("const A: u32 = 1;{}", " ".repeat(65_536));
    for (name, bytes, due) in [
        ("parse", &b"const = 1;\n"[..], "Parse error: "),
        ("bytes", b"// \xff\n", "invalid utf-8"),
        ("long", long.as_bytes(), ""),
    ] {
        let path = folder.join(name);
        fs::write(&path, bytes).expect("a file");
        let error = hook::format(&path, false).expect_err(name).to_string();
        assert!(error.starts_with(due), "{error}");
        assert_eq!(fs::read(&path).expect("there"), bytes);
    }
    let none = hook::format(&folder.join("none"), false);
    assert_eq!(none.expect_err("none").to_string(), "there is no such file");
    let report = fmt_path(&folder.join("none")).expect_err("none");
    assert!(report.to_string().starts_with("Could not read file "));
}
