//! Which frames paths name.

use std::{
    ffi::{OsStr, OsString},
    fs,
    os::unix::{ffi::OsStrExt, fs::symlink},
    path::{Path, PathBuf},
};

use super::folder::{Folder, LINE, Said, WIDE, said};

fn hook_paths(paths: &[PathBuf]) -> Said {
    said(paths.iter().map(OsString::from))
}

/// A check of nothing doesn't pass.
#[test]
fn paths_without_a_frame_are_named() {
    let folder = Folder::new("none");
    fs::create_dir(folder.path("empty")).expect("a folder");
    folder.put("scripts/a.roto", LINE.as_bytes());
    folder.put_lines("full/a.frame", WIDE);
    for name in ["empty", "scripts"] {
        let path = folder.path(name);
        for word in ["--check", "--"] {
            let said = said([word.into(), path.clone().into()].into_iter());
            assert_eq!(said.status, 2);
            let due = format!("{}: no frame in it", path.display());
            assert_eq!(said.err, [due]);
            assert_eq!(said.out.len(), 1);
            assert!(said.last().starts_with("0 frames: 0 "), "{said:?}");
            assert!(said.last().ends_with("; 1 path failed"), "{said:?}");
        }
    }
    let some = ["empty", "full", "scripts"].map(|name| folder.path(name));
    let said = hook_paths(&some);
    let last = "1 frame: 1 changed; 2 paths failed";
    assert_eq!((said.status, said.last()), (2, last));
    assert_eq!(folder.text("full/a.roto").as_deref(), Some(LINE));
    assert_eq!(folder.text("scripts/a.roto").as_deref(), Some(LINE));
}

#[test]
fn paths_that_are_no_frame_are_named() {
    let folder = Folder::new("missing");
    folder.put("text.roto", LINE.as_bytes());
    for (name, why) in [
        ("text.roto", "its name doesn't end in .frame"),
        ("x.frame", "No such file"),
        ("x", "No such file"),
    ] {
        let said = hook_paths(&[folder.path(name)]);
        let last = "0 frames: 0 changed; 1 path failed";
        assert_eq!((said.status, said.last()), (2, last));
        assert!(said.err[0].contains(&format!("/{name}: {why}")), "{said:?}");
        assert_eq!(said.err.len(), 1);
    }
    assert_eq!(folder.text("text.roto").as_deref(), Some(LINE));
}

/// Folders in which no work of anybody's lies aren't entered, unless they
/// are named.
#[test]
fn some_folders_are_passed_over() {
    let folder = Folder::new("passed");
    for name in ["a", ".git/b", "in/.git/c", "target/d", "in/target/e"] {
        folder.put_lines(format!("{name}.frame"), WIDE);
    }
    folder.put_lines("cache/f.frame", WIDE);
    folder.put("cache/CACHEDIR.TAG", b"");
    folder.put_lines(".other/g.frame", WIDE);
    // A file of such a name is just that.
    folder.put_lines("target.frame", WIDE);
    let said = folder.run(&[]);
    assert_eq!((said.status, said.last()), (0, "3 frames: 3 changed"));
    for name in [".git/b", "in/.git/c", "target/d", "in/target/e", "cache/f"]
    {
        let target = folder.path(format!("{name}.roto"));
        assert!(!target.exists(), "{name}");
    }
    for name in [".git", "in/target", "cache"] {
        let said = hook_paths(&[folder.path(name)]);
        assert_eq!((said.status, said.last()), (0, "1 frame: 1 changed"));
    }
}

/// Each frame once, by whatever paths it is named.
#[test]
fn frames_are_counted_once() {
    let folder = Folder::new("twice");
    folder.put_lines("in/a.frame", WIDE);
    folder.put_lines("in/b.frame", WIDE);
    symlink("in", folder.path("link")).expect("a link");
    let names = ["in/a.frame", "in/a.frame", "in/../in/a.frame", "", "link"];
    let paths = names.map(|name| folder.path(name));
    let words = paths.iter().map(OsString::from);
    let check = said([OsString::from("--check")].into_iter().chain(words));
    assert_eq!(
        (check.status, check.last()),
        (1, "2 frames: 2 would change")
    );
    assert!(check.err.is_empty() && check.out.len() == 3, "{check:?}");
    let said = hook_paths(&paths);
    assert_eq!((said.status, said.last()), (0, "2 frames: 2 changed"));
}

/// A frame that is a link has a target of its own.
#[test]
fn linked_frames_are_their_own() {
    let folder = Folder::new("linked");
    folder.put_lines("a.frame", WIDE);
    symlink("a.frame", folder.path("b.frame")).expect("a link");
    symlink("nowhere", folder.path("c.frame")).expect("a link");
    let said = folder.run(&[]);
    let last = "3 frames: 2 changed, 1 failed";
    assert_eq!((said.status, said.last()), (2, last));
    assert!(said.err[0].contains("/c.frame: No such file"), "{said:?}");
    assert_eq!(folder.text("b.roto").as_deref(), Some(LINE));
}

/// Links to folders aren't followed within a folder, so none leads back, or
/// to what isn't named.
#[test]
fn links_to_folders_are_passed_over() {
    let folder = Folder::new("loops");
    folder.put_lines("in/a.frame", WIDE);
    folder.put_lines("other/b.frame", WIDE);
    symlink("..", folder.path("in/up")).expect("a link");
    symlink("../other", folder.path("in/other")).expect("a link");
    symlink("self", folder.path("in/self")).expect("a link");
    let said = hook_paths(&[folder.path("in")]);
    assert_eq!((said.status, said.last()), (0, "1 frame: 1 changed"));
    assert_eq!(folder.text("other/b.roto"), None);
    // A path that is named is followed.
    let said = hook_paths(&[folder.path("in/other")]);
    assert_eq!((said.status, said.last()), (0, "1 frame: 1 changed"));
    assert_eq!(folder.text("other/b.roto").as_deref(), Some(LINE));
}

/// Such names are shown with escapes, on one line.
#[test]
fn names_of_any_bytes() {
    let folder = Folder::new("names");
    let name = |bytes| Path::new(OsStr::from_bytes(bytes));
    folder.put_lines(name(b"\xff.frame"), WIDE);
    folder.put_lines(name(b"two\nlines.frame"), WIDE);
    folder.put_lines(name(b"a.b c.frame"), WIDE);
    let said = folder.run(&[]);
    assert_eq!((said.status, said.last()), (0, "3 frames: 3 changed"));
    assert_eq!(said.out.len(), 4, "{said:?}");
    assert!(said.out[0].ends_with("/a.b c.roto: changed"), "{said:?}");
    assert!(said.out[1].ends_with(r#"/two\nlines.roto": changed"#));
    assert!(said.out[2].ends_with(r#"/\xFF.roto": changed"#), "{said:?}");
    for target in [&b"\xff.roto"[..], b"two\nlines.roto", b"a.b c.roto"] {
        assert_eq!(folder.text(name(target)).as_deref(), Some(LINE));
    }
}
