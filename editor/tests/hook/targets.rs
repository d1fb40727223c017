//! What stands in a target is never lost.

use std::{
    fs::{self, Permissions},
    os::unix::fs::{MetadataExt, PermissionsExt, chown, symlink},
    path::Path,
    process,
};

use super::{
    example::common::target::{Put, Target},
    folder::{Folder, LINE, WIDE},
};

const FRAME: &[u8] = include_bytes!("../../../samples/tariff.frame");
const SCRIPT: &str = include_str!("../../../samples/tariff.roto");

fn mode(path: &Path) -> u32 {
    fs::metadata(path).expect("a file").mode() & 0o7777
}

fn set_mode(path: &Path, mode: u32) {
    let mode = Permissions::from_mode(mode);
    fs::set_permissions(path, mode).expect("its owner");
}

/// Lines that were added since the frame was made stay, until `--force`.
#[test]
fn newer_work_is_left_alone() {
    let folder = Folder::new("newer");
    folder.put("tariff.frame", FRAME);
    let added = "// Surcharge agreed\nconst SURCHARGE: u32 = 4;\n";
    let newer = [SCRIPT, added].concat();
    folder.put("tariff.roto", newer.as_bytes());
    for (word, last) in [
        ("--check", "1 frame: 0 would change, 1 left alone"),
        ("--", "1 frame: 0 changed, 1 left alone"),
    ] {
        let said = folder.run(&[word]);
        assert_eq!((said.status, said.last()), (2, last));
        let due =
            "/tariff.roto: changed since its frame was made; left alone";
        assert!(said.err[0].ends_with(due), "{said:?}");
        assert_eq!((said.out.len(), said.err.len()), (1, 1));
        assert_eq!(folder.text("tariff.roto").as_ref(), Some(&newer));
    }

    let check = folder.run(&["--check", "--force"]);
    assert_eq!((check.status, check.last()), (1, "1 frame: 1 would change"));
    assert!(check.out[0].contains("/tariff.roto: would be overwritten"));
    assert_eq!(folder.text("tariff.roto"), Some(newer));
    let force = folder.run(&["--force"]);
    assert_eq!((force.status, force.last()), (0, "1 frame: 1 changed"));
    assert!(
        force.out[0].contains("/tariff.roto: overwritten"),
        "{force:?}"
    );
    let text = folder.text("tariff.roto").expect("written");
    assert!(text.ends_with("// Filed 2026-03-01, reference 4471\n"));
}

/// What was taken away since is somebody's work too.
#[test]
fn shorter_and_empty_targets_are_left_alone() {
    let folder = Folder::new("shorter");
    folder.put("a.frame", FRAME);
    folder.put("b.frame", FRAME);
    folder.put("a.roto", b"");
    folder.put("b.roto", &SCRIPT.as_bytes()[..SCRIPT.len() - 1]);
    let said = folder.run(&[]);
    let last = "2 frames: 0 changed, 2 left alone";
    assert_eq!((said.status, said.last()), (2, last));
    assert_eq!(folder.text("a.roto").as_deref(), Some(""));
    assert_ne!(folder.text("b.roto").as_deref(), Some(SCRIPT));
}

#[test]
fn modes_are_kept() {
    let folder = Folder::new("modes");
    for given in [0o600, 0o640, 0o755] {
        folder.put_pair("a", WIDE);
        let path = folder.path("a.roto");
        set_mode(&path, given);
        assert_eq!(folder.run(&[]).status, 0);
        assert_eq!(folder.text("a.roto").as_deref(), Some(LINE));
        assert_eq!(mode(&path), given);
    }
}

/// A mode that forbids writing is heeded: a rename alone would not.
#[test]
fn read_only_files_are_left_alone() {
    let folder = Folder::new("read-only");
    folder.put_pair("a", WIDE);
    set_mode(&folder.path("a.roto"), 0o444);
    for (word, last) in [
        ("--check", "1 frame: 0 would change, 1 failed"),
        ("--force", "1 frame: 0 changed, 1 failed"),
    ] {
        let said = folder.run(&[word]);
        assert_eq!((said.status, said.last()), (2, last));
        assert!(said.err[0].ends_with("/a.roto: is read-only"), "{said:?}");
        assert_eq!(folder.text("a.roto").as_deref(), Some(WIDE));
    }
}

/// Only who may give files away can try it, root; for others, nothing is
/// shown here.
#[test]
fn owners_are_kept() {
    let folder = Folder::new("owners");
    folder.put_pair("a", WIDE);
    let path = folder.path("a.roto");
    set_mode(&path, 0o4600);
    if chown(&path, Some(1234), Some(4321)).is_err() {
        eprintln!("not tried: this user can't give files away");
        return;
    }
    set_mode(&path, 0o4600);
    assert_eq!(folder.run(&[]).status, 0);
    assert_eq!(folder.text("a.roto").as_deref(), Some(LINE));
    let about = fs::metadata(&path).expect("a file");
    assert_eq!((about.uid(), about.gid()), (1234, 4321));
    assert_eq!(mode(&path), 0o4600);
}

/// A link stays, and the file behind it is replaced, where it lies.
#[test]
fn links_are_kept() {
    let folder = Folder::new("links");
    folder.put_lines("a.frame", WIDE);
    folder.put("real/file", WIDE.as_bytes());
    set_mode(&folder.path("real/file"), 0o600);
    symlink("step", folder.path("a.roto")).expect("a link");
    symlink("real/file", folder.path("step")).expect("a link");
    assert_eq!(folder.run(&[]).status, 0);
    let link = fs::read_link(folder.path("a.roto")).expect("a link");
    assert_eq!(link, Path::new("step"));
    assert_eq!(folder.text("real/file").as_deref(), Some(LINE));
    assert_eq!(mode(&folder.path("real/file")), 0o600);
    assert_eq!(folder.names(), ["a.frame", "a.roto", "real", "step"]);
    let real = Folder(folder.path("real"));
    assert_eq!(real.names(), ["file"]);
}

/// What can't be read is named and never replaced. These are cases that root
/// can't read either; `test-hook` has a mode that forbids reading.
#[test]
fn what_can_not_be_read_is_left_alone() {
    let folder = Folder::new("unreadable");
    for name in ["a.frame", "b.frame", "c.frame", "d.frame"] {
        folder.put_lines(name, WIDE);
    }
    folder.put("a.roto/inner", b"a folder's");
    symlink("nowhere", folder.path("b.roto")).expect("a link");
    symlink("a.roto", folder.path("c.roto")).expect("a link");
    symlink("d.roto", folder.path("d.roto")).expect("a link");
    let names = folder.names();
    for words in [&["--check"][..], &[], &["--force"]] {
        let said = folder.run(words);
        assert_eq!(said.status, 2);
        assert!(said.last().ends_with(", 4 failed"), "{said:?}");
        assert_eq!(said.err.len(), 4, "{said:?}");
        let due = [
            "/a.roto: is there, and is no file",
            "/b.roto: a link that leads nowhere",
            "/c.roto: is there, and is no file",
            "/d.roto: a link that leads nowhere",
        ];
        for (line, due) in said.err.iter().zip(due) {
            assert!(line.contains(due), "{line}");
        }
        assert_eq!(folder.names(), names);
    }
    assert_eq!(folder.text("a.roto/inner").as_deref(), Some("a folder's"));
}

/// Between the reading of a target and its end it is somebody else's turn.
#[test]
fn changes_meanwhile_are_kept() {
    let folder = Folder::new("meanwhile");
    folder.put("a.roto", WIDE.as_bytes());
    symlink("a.roto", folder.path("link.roto")).expect("a link");
    let read = |name| Target::read(&folder.path(name)).expect("it is read");
    let (there, link, absent) =
        (read("a.roto"), read("link.roto"), read("b.roto"));
    let last = read("a.roto");

    folder.put("a.roto", b"saved meanwhile");
    folder.put("b.roto", b"made meanwhile");
    folder.put("c.roto", WIDE.as_bytes());
    fs::remove_file(folder.path("link.roto")).expect("a link");
    symlink("c.roto", folder.path("link.roto")).expect("a link");
    for target in [there, link, absent] {
        let put = target.replace(LINE.as_bytes()).expect("no failure");
        assert_eq!(put, Put::LeftAlone);
    }
    assert_eq!(folder.text("a.roto").as_deref(), Some("saved meanwhile"));
    assert_eq!(folder.text("b.roto").as_deref(), Some("made meanwhile"));
    assert_eq!(folder.text("c.roto").as_deref(), Some(WIDE));

    fs::remove_file(folder.path("a.roto")).expect("a file");
    let put = last.replace(LINE.as_bytes()).expect("no failure");
    assert_eq!(put, Put::LeftAlone);
    assert_eq!(folder.names(), ["b.roto", "c.roto", "link.roto"]);
}

/// A write that fails says so, and leaves nothing behind.
#[test]
fn failed_writes_leave_all_as_it_was() {
    let folder = Folder::new("writes");
    folder.put("in/a.roto", WIDE.as_bytes());
    let gone = Target::read(&folder.path("in/a.roto")).expect("it is read");
    fs::remove_dir_all(folder.path("in")).expect("a folder");
    let error = gone.replace(LINE.as_bytes()).expect_err("no folder");
    assert!(error.to_string().contains(".new: No such file"), "{error}");

    folder.put_pair("a", WIDE);
    let name = format!(".rrufthim-{}.new", process::id());
    folder.put(&name, b"somebody's");
    let said = folder.run(&[]);
    let last = "1 frame: 0 changed, 1 failed";
    assert_eq!((said.status, said.last()), (2, last));
    assert!(said.err[0].contains(&name), "{said:?}");
    assert_eq!(folder.text("a.roto").as_deref(), Some(WIDE));
    assert_eq!(folder.text(&name).as_deref(), Some("somebody's"));
}
