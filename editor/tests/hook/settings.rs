//! Which settings a file is formatted by.

use std::{fs, os::unix::fs::symlink, process::Command};

use rrufthim::encode;

use super::{
    folder::{Folder, LINE, WIDE},
    support::{list, list_tree},
};

/// A list that takes so many columns on a line.
fn put_list(folder: &Folder, name: &str, columns: usize) -> String {
    // What stands around the second literal takes 35.
    let long = "y".repeat(columns - 35);
    let source = list(&["x".into(), long]);
    let image = encode(&list_tree(&source), &[]).expect("an image");
    folder.put_frame(name, &source, &image);
    source
}

fn is_wrapped(folder: &Folder, name: &str) -> bool {
    let text = folder.text(name).expect("written");
    text.lines().count() > 2
}

/// The nearest file alone, in the folder or above, whatever others say.
#[test]
fn the_nearest_settings_are_a_files_own() {
    let folder = Folder::new("nearest");
    folder.put("rrufthim.toml", b"width = 60\ncomments = \"all\"\n");
    folder.put(
        "wide/rrufthim.toml",
        b"# As our print shop has it.\nwidth=100",
    );
    folder.put("wide/none/rrufthim.toml", b"");
    for name in ["a", "in/deep/b", "wide/c", "wide/in/d", "wide/none/e"] {
        put_list(&folder, &format!("{name}.frame"), 90);
        put_list(&folder, &format!("{name}-70.frame"), 70);
    }
    let said = folder.run(&[]);
    assert_eq!((said.status, said.last()), (0, "10 frames: 10 changed"));
    for (name, long, short) in [
        ("a", true, true),
        ("in/deep/b", true, true),
        ("wide/c", false, false),
        ("wide/in/d", false, false),
        ("wide/none/e", true, false),
    ] {
        assert_eq!(
            is_wrapped(&folder, &format!("{name}.roto")),
            long,
            "{name}"
        );
        let other = is_wrapped(&folder, &format!("{name}-70.roto"));
        assert_eq!(other, short, "{name}");
    }
}

/// Before settings goes what the words choose, and they can be passed over.
#[test]
fn words_go_before_settings() {
    let folder = Folder::new("before");
    folder.put("rrufthim.toml", b"width = 60\n");
    for (words, wrapped) in [
        (&[][..], true),
        (&["--width", "80"], false),
        (&["--no-settings"], false),
        (&["--no-settings", "--width", "60"], true),
    ] {
        put_list(&folder, "a.frame", 70);
        let _ = fs::remove_file(folder.path("a.roto"));
        assert_eq!(folder.run(words).status, 0);
        assert_eq!(is_wrapped(&folder, "a.roto"), wrapped, "{words:?}");
    }
}

/// Files under faulty settings stay as they are, and the others are written.
#[test]
fn faulty_settings_are_named() {
    let folder = Folder::new("faulty");
    folder.put_pair("a", WIDE);
    folder.put_pair("in/b", WIDE);
    folder.put_pair("in/c", WIDE);
    let path = folder.path("in/rrufthim.toml");
    folder.put("in/rrufthim.toml", b"\nwidth = 30\n");
    let said = folder.run(&[]);
    let last = "3 frames: 1 changed, 2 failed";
    assert_eq!((said.status, said.last()), (2, last));
    for (line, name) in said.err.iter().zip(["in/b.roto", "in/c.roto"]) {
        let name = folder.path(name);
        let due = format!(
            "{}: {}: line 2, column 9: `width` is a number from 40 to 200, \
                not 30",
            name.display(),
            fs::canonicalize(&path).expect("there").display(),
        );
        assert_eq!(line, &due);
        assert_eq!(fs::read_to_string(name).expect("there"), WIDE);
    }
    assert_eq!(folder.text("a.roto").as_deref(), Some(LINE));
    let said = folder.run(&["--no-settings"]);
    assert_eq!((said.status, said.last()), (0, "3 frames: 2 changed"));
}

/// What is no file that can be read is no settings either.
#[test]
fn settings_that_cannot_be_read_are_named() {
    let folder = Folder::new("unread");
    folder.put_pair("a", WIDE);
    let path = folder.path("rrufthim.toml");
    for (make, due) in [
        ("mkdir", "is no file"),
        ("mkfifo", "is no file"),
        ("link", "No such file"),
        ("bytes", "valid UTF-8"),
    ] {
        match make {
            "link" => symlink("nowhere", &path).expect("a link"),
            "bytes" => fs::write(&path, b"# \xff\n").expect("a file"),
            make => {
                let made = Command::new(make).arg(&path).status();
                assert!(made.expect(make).success());
            }
        }
        let said = folder.run(&[]);
        let last = "1 frame: 0 changed, 1 failed";
        assert_eq!((said.status, said.last()), (2, last));
        assert!(said.err[0].contains(due), "{said:?}");
        assert_eq!(folder.text("a.roto").as_deref(), Some(WIDE));
        match make {
            "mkdir" => fs::remove_dir(&path).expect("empty"),
            _ => fs::remove_file(&path).expect("there"),
        }
    }
}

/// A link to a file is formatted as where the link is, and a folder that is
/// reached by a link as where it lies.
#[test]
fn links_have_the_settings_of_their_folder() {
    let folder = Folder::new("linked-settings");
    let source = put_list(&folder, "narrow/a.frame", 70);
    folder.put("narrow/rrufthim.toml", b"width = 60\n");
    folder.put("other/a.roto", source.as_bytes());
    symlink("../other/a.roto", folder.path("narrow/a.roto")).expect("a link");
    assert_eq!(folder.run(&[]).status, 0);
    assert!(is_wrapped(&folder, "other/a.roto"));
    fs::remove_file(folder.path("narrow/a.roto")).expect("a link");
    symlink("narrow", folder.path("link")).expect("a link");
    let path = folder.path("link/a.frame");
    assert_eq!(super::folder::said([path.into()].into_iter()).status, 0);
    assert!(is_wrapped(&folder, "narrow/a.roto"));
}
