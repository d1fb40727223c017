//! The example that saves: what it writes, what it leaves alone, what it says,
//! and its status. `test-save` runs it as a process.

mod support;

#[allow(dead_code)]
#[path = "../examples/save.rs"]
mod example;

use std::{
    ffi::OsString,
    fs::{self, Permissions},
    os::unix::fs::{MetadataExt, PermissionsExt, symlink},
    path::{Path, PathBuf},
};

use example::{
    SAVE,
    common::{order::Order, report::Report},
    run, save,
};
use rrufthim::{Formatter, Options, encode};
use support::{SOURCE, constants, list, list_tree, tariff_image, towns};

const LINE: &str = "const A: u32 = 1;\n";
/// A source whose text is `LINE`.
const WIDE: &str = "\n const A: u32 = 1;";
/// `WIDE`, and a line that was added to it since.
const NEWER: &str = "\n const A: u32 = 1;\n// Surcharge agreed\n";
const USAGE: [&str; 2] = [
    "usage: save [--force] [--width N] [--unicode V] [--no-settings] [--]",
    "            FRAME TARGET [FRAME TARGET]...",
];

/// A folder that is empty at first.
struct Folder(PathBuf);

/// What was said, and the status.
#[derive(Debug, PartialEq, Eq)]
struct Said {
    status: u8,
    out: Vec<String>,
    err: Vec<String>,
}

impl Folder {
    fn new(name: &str) -> Self {
        let root = concat!(env!("CARGO_TARGET_TMPDIR"), "/save");
        let path = PathBuf::from(root).join(name);
        if path.exists() {
            fs::remove_dir_all(&path).expect("its own");
        }
        fs::create_dir_all(&path).expect("a folder");
        Folder(path)
    }

    fn path(&self, name: &str) -> PathBuf {
        self.0.join(name)
    }

    fn put(&self, name: &str, bytes: impl AsRef<[u8]>) {
        fs::write(self.path(name), bytes).expect("a file");
    }

    /// The frame of `WIDE`.
    fn put_frame(&self, name: &str) {
        let image = encode(&constants(WIDE), &[]).expect("an image");
        self.put(name, frame(WIDE, &image));
    }

    fn text(&self, name: &str) -> Option<String> {
        fs::read_to_string(self.path(name)).ok()
    }

    /// The names of all that is in it.
    fn names(&self) -> Vec<OsString> {
        let inner = fs::read_dir(&self.0).expect("a folder");
        let names = inner.map(|one| one.expect("a name").file_name());
        let mut names: Vec<_> = names.collect();
        names.sort();
        names
    }

    /// Runs it with these options, and names of this folder.
    fn save(&self, options: &[&str], names: &[&str]) -> Said {
        let options = options.iter().map(OsString::from);
        let names = names.iter().map(|name| self.path(name).into());
        said(options.chain(names))
    }

    /// A line about a file of this folder.
    fn line(&self, name: &str, words: &str) -> String {
        format!("{}: {words}", self.path(name).display())
    }
}

fn said(words: impl Iterator<Item = OsString>) -> Said {
    let (mut out, mut err) = (Vec::new(), Vec::new());
    let status = run(words, &mut out, &mut err);
    let lines = |bytes| {
        let text = String::from_utf8(bytes).expect("lines for people");
        text.lines().map(str::to_owned).collect()
    };
    Said {
        status,
        out: lines(out),
        err: lines(err),
    }
}

fn frame(source: &str, image: &[u8]) -> Vec<u8> {
    let length = (source.len() as u32).to_be_bytes();
    [&length, source.as_bytes(), image].concat()
}

fn mode(path: &Path) -> u32 {
    fs::metadata(path).expect("a file").mode() & 0o7777
}

fn set_mode(path: &Path, mode: u32) {
    let mode = Permissions::from_mode(mode);
    fs::set_permissions(path, mode).expect("its owner");
}

/// A target that isn't there, or is the frame's source.
#[test]
fn a_whole_text_is_saved() {
    let folder = Folder::new("whole");
    folder.put_frame("a.frame");
    for before in [None, Some(WIDE)] {
        if let Some(before) = before {
            folder.put("a.roto", before);
        }
        let said = folder.save(&[], &["a.frame", "a.roto"]);
        let changed = folder.line("a.roto", "changed");
        assert_eq!(said.out, [changed, "1 file: 1 changed".into()]);
        assert_eq!((said.status, said.err.len()), (0, 0));
        assert_eq!(folder.text("a.roto").as_deref(), Some(LINE));
        assert_eq!(folder.names(), ["a.frame", "a.roto"]);
    }
}

/// A target that is the text already isn't written: its file is the same one,
/// and may be read-only.
#[test]
fn the_text_itself_is_not_written() {
    let folder = Folder::new("same");
    folder.put_frame("a.frame");
    folder.put("a.roto", LINE);
    let path = folder.path("a.roto");
    set_mode(&path, 0o444);
    let file = |path| fs::metadata(path).expect("a file").ino();
    let before = file(&path);
    for options in [&[][..], &["--force"]] {
        let said = folder.save(options, &["a.frame", "a.roto"]);
        assert_eq!((said.status, said.err.len()), (0, 0));
        assert_eq!(said.out, ["1 file: 0 changed"]);
        assert_eq!((file(&path), mode(&path)), (before, 0o444));
    }
}

/// The filing reference at the foot comes through a save.
#[test]
fn every_comment_is_saved() {
    let folder = Folder::new("comments");
    folder.put("tariff.frame", frame(SOURCE, &tariff_image()));
    let said = folder.save(&[], &["tariff.frame", "tariff.roto"]);
    assert_eq!(said.status, 0, "{said:?}");
    let text = folder.text("tariff.roto").expect("a file");
    assert!(text.ends_with("}\n// Filing reference 44-B.\n"), "{text}");
}

#[test]
fn what_is_not_whole_is_held_back() {
    let folder = Folder::new("held");
    let bytes = frame(SOURCE, &tariff_image());
    let mut formatter = Formatter::new().with_options(Options::AS_ROTO);
    for length in [0, 3, 4, 50, 200, bytes.len()] {
        folder.put("a.frame", &bytes[..length]);
        folder.put("a.roto", SOURCE);
        let (path, target) = (folder.path("a.frame"), folder.path("a.roto"));
        let (mut out, mut err) = (Vec::new(), Vec::new());
        let mut report = Report::new(&SAVE, &mut out, &mut err);
        let order = Order::default();
        save(&mut formatter, &path, &target, &order, &mut report);
        assert_eq!(report.status(), 2);
        let error = String::from_utf8(err).expect("a line");
        assert!(error.starts_with(&folder.line("a.frame", "")), "{error}");
        let comments = error.contains("drops the comment at line");
        assert_eq!(comments, length == bytes.len(), "{error}");
        assert_eq!(folder.text("a.roto").as_deref(), Some(SOURCE));
    }
}

/// Lines that were added since the frame was made stay, until `--force`.
#[test]
fn newer_work_is_left_alone() {
    let folder = Folder::new("newer");
    folder.put_frame("a.frame");
    for newer in [NEWER, "", &WIDE[1..]] {
        folder.put("a.roto", newer);
        let said = folder.save(&[], &["a.frame", "a.roto"]);
        let words = "changed since its frame was made; left alone";
        assert_eq!(said.err, [folder.line("a.roto", words)]);
        assert_eq!(said.out, ["1 file: 0 changed, 1 left alone"]);
        assert_eq!(said.status, 2);
        assert_eq!(folder.text("a.roto").as_deref(), Some(newer));
    }
    let said = folder.save(&["--force"], &["a.frame", "a.roto"]);
    let words = "overwritten, and had changed since its frame";
    assert_eq!(said.out[0], folder.line("a.roto", words));
    assert_eq!((said.status, said.err.len()), (0, 0));
    assert_eq!(folder.text("a.roto").as_deref(), Some(LINE));
    assert_eq!(folder.names(), ["a.frame", "a.roto"]);
}

/// Each pair is tried, whatever became of those before it.
#[test]
fn the_others_are_saved_all_the_same() {
    let folder = Folder::new("others");
    folder.put("cut.frame", b"\0\0\0\x09x");
    folder.put("refused.frame", b"\0\0\0\0\x03");
    folder.put_frame("a.frame");
    folder.put("newer.roto", NEWER);
    fs::create_dir(folder.path("inner")).expect("a folder");
    let names = [
        ["none.frame", "none.roto"],
        ["cut.frame", "cut.roto"],
        ["refused.frame", "refused.roto"],
        ["a.frame", "newer.roto"],
        ["a.frame", "inner"],
        ["a.frame", "lacking/a.roto"],
        ["a.frame", "a.roto"],
    ];
    let before = folder.names();
    let said = folder.save(&[], names.as_flattened());
    let due = [
        folder.line("none.frame", "No such file"),
        folder.line("cut.frame", "cut off within its source"),
        folder.line("refused.frame", "refused 3 at 0: the tree image"),
        folder.line("newer.roto", "changed since its frame was made"),
        folder.line("inner", "is there, and is no file"),
        folder.line("lacking/a.roto", ""),
    ];
    assert_eq!(said.err.len(), due.len(), "{said:?}");
    for (line, due) in said.err.iter().zip(due) {
        assert!(line.starts_with(&due), "{line}");
    }
    let last = "7 files: 1 changed, 1 left alone, 1 refused, 4 failed";
    assert_eq!(said.out, [&folder.line("a.roto", "changed"), last]);
    assert_eq!(said.status, 2);
    assert_eq!(folder.text("a.roto").as_deref(), Some(LINE));
    assert_eq!(folder.text("newer.roto").as_deref(), Some(NEWER));
    fs::remove_file(folder.path("a.roto")).expect("it is there");
    assert_eq!(folder.names(), before);
}

#[test]
fn modes_are_kept() {
    let folder = Folder::new("modes");
    folder.put_frame("a.frame");
    let path = folder.path("a.roto");
    for given in [0o600, 0o640, 0o755] {
        folder.put("a.roto", WIDE);
        set_mode(&path, given);
        assert_eq!(folder.save(&[], &["a.frame", "a.roto"]).status, 0);
        assert_eq!(folder.text("a.roto").as_deref(), Some(LINE));
        assert_eq!(mode(&path), given);
    }
    folder.put("a.roto", WIDE);
    set_mode(&path, 0o444);
    let said = folder.save(&["--force"], &["a.frame", "a.roto"]);
    assert_eq!(said.err, [folder.line("a.roto", "is read-only")]);
    assert_eq!(said.status, 2);
    assert_eq!(folder.text("a.roto").as_deref(), Some(WIDE));
}

/// A link stays, and the file behind it is replaced; one that leads nowhere
/// stays too.
#[test]
fn links_are_kept() {
    let folder = Folder::new("links");
    folder.put_frame("a.frame");
    folder.put("real", WIDE);
    symlink("real", folder.path("a.roto")).expect("a link");
    symlink("nowhere", folder.path("b.roto")).expect("a link");
    let names = ["a.frame", "a.roto", "a.frame", "b.roto"];
    let said = folder.save(&[], &names);
    assert_eq!(said.status, 2);
    let due = folder.line("b.roto", "a link that leads nowhere");
    assert!(said.err[0].starts_with(&due), "{said:?}");
    for (name, behind) in [("a.roto", "real"), ("b.roto", "nowhere")] {
        let link = fs::read_link(folder.path(name)).expect("a link");
        assert_eq!(link, Path::new(behind));
    }
    assert_eq!(folder.text("real").as_deref(), Some(LINE));
    assert_eq!(folder.names(), ["a.frame", "a.roto", "b.roto", "real"]);
}

/// What is written first has a name that is nobody's.
#[test]
fn files_beside_the_target_stay() {
    let folder = Folder::new("beside");
    folder.put_frame("a.frame");
    folder.put("a.roto.new", "somebody's");
    folder.put("a.new", "somebody's");
    assert_eq!(folder.save(&[], &["a.frame", "a.roto"]).status, 0);
    assert_eq!(folder.text("a.roto").as_deref(), Some(LINE));
    for name in ["a.roto.new", "a.new"] {
        assert_eq!(folder.text(name).as_deref(), Some("somebody's"));
    }
    let names = ["a.frame", "a.new", "a.roto", "a.roto.new"];
    assert_eq!(folder.names(), names);
}

/// Then nothing is written, not even by the pairs that are whole.
#[test]
fn what_is_not_understood_is_said_once() {
    let folder = Folder::new("words");
    folder.put_frame("a.frame");
    let frame = folder.path("a.frame").display().to_string();
    let target = folder.path("a.roto").display().to_string();
    let (frame, target) = (&frame[..], &target[..]);
    let alone = format!("{frame} has no target");
    let edition = "--unicode takes an edition, 15.1 or 16.0, not 80";
    let faults: [(&[&str], &str); 9] = [
        (&[], "no frame is given"),
        (&["--force"], "no frame is given"),
        (&[frame], &alone),
        (&[frame, target, frame], &alone),
        (&["--force", "--", frame, target, frame], &alone),
        (&[frame, target, "--quiet"], "--quiet is no option"),
        (&["--check", frame, target], "--check is no option"),
        (&["--as-roto", frame, target], "--as-roto is no option"),
        (&["--unicode", "80", frame, target], edition),
    ];
    for (words, why) in faults {
        let said = said(words.iter().map(OsString::from));
        let [first, second] = USAGE;
        let more = "save --help says more";
        let due = [&format!("save: {why}"), first, second, more];
        assert_eq!(said.err, due);
        assert_eq!((said.status, said.out.len()), (2, 0), "{why}");
        assert_eq!(folder.names(), ["a.frame"]);
    }
}

#[test]
fn help_is_an_answer() {
    let folder = Folder::new("help");
    folder.put_frame("a.frame");
    let said = folder.save(&["--help"], &["a.frame", "a.roto"]);
    assert_eq!((said.status, said.err.len()), (0, 0));
    assert_eq!(said.out[..2], USAGE);
    for option in ["--force", "--unicode V", "--help"] {
        let starts =
            |line: &String| line.starts_with(&format!("  {option} "));
        assert!(said.out.iter().any(starts), "{option}");
    }
    assert_eq!(folder.names(), ["a.frame"]);
}

/// A list of Japan's towns that fits a line, by an edition of Unicode.
#[test]
fn an_edition_is_chosen() {
    let folder = Folder::new("unicode");
    let source = list(&towns(0));
    let image = encode(&list_tree(&source), &[]).expect("an image");
    folder.put("a.frame", frame(&source, &image));
    let names = ["a.frame", "a.roto"];
    assert_eq!(folder.save(&["--unicode", "16.0"], &names).status, 0);
    assert_eq!(folder.text("a.roto").as_deref(), Some(&source[..]));
    assert_eq!(folder.save(&[], &names).status, 0);
    let wrapped = folder.text("a.roto").expect("written");
    assert_eq!(wrapped.lines().count(), 8, "{wrapped}");
}

/// What the settings of the target's folder say, unless the words say another
/// thing; where these are faulty, the target stays.
#[test]
fn settings_are_read() {
    let folder = Folder::new("settings");
    let source = list(&["x".into(), "y".repeat(35)]);
    let image = encode(&list_tree(&source), &[]).expect("an image");
    folder.put("a.frame", frame(&source, &image));
    let names = ["a.frame", "a.roto"];
    let lines = || folder.text("a.roto").expect("saved").lines().count();
    folder.put("rrufthim.toml", "width = 60\n");
    assert_eq!(folder.save(&[], &names).status, 0);
    assert_eq!(lines(), 4);
    for options in [&["--no-settings"][..], &["--width", "80"]] {
        folder.put("a.roto", &source);
        assert_eq!(folder.save(options, &names).status, 0);
        assert_eq!(lines(), 1);
    }
    folder.put("rrufthim.toml", "width = 600\n");
    folder.put("a.roto", &source);
    let said = folder.save(&[], &names);
    assert_eq!(
        (said.status, &said.out[..]),
        (2, &["1 file: 0 changed, 1 failed".into()][..])
    );
    assert!(
        said.err[0].contains("rrufthim.toml: line 1, column 9: "),
        "{said:?}"
    );
    assert_eq!(folder.text("a.roto").as_ref(), Some(&source));
}

/// A comment that settings leave out isn't lost by a save: the frame is
/// refused.
#[test]
fn settings_drop_no_comment() {
    let folder = Folder::new("as-roto");
    folder.put("rrufthim.toml", "comments = \"as-roto\"\n");
    folder.put("a.frame", frame(SOURCE, &tariff_image()));
    folder.put("a.roto", SOURCE);
    let said = folder.save(&[], &["a.frame", "a.roto"]);
    let words = "the formatted text drops the comment at line 7, column 1";
    assert_eq!(said.err, [folder.line("a.frame", words)]);
    assert_eq!(folder.text("a.roto").as_deref(), Some(SOURCE));
}

/// Names with blanks, and that aren't UTF-8.
#[test]
fn names_of_any_bytes() {
    use std::os::unix::ffi::OsStringExt;

    let folder = Folder::new("names");
    folder.put_frame("two words.frame");
    let odd = OsString::from_vec(b"\xff.roto".into());
    let target = folder.0.join(odd);
    let words = [folder.path("two words.frame"), target.clone()];
    let said = said(words.into_iter().map(OsString::from));
    assert_eq!((said.status, said.err.len()), (0, 0));
    assert!(said.out[0].ends_with(r#"/\xFF.roto": changed"#), "{said:?}");
    assert_eq!(fs::read_to_string(target).expect("saved"), LINE);
}

#[test]
fn three_hundred_pairs() {
    let folder = Folder::new("many");
    folder.put_frame("a.frame");
    let targets: Vec<_> = (0..300).map(|at| format!("{at}.roto")).collect();
    let names = targets.iter().flat_map(|target| ["a.frame", target]);
    let said = folder.save(&[], &names.collect::<Vec<_>>());
    assert_eq!((said.status, said.out.len()), (0, 301));
    assert_eq!(said.out[300], "300 files: 300 changed");
    assert_eq!(folder.text("299.roto").as_deref(), Some(LINE));
}
