//! Folders of frames, and what a program says of them: the hook, or the
//! report.

use std::{
    ffi::OsString,
    fs,
    path::{Path, PathBuf},
};

use rrufthim::encode;

use super::{example, support::constants};

pub(crate) const LINE: &str = "const A: u32 = 1;\n";
/// A source whose text is `LINE`.
pub(crate) const WIDE: &str = " const A: u32 = 1;";

/// A folder that is empty at first.
pub(crate) struct Folder(pub(crate) PathBuf);

impl Folder {
    pub(crate) fn new(name: &str) -> Self {
        let root = PathBuf::from(env!("CARGO_TARGET_TMPDIR"));
        let path = root.join(env!("CARGO_CRATE_NAME")).join(name);
        if path.exists() {
            fs::remove_dir_all(&path).expect("its own");
        }
        fs::create_dir_all(&path).expect("a folder");
        Folder(path)
    }

    pub(crate) fn path(&self, name: impl AsRef<Path>) -> PathBuf {
        self.0.join(name)
    }

    pub(crate) fn put(&self, name: impl AsRef<Path>, bytes: &[u8]) {
        let path = self.path(name);
        fs::create_dir_all(path.parent().expect("a folder")).expect("made");
        fs::write(path, bytes).expect("a file");
    }

    pub(crate) fn put_frame(
        &self,
        name: impl AsRef<Path>,
        source: &str,
        image: &[u8],
    ) {
        let length = (source.len() as u32).to_be_bytes();
        self.put(name, &[&length, source.as_bytes(), image].concat());
    }

    /// A frame of constants.
    pub(crate) fn put_lines(&self, name: impl AsRef<Path>, source: &str) {
        let image = encode(&constants(source), &[]).expect("an image");
        self.put_frame(name, source, &image);
    }

    /// A frame of constants, and beside it its source.
    pub(crate) fn put_pair(&self, name: &str, source: &str) {
        self.put_lines(format!("{name}.frame"), source);
        self.put(format!("{name}.roto"), source.as_bytes());
    }

    pub(crate) fn text(&self, name: impl AsRef<Path>) -> Option<String> {
        fs::read_to_string(self.path(name)).ok()
    }

    /// The names of all that is in it, but not of what is in its folders.
    pub(crate) fn names(&self) -> Vec<OsString> {
        let inner = fs::read_dir(&self.0).expect("a folder");
        let names = inner.map(|one| one.expect("a name").file_name());
        let mut names: Vec<_> = names.collect();
        names.sort();
        names
    }

    /// The program with these words, on the whole folder.
    pub(crate) fn run(&self, words: &[&str]) -> Said {
        let words = words.iter().map(OsString::from);
        said(words.chain([self.0.clone().into()]))
    }
}

/// What the program said, and its status.
#[derive(Debug, PartialEq, Eq)]
pub(crate) struct Said {
    pub(crate) status: u8,
    pub(crate) out: Vec<String>,
    pub(crate) err: Vec<String>,
}

impl Said {
    /// The line with the counts.
    pub(crate) fn last(&self) -> &str {
        self.out.last().expect("there always is one")
    }
}

pub(crate) fn said(words: impl Iterator<Item = OsString>) -> Said {
    let (mut out, mut err) = (Vec::new(), Vec::new());
    let status = example::run(words, &mut out, &mut err);
    let lines = |bytes| {
        let text = String::from_utf8(bytes).expect("lines for people");
        text.lines().map(str::to_owned).collect()
    };
    Said {
        status,
        out: lines(out),
        err: lines(err),
    }
}
