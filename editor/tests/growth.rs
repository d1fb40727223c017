//! Structs may get further fields, and none of their users is broken by it:
//! they can't be written out field by field elsewhere, nor are they copied in
//! passing.

use std::{fs, path::Path};

/// Values that are whole as they are; Roto's shapes; and what isn't exported.
const CLOSED: [&str; 3] = ["File", "Fraction", "CommentsLeft"];
const ELSEWHERE: [&str; 2] = ["ast.rs", "buffers.rs"];

/// All files of a folder and of those in it.
fn texts(folder: &Path, found: &mut Vec<String>) {
    for entry in fs::read_dir(folder).expect("a folder") {
        let path = entry.expect("a name").path();
        if path.is_dir() {
            texts(&path, found);
        } else if !ELSEWHERE.iter().any(|name| path.ends_with(name)) {
            found.push(fs::read_to_string(path).expect("a file"));
        }
    }
}

/// The structs of a text whose fields others see: name, and the attributes
/// before it.
fn open_structs(text: &str) -> Vec<(&str, &str)> {
    let items = text.split("\n\n").filter_map(|item| {
        let (before, rest) = item.split_once("pub struct ")?;
        let name = rest.split(|c: char| !c.is_alphanumeric()).next()?;
        let fields = rest.split("\n}").next()?;
        let seen = fields.contains(" pub ") || fields.contains("(pub ");
        seen.then_some((name, before))
    });
    items.collect()
}

fn faults(text: &str) -> Vec<&str> {
    let structs = open_structs(text).into_iter();
    let others = structs.filter(|(name, _)| !CLOSED.contains(name));
    let faulty = others.filter(|(_, before)| {
        !before.contains("#[non_exhaustive]") || before.contains("Copy")
    });
    faulty.map(|(name, _)| name).collect()
}

#[test]
fn structs_may_grow() {
    let mut found = Vec::new();
    let here = Path::new(env!("CARGO_MANIFEST_DIR"));
    texts(&here.join("src"), &mut found);
    let known: Vec<_> = found.iter().flat_map(|s| open_structs(s)).collect();
    for name in ["Options", "LayoutState", "RenderState", "Laid"] {
        assert!(known.iter().any(|(known, _)| *known == name), "{name}");
    }
    let faults: Vec<_> = found.iter().flat_map(|s| faults(s)).collect();
    assert_eq!(faults, [""; 0]);
}

/// Those that may not are found.
#[test]
fn others_are_found() {
    let fine = "#[derive(Clone)]\n#[non_exhaustive]\n\
                pub struct A {\n    pub b: u8,\n}\n";
    assert_eq!(faults(fine), [""; 0]);
    assert_eq!(faults(&fine.replace("#[non_exhaustive]\n", "")), ["A"]);
    assert_eq!(faults(&fine.replace("Clone", "Clone, Copy")), ["A"]);
    let private = fine.replace("#[non_exhaustive]\n", "");
    let private = private.replace("    pub b", "    b");
    assert_eq!(faults(&private), [""; 0]);
}
