//! Patches Roto's own files as editor/README.md says it, for the module
//! `patched`: copies of them, the plug beside fmt.rs, then `git apply`. A patch
//! that doesn't apply is an error here.

use std::{
    env, fs,
    path::{Path, PathBuf},
    process::Command,
};

/// Stands in for Roto's own list of modules: fmt.rs is looked for beside it,
/// and the plug in a folder of fmt.rs.
const MODULES: &str = "pub mod fmt;\n";

fn main() {
    let here = PathBuf::from(env::var("CARGO_MANIFEST_DIR").unwrap());
    let out = PathBuf::from(env::var("OUT_DIR").unwrap());
    let (original, plug) =
        (here.join("../roto/src"), here.join("../../editor"));
    let roto = out.join("roto");
    if roto.exists() {
        fs::remove_dir_all(&roto).expect("its own");
    }
    copy(&original, &roto.join("src"));
    copy(&plug.join("plug"), &roto.join("src/fmt/plug"));
    let patch = plug.join("plug.patch");
    apply(&patch, &roto, &out);
    fs::write(roto.join("src/modules.rs"), MODULES).expect("written");
    let modules = roto.join("src/modules.rs");
    // `#[path]` takes a literal alone.
    let declared = format!("#[path = {modules:?}] pub mod patched;\n");
    fs::write(out.join("patched.rs"), declared).expect("written");
    for path in [original, plug.join("plug"), patch] {
        println!("cargo::rerun-if-changed={}", path.display());
    }
}

fn copy(from: &Path, to: &Path) {
    fs::create_dir_all(to).expect("made");
    for one in fs::read_dir(from).expect("a folder") {
        let path = one.expect("a name").path();
        let target = to.join(path.file_name().expect("a name"));
        match path.is_dir() {
            true => copy(&path, &target),
            false => drop(fs::copy(&path, target).expect("copied")),
        }
    }
}

/// As in Roto's own folder: not as a part of the repository that it lies in.
fn apply(patch: &Path, roto: &Path, out: &Path) {
    let git = Command::new("git")
        .args(["apply", "--whitespace=error-all"])
        .arg(patch)
        .current_dir(roto)
        .env("GIT_CEILING_DIRECTORIES", out)
        .status();
    let applied = git.expect("git is there: as root, `apt-get install git`");
    assert!(applied.success(), "{} doesn't apply", patch.display());
}
