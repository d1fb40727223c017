//! Links the static library of the proved functions.

use std::{
    collections::BTreeSet,
    env, fs,
    path::{Path, PathBuf},
    process::exit,
};

/// Names the archive or its folder, if it isn't in the repository's target
/// folder.
const VARIABLE: &str = "RRUFTHIM_ARCHIVE";
/// What `tools/build exports` calls it.
const BUILT: &str = "libexports.a";
/// What the linker is told: a name that no other library has.
const LINKED: &str = "librrufthim.a";
/// The number of the shape that this crate needs, and the signatures of it.
const STORED: &str = include_str!("include/shape");

fn main() {
    println!("cargo::rerun-if-env-changed={VARIABLE}");
    println!("cargo::rerun-if-changed=include/shape");
    if !fits("ARCH", "x86_64") || !fits("OS", "linux") {
        // Then the crate itself says that it is for x86-64 Linux.
        return;
    }
    let archive = archive();
    println!("cargo::rerun-if-changed={}", archive.display());
    let folder = PathBuf::from(env::var_os("OUT_DIR").expect("by cargo"));
    if let Err(fault) = take(&archive, &folder.join(LINKED)) {
        println!(
            "cargo::error=the static library {} {fault}: build it by \
             `tools/build exports` in the repository's top folder, or set \
             {VARIABLE} to the path of {BUILT}",
            archive.display()
        );
        exit(1);
    }
    println!("cargo::rustc-link-search=native={}", folder.display());
    println!("cargo::rustc-link-lib=static=rrufthim");
}

/// Whether the machine that is built for is as the archive has it.
fn fits(what: &str, due: &str) -> bool {
    env::var(format!("CARGO_CFG_TARGET_{what}")).is_ok_and(|it| it == due)
}

/// Where the archive should be, as a path from this package's folder.
fn archive() -> PathBuf {
    // As it runs, not as it was built: a package that is tried lies elsewhere.
    let here = env::var_os("CARGO_MANIFEST_DIR").expect("by cargo");
    let here = Path::new(&here);
    let named = env::var_os(VARIABLE).map(|path| here.join(path));
    match named {
        Some(archive) if archive.is_file() => archive,
        Some(folder) => folder.join(BUILT),
        None => here.join("../target/staticlib").join(BUILT),
    }
}

/// Copies the archive, if it is one that this crate can call. The linker would
/// find out too, but not say what is to be done.
fn take(archive: &Path, copy: &Path) -> Result<(), String> {
    let bytes = fs::read(archive);
    let bytes = bytes.map_err(|error| format!("can't be read ({error})"))?;
    let (found, needed) = (shapes(&bytes), needed());
    if found != BTreeSet::from([format!("of {needed}")]) {
        let found = match found.is_empty() {
            true => "no functions for this crate".into(),
            false => {
                format!("functions {}", Vec::from_iter(found).join(" and "))
            }
        };
        return Err(format!(
            "has {found}, and this crate needs functions of {needed}"
        ));
    }
    let copied = fs::write(copy, bytes);
    copied.map_err(|error| format!("can't be copied ({error})"))
}

/// The first line: `shape` and the number.
fn needed() -> &'static str {
    STORED.lines().next().expect("the number")
}

/// What the archive's functions of this library are of. Their symbols, such as
/// `rrufthim_check_s3`, stand in it as they are, between other bytes.
fn shapes(archive: &[u8]) -> BTreeSet<String> {
    let is_name = |byte: &u8| byte.is_ascii_alphanumeric() || *byte == b'_';
    let words = archive.split(|byte| !is_name(byte));
    let names = words.filter(|word| word.starts_with(b"rrufthim_"));
    let shapes = names.map(|name| {
        let name = String::from_utf8_lossy(name);
        let number = name.rsplit_once("_s").map(|(_, number)| number);
        match number.and_then(|number| number.parse::<u64>().ok()) {
            Some(number) => format!("of shape {number}"),
            None => "without a shape's number".into(),
        }
    });
    shapes.collect()
}
