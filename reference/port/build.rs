//! Links the port's static library, which `tools/build exports` writes.

use std::{env, path::PathBuf};

fn main() {
    if env::var_os("CARGO_FEATURE_STAND_IN").is_some() {
        return;
    }
    let here = PathBuf::from(env::var("CARGO_MANIFEST_DIR").unwrap());
    let archive = here.join("../../target/staticlib");
    println!("cargo::rustc-link-search=native={}", archive.display());
    println!("cargo::rustc-link-lib=static=exports");
    println!(
        "cargo::rerun-if-changed={}",
        archive.join("libexports.a").display()
    );
}
