//! The table of files that the program `report` writes.

/// By the program itself, which `tools/build report` builds.
#[cfg(not(feature = "stand-in"))]
pub fn report(input: &[u8]) -> Result<Vec<u8>, String> {
    let program =
        concat!(env!("CARGO_MANIFEST_DIR"), "/../../target/bin/report");
    crate::program::written(program, input)
}

/// By the judge in its place.
#[cfg(feature = "stand-in")]
pub fn report(input: &[u8]) -> Result<Vec<u8>, String> {
    Ok(judge::figures::report::output(input).into_bytes())
}
