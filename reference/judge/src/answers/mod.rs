//! Stored answers, by which a port is tried without Rust at hand. ANSWERS.md
//! gives their formats.

pub mod batches;
pub mod calls;
pub mod formulas;
pub mod frames;
pub mod moves;
pub mod replay;
pub mod report;
pub mod steps;
pub mod stored;
pub mod text;
pub mod verdicts;

/// Four bytes, big-endian.
fn put_number(out: &mut Vec<u8>, value: usize) {
    let value = u32::try_from(value).expect("four bytes");
    out.extend(value.to_be_bytes());
}

/// Eight bytes, big-endian.
fn put_long(out: &mut Vec<u8>, value: usize) {
    out.extend((value as u64).to_be_bytes());
}

/// Bytes, led by their number.
fn put_bytes(out: &mut Vec<u8>, bytes: &[u8]) {
    put_number(out, bytes.len());
    out.extend(bytes);
}
