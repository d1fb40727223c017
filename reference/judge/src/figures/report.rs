//! What the program `report` reads and writes: files in frames in, a table
//! out.

use std::fmt::Write;

use super::{Figures, Tallies, count_by};
use crate::{frame::Frame, reader::Reading, refusal::Refusal};

const HEADS: [&str; 8] = [
    "file", "bytes", "newlines", "column", "given", "wrapped", "placed",
    "left",
];

/// The file that these bytes start with, and the rest; `None` if they end
/// inside it.
fn split_first(bytes: &[u8]) -> Option<(Frame<'_>, &[u8])> {
    let (source_length, rest) = bytes.split_first_chunk::<4>()?;
    let (image_length, rest) = rest.split_first_chunk::<4>()?;
    let length = |bytes| u32::from_be_bytes(bytes) as usize;
    let (source, rest) = rest.split_at_checked(length(*source_length))?;
    let (image, rest) = rest.split_at_checked(length(*image_length))?;
    Some((Frame { source, image }, rest))
}

/// The table that is written for this input.
pub fn output(input: &[u8]) -> String {
    output_by(input, Reading::Strict)
}

/// The same of images that are read otherwise.
pub fn output_by(input: &[u8], reading: Reading) -> String {
    let mut out = String::new();
    put_line(&mut out, HEADS);
    let mut tallies = Tallies::default();
    let mut refused = 0;
    let mut rest = input;
    let mut file = 0;
    while !rest.is_empty() {
        file += 1;
        let Some((frame, behind)) = split_first(rest) else {
            writeln!(out, "the input ends inside file {file}").unwrap();
            break;
        };
        rest = behind;
        match count_by(frame, &tallies, reading) {
            Ok(counted) => {
                tallies = counted.tallies;
                put_figures(&mut out, &file.to_string(), &counted.figures);
            }
            Err(refusal) => {
                refused += 1;
                put_refusal(&mut out, file, refusal);
            }
        }
    }
    put_totals(&mut out, &tallies, refused);
    out
}

/// The lines below those of the files.
fn put_totals(out: &mut String, tallies: &Tallies, refused: u64) {
    put_figures(out, "total", &tallies.all);
    writeln!(out, "files counted: {}", tallies.files).unwrap();
    writeln!(out, "files refused: {refused}").unwrap();
    let fraction = tallies.fraction();
    writeln!(
        out,
        "wrapped over given, reduced: {} over {}",
        fraction.over, fraction.under
    )
    .unwrap();
}

fn put_figures(out: &mut String, first: &str, figures: &Figures) {
    let numbers = figures.numbers().map(|number| number.to_string());
    let [bytes, newlines, column, given, wrapped, placed, left] = &numbers;
    put_line(
        out,
        [first, bytes, newlines, column, given, wrapped, placed, left],
    );
}

fn put_refusal(out: &mut String, file: u64, refusal: Refusal) {
    writeln!(out, "{file:>10} {refusal}").unwrap();
}

/// Columns of ten, to the right, a blank between.
fn put_line(out: &mut String, cells: [&str; 8]) {
    let cells = cells.map(|cell| format!("{cell:>10}"));
    writeln!(out, "{}", cells.join(" ")).unwrap();
}
