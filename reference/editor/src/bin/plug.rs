//! `plug SEED FILES` runs the crate and its plug beside the original, on so
//! many generated files of each class, with comments at the foot, and with
//! characters of two columns or none.

use std::{env, process::ExitCode};

use editor::beside;
use judge::{
    frame,
    generate::{self, Class},
};

const CLASSES: [Class; 5] = [
    Class::Realistic,
    Class::Wild,
    Class::Edges,
    Class::Damaged,
    Class::Sizes,
];

fn main() -> ExitCode {
    let numbers: Option<Vec<u64>> =
        env::args().skip(1).map(|word| word.parse().ok()).collect();
    let Some([seed, files]) = numbers.as_deref() else {
        eprintln!("usage: plug SEED FILES");
        return ExitCode::FAILURE;
    };
    let mut differing = 0;
    for class in CLASSES {
        differing += run(class, *seed, *files);
    }
    let feet = (0..*files).map(|index| generate::foot_frame(*seed, index));
    differing += compare("Feet", *seed, feet);
    let broad = (0..*files).map(|at| generate::broad_frame(*seed, at).0);
    differing += compare("Broad", *seed, broad);
    println!("{differing} files differ");
    match differing {
        0 => ExitCode::SUCCESS,
        _ => ExitCode::FAILURE,
    }
}

/// Runs files of a class, and counts those that differ.
fn run(class: Class, seed: u64, files: u64) -> usize {
    let count = match class {
        Class::Sizes => generate::size_cases().len() as u64,
        _ => files,
    };
    let frames = generate::frames(class, seed, count);
    compare(&format!("{class:?}"), seed, frames)
}

fn compare(
    class: &str,
    seed: u64,
    frames: impl Iterator<Item = Vec<u8>>,
) -> usize {
    let (mut count, mut accepted, mut differing) = (0, 0, 0);
    for (index, bytes) in frames.enumerate() {
        count += 1;
        if frame::split_any_size(&bytes).is_err() {
            continue;
        }
        let Some(found) = beside::differences(&bytes) else {
            continue;
        };
        accepted += 1;
        if !found.is_empty() {
            differing += 1;
            println!("{class} {seed} {index}: {}", found.join(", "));
        }
    }
    println!("{class}: {count} files, {accepted} accepted");
    differing
}
