//! Writes the files that are timed, one folder entry for each input: `inputs FOLDER`.
//! An entry is its number of files, then for each file two lengths (eight bytes each, little-endian), source and image.

use std::{env, fs, path::Path, process::ExitCode};

use port::measure::inputs::{self, Input};

fn main() -> ExitCode {
    let Some(folder) = env::args().nth(1) else {
        eprintln!("inputs FOLDER");
        return ExitCode::from(2);
    };
    let all = inputs::all().into_iter().chain([inputs::japanese()]);
    for (number, input) in all.enumerate() {
        let path = Path::new(&folder).join(number.to_string());
        fs::write(path, bytes(&input)).expect("the file is written");
        println!("{}", input.name);
    }
    ExitCode::SUCCESS
}

fn bytes(input: &Input) -> Vec<u8> {
    let mut out = (input.files.len() as u64).to_le_bytes().to_vec();
    for file in &input.files {
        out.extend((file.source.len() as u64).to_le_bytes());
        out.extend((file.image.len() as u64).to_le_bytes());
        out.extend(&file.source);
        out.extend(&file.image);
    }
    out
}
