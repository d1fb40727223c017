//! Draws a table of `speed`: `plot TABLE.csv PICTURE.svg`.

use std::{env, fs, process::ExitCode};

fn main() -> ExitCode {
    let arguments: Vec<String> = env::args().skip(1).collect();
    let [table, picture] = arguments.as_slice() else {
        eprintln!("usage: plot TABLE.csv PICTURE.svg");
        return ExitCode::from(2);
    };
    let read = fs::read_to_string(table).map_err(|error| error.to_string());
    let drawn = read.and_then(|text| port::plot::draw(&text));
    let done = match drawn {
        Err(error) => Err(format!("{table}: {error}")),
        Ok(drawn) => fs::write(picture, drawn)
            .map_err(|error| format!("{picture}: {error}")),
    };
    match done {
        Ok(()) => ExitCode::SUCCESS,
        Err(error) => {
            eprintln!("plot: {error}");
            ExitCode::from(2)
        }
    }
}
