//! The judge on the command line.

use std::{
    env,
    io::{self, Read, Write},
    process::ExitCode,
};

use judge::{
    answers::{self, stored},
    examples, explain, figures, frame,
    generate::{self, Class},
    program::{self, Widths},
    script, table,
};

const USAGE: &str = "\
usage: judge run [--true-widths] < frame      what the program must write
       judge explain [--true-widths] < frame  rows, marks, states and text
       judge example NAME                     a frame of document 01
       judge script < text                    a frame for a Roto text
       judge generate CLASS SEED COUNT        frames, each led by its length
       judge table SEED COUNT                 what frames of all classes reach
       judge answers CLASS SEED COUNT         frames with what is due for them
       judge call-answers SEED COUNT          lists of calls with their answers
       judge size-answers                     the same for all sizes
       judge render-answers                   the same for rows made for it
       judge rule-answers                     the same for rules of widths
       judge allotment-answers                the same for allotments
       judge stored-frames                    a fixed set of frames, answered
       judge stored-calls                     a fixed set of lists, answered
       judge stored-table                     what the fixed sets reach
       judge replay-calls                     the lists, as replay_calls reads them
       judge replay-calls-counts              what it must write of them
       judge replay-frames                    the frames, as replay_files reads them
       judge replay-frames-counts             what it must write of them
       judge replay-steps                     the lists of steps
       judge replay-steps-counts              what it must write of them
       judge replay-moves                     the images to move
       judge replay-moves-counts              what is due for them
       judge replay-verdicts                  trees, whether they are read back the same
       judge replay-verdicts-counts           what is due for them
       judge replay-formulas                  sizes and places of formulas
       judge replay-formulas-counts           what is due for them
       judge replay-batches                   the batches
       judge replay-batches-counts            what it must write of them
       judge text-answers                     answers of Rust's text functions
       judge report < files                   what the program report must write
       judge report-sample                    a small input of report
       judge report-sample-table              its table
       judge report-input                     what report is run on
       judge report-table                     what it must write
CLASS: realistic, wild, edges, damaged or sizes
";

/// What a command writes, piece by piece: large sets are never held whole.
type Pieces = Box<dyn Iterator<Item = Vec<u8>>>;

fn main() -> ExitCode {
    let arguments: Vec<String> = env::args().skip(1).collect();
    let words: Vec<&str> = arguments.iter().map(String::as_str).collect();
    let pieces = match command(&words) {
        Ok(pieces) => pieces,
        Err(message) => {
            eprint!("{message}");
            return ExitCode::FAILURE;
        }
    };
    let mut output = io::BufWriter::new(io::stdout().lock());
    for piece in pieces {
        // A reader that has seen enough is no fault.
        if output.write_all(&piece).is_err() {
            return ExitCode::FAILURE;
        }
    }
    match output.flush() {
        Ok(()) => ExitCode::SUCCESS,
        Err(_) => ExitCode::FAILURE,
    }
}

/// What a command writes, or why it cannot.
fn command(words: &[&str]) -> Result<Pieces, String> {
    Ok(match words {
        ["run", flags @ ..] => one(program::output(&input(), widths(flags)?)),
        ["explain", flags @ ..] => {
            one(explain::explain(&input(), widths(flags)?))
        }
        ["example", name] => one(examples::frame(name).ok_or_else(names)?),
        ["script"] => one(frame_of_script()?),
        ["generate", class, seed, count] => {
            Box::new(frames(class, seed, count)?.map(|f| frame::led(&f)))
        }
        ["answers", class, seed, count] => Box::new(
            frames(class, seed, count)?
                .map(|f| answers::frames::answered(&f)),
        ),
        ["call-answers", seed, count] => {
            let seed = number(seed)?;
            let cases = (0..number(count)?)
                .map(move |index| generate::call_case(seed, index));
            Box::new(cases.map(|case| answers::calls::answered(&case)))
        }
        ["size-answers"] => {
            let cases = generate::size_call_cases();
            Box::new(cases.map(|case| answers::calls::answered(&case)))
        }
        ["render-answers"] => {
            let cases = generate::rendering_cases().into_iter();
            Box::new(cases.map(|case| answers::calls::answered(&case)))
        }
        ["rule-answers"] => {
            let cases = generate::rule_cases().into_iter();
            Box::new(cases.map(|case| answers::calls::answered(&case)))
        }
        ["allotment-answers"] => {
            let cases = generate::allotment_cases().into_iter();
            Box::new(cases.map(|case| answers::calls::answered(&case)))
        }
        ["stored-frames"] => {
            Box::new(stored::frames().map(|f| answers::frames::answered(&f)))
        }
        ["stored-calls"] => Box::new(
            stored::lists().map(|case| answers::calls::answered(&case)),
        ),
        ["stored-table"] => one(table::stored()),
        ["replay-calls"] => one(answers::replay::calls_input()),
        ["replay-calls-counts"] => one(answers::replay::calls_output()),
        ["replay-frames"] => one(answers::replay::frames_input()),
        ["replay-frames-counts"] => one(answers::replay::frames_output()),
        ["replay-steps"] => one(answers::replay::steps_input()),
        ["replay-steps-counts"] => one(answers::replay::steps_output()),
        ["replay-moves"] => one(answers::replay::moves_input()),
        ["replay-moves-counts"] => one(answers::replay::moves_output()),
        ["replay-verdicts"] => one(answers::replay::verdicts_input()),
        ["replay-verdicts-counts"] => one(answers::replay::verdicts_output()),
        ["replay-formulas"] => one(answers::replay::formulas_input()),
        ["replay-formulas-counts"] => one(answers::replay::formulas_output()),
        ["replay-batches"] => one(answers::replay::batches_input()),
        ["replay-batches-counts"] => one(answers::replay::batches_output()),
        ["text-answers"] => one(answers::text::answers()),
        ["report"] => one(figures::report::output(&input())),
        ["report-sample"] => one(answers::report::sample()),
        ["report-sample-table"] => one(answers::report::sample_table()),
        ["report-input"] => one(answers::report::input()),
        ["report-table"] => one(answers::report::output()),
        ["table", seed, count] => {
            one(table::table(number(seed)?, number(count)?))
        }
        _ => return Err(USAGE.into()),
    })
}

fn one(piece: impl Into<Vec<u8>>) -> Pieces {
    Box::new(std::iter::once(piece.into()))
}

fn input() -> Vec<u8> {
    let mut bytes = Vec::new();
    io::stdin()
        .read_to_end(&mut bytes)
        .expect("input can be read");
    bytes
}

fn frame_of_script() -> Result<Vec<u8>, String> {
    let source = String::from_utf8(input()).map_err(|e| format!("{e}\n"))?;
    script::frame(&source).map_err(|at| format!("not read at byte {at}\n"))
}

fn widths(flags: &[&str]) -> Result<Widths, String> {
    match flags {
        [] => Ok(Widths::Supplied),
        ["--true-widths"] => Ok(Widths::True),
        _ => Err(USAGE.into()),
    }
}

fn frames(
    class: &str,
    seed: &str,
    count: &str,
) -> Result<impl Iterator<Item = Vec<u8>> + use<>, String> {
    let class = Class::from_name(class).ok_or(USAGE)?;
    Ok(generate::frames(class, number(seed)?, number(count)?))
}

fn number(word: &str) -> Result<u64, String> {
    word.parse().map_err(|_| USAGE.into())
}

fn names() -> String {
    let lines =
        examples::NAMES.map(|(name, what)| format!("{name:16}{what}\n"));
    lines.concat()
}
