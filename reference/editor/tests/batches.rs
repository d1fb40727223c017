//! Lists of files by the crate's batch: each text, its comments left, and
//! each refusal, are the judge's, whatever the file's size.

use judge::{
    batch::split,
    choice::Choice,
    frame::Frame,
    generate,
    mode::NEW,
    program::{self, Widths},
    reader,
    rule::{LEGAL, SUPPLIED, UNICODE_15_1, UNICODE_16_0},
};
use rrufthim::{
    Batch, Cause, Comments, File, FormatError, Formatted, Options, Span,
};

const SEED: u64 = 11;
const BATCHES: u64 = 400;

/// A text and the comments that it lacks, or number and place.
type Answer = Result<(String, Vec<Span>), [u64; 2]>;

/// What the original makes of a file of any size, and its rows.
fn judged(file: Frame, choice: Choice) -> (Answer, usize) {
    match program::format_as(file, Widths::Supplied, choice) {
        Ok(run) => {
            let read = reader::read(file.source, file.image);
            let comments = read.expect("accepted").comments;
            let left =
                comments[comments.len() - run.comments_left..].to_vec();
            (Ok((run.text, left)), run.rows.len())
        }
        Err(refusal) => (Err([refusal.number.into(), refusal.place]), 0),
    }
}

fn answered(answer: Result<Formatted, FormatError>) -> Answer {
    match answer {
        Ok(formatted) => {
            let left = formatted.comments_left.into_iter();
            let left = left.map(|place| place.span).collect();
            Ok((formatted.text, left))
        }
        Err(error) => match error.cause {
            Cause::Refused(refusal) => {
                Err([refusal.number(), refusal.place()].map(|n| n as u64))
            }
            other => panic!("{other:?}"),
        },
    }
}

/// What the crate can choose of it: no mode but the two, and no rule but the
/// three.
fn options(choice: Choice) -> Options {
    let widths = match choice.rule {
        UNICODE_15_1 => rrufthim::Widths::Unicode15_1,
        UNICODE_16_0 => rrufthim::Widths::Unicode16_0,
        _ => rrufthim::Widths::Supplied,
    };
    let comments = match choice.mode {
        NEW => Comments::All,
        _ => Comments::AsRoto,
    };
    Options::default()
        .with_width(choice.width)
        .with_comments(comments)
        .with_widths(widths)
}

#[test]
fn lists_of_files() {
    let [mut accepted, mut refused, mut large] = [0, 0, 0];
    let mut by_edition = 0;
    for index in 0..BATCHES {
        let case = generate::batch_case(SEED, index);
        let Ok(files) = split(&case.buffer) else {
            continue;
        };
        let Choice { width, mode, rule } = case.choice;
        let choice = Choice {
            width,
            mode: mode.min(NEW),
            rule: match LEGAL.contains(&rule) {
                true => rule,
                false => SUPPLIED,
            },
        };
        by_edition += usize::from(choice.rule != SUPPLIED);
        let mut batch = Batch::new().with_options(options(choice));
        let given = files.iter();
        let given = given.map(|file| File::new(file.source, file.image));
        let answers = batch.format_files(given);
        assert_eq!(answers.len(), files.len());
        for (file, answer) in files.into_iter().zip(answers) {
            let (due, rows) = judged(file, choice);
            match &due {
                Ok(_) => accepted += 1,
                Err(_) => refused += 1,
            }
            large += usize::from(rows > program::ROWS);
            assert!(answered(answer) == due, "batch {SEED} {index}");
        }
    }
    assert!(
        accepted > 1_000 && refused > 300,
        "{accepted} and {refused}"
    );
    assert!(large > 10, "{large}");
    assert!(by_edition > 50, "{by_edition}");
}
