//! The comparison of reports runs clean on the judge, and its inputs show
//! what a program can do wrong between the lines.

#![cfg(feature = "stand-in")]

use judge::{
    figures::report::{output, output_by},
    generate::report_input,
    reader::Reading,
};
use port::compare::{Tally, compare_report};

const SEED: u64 = 6;
const INPUTS: u64 = 300;

/// What a reader must keep of a source.
const KEPT: usize = 65_537;

/// The differences that a program has which answers so.
fn differences(answer: impl Fn(&[u8]) -> String + 'static) -> u64 {
    let mut tally = Tally::default();
    let answer = move |input: &[u8]| Ok(answer(input).into_bytes());
    for index in 0..INPUTS {
        compare_report(&mut tally, &answer, SEED, index);
    }
    tally.differences
}

/// The files of an input, and what is behind the last whole one.
fn split(input: &[u8]) -> (Vec<[&[u8]; 2]>, &[u8]) {
    let mut files = Vec::new();
    let mut rest = input;
    while let Some((file, behind)) = first(rest) {
        files.push(file);
        rest = behind;
    }
    (files, rest)
}

fn first(bytes: &[u8]) -> Option<([&[u8]; 2], &[u8])> {
    let (lengths, rest) = bytes.split_first_chunk::<8>()?;
    let both = u64::from_be_bytes(*lengths);
    let (source, rest) = rest.split_at_checked((both >> 32) as usize)?;
    let (image, rest) = rest.split_at_checked(both as u32 as usize)?;
    Some(([source, image], rest))
}

#[test]
fn the_judge_has_no_difference() {
    assert_eq!(differences(output), 0);
}

/// Of a source that is too long the front is kept, and what is behind it is
/// taken for what follows.
#[test]
fn nothing_passed_over_is_found() {
    let wrong = |input: &[u8]| {
        let mut bytes = Vec::new();
        let (files, rest) = split(input);
        for [source, image] in files {
            let (front, behind) = source.split_at(source.len().min(KEPT));
            let lengths = [front, image].map(|part| part.len() as u32);
            bytes.extend(lengths.map(u32::to_be_bytes).concat());
            bytes.extend([front, behind, image].concat());
        }
        bytes.extend(rest);
        output(&bytes)
    };
    assert!(differences(wrong) > 0);
}

/// Files that come after so many are not read.
fn stops_after(most: usize) -> u64 {
    differences(move |input| {
        let (files, _) = split(input);
        let sizes = files
            .iter()
            .map(|[source, image]| 8 + source.len() + image.len());
        match files.len() > most {
            true => output(&input[..sizes.take(most).sum()]),
            false => output(input),
        }
    })
}

#[test]
fn a_program_that_stops_early_is_found() {
    assert!(stops_after(13) > 0);
    assert!(stops_after(4_096) > 0);
}

/// A cut file that is passed over in silence, or refused.
#[test]
fn a_cut_file_left_out_is_found() {
    let wrong = |input: &[u8]| {
        let (_, rest) = split(input);
        output(&input[..input.len() - rest.len()])
    };
    assert!(differences(wrong) > 0);
}

/// The last line but one, and 14 for all that is refused behind the last
/// file counted.
#[test]
fn wrong_lines_are_found() {
    let without = |input: &[u8]| {
        let table = output(input);
        table.replace("files refused: 0\n", "")
    };
    assert!(differences(without) > 0);
    let always = |input: &[u8]| {
        let table = output(input);
        match table.contains(" refused 14 at 0\n") {
            true => table.replace(" refused 3 at 0\n", " refused 14 at 0\n"),
            false => table,
        }
    };
    assert!(differences(always) > 0);
}

/// Files are counted whose comments run backwards.
#[test]
fn a_report_by_the_earlier_rule_is_found() {
    let wrong = |input: &[u8]| output_by(input, Reading::Earlier);
    assert!(differences(wrong) > 0);
}

/// Large and small, whole and cut, of none and of many files.
#[test]
fn inputs_are_of_all_sorts() {
    let inputs: Vec<Vec<u8>> =
        (0..INPUTS).map(|index| report_input(SEED, index)).collect();
    let tables: Vec<String> =
        inputs.iter().map(|input| output(input)).collect();
    let having = |words: &str| {
        tables.iter().filter(|table| table.contains(words)).count()
    };
    for number in [1, 2, 3, 4, 5, 6, 7, 8, 10, 14] {
        assert!(having(&format!(" refused {number} at ")) > 0, "{number}");
    }
    assert!(having("the input ends inside file ") > 10);
    assert!(having("files counted: 4096\n") > 0);
    assert!(inputs.iter().any(|input| input.is_empty()));
    assert!(inputs.iter().any(|input| input.len() > 1_100_000));
}
