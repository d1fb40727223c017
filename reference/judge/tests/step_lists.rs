//! Generated images to steps and back, and generated lists of steps.

use std::collections::BTreeMap;

use judge::{
    frame,
    generate::{self, Class},
    reader::{self, Reading},
    refusal::refusal,
    steps::{self, Cause, Fault, Step, follow, joined},
};

const SEED: u64 = 7;

/// For each image that the reader accepts its steps give it back.
#[test]
fn images_to_steps_and_back() {
    let mut accepted = 0;
    for (class, name) in Class::ALL {
        for bytes in generate::frames(class, SEED, 300) {
            let Ok(parts) = frame::split_any_size(&bytes) else {
                continue;
            };
            let ample = 4_000_000;
            match steps::read(parts.source, parts.image, ample) {
                Ok(list) => {
                    accepted += 1;
                    let back = steps::write(&list, parts.image.len());
                    assert_eq!(back.as_deref(), Ok(parts.image), "{name}");
                }
                Err(refusal) => {
                    let (source, image) = (parts.source, parts.image);
                    let one = reader::Version::One;
                    let strict = Reading::Strict;
                    let due =
                        reader::read_version(source, image, one, strict);
                    assert_eq!(due.unwrap_err(), refusal);
                }
            }
        }
    }
    assert!(accepted > 900, "{accepted}");
}

/// Each list that the writer accepts is that of its image, read with a
/// source that it fits.
#[test]
fn lists_to_images_and_back() {
    let source = [b' '; reader::MOST_SOURCE];
    let [mut written, mut read] = [0, 0];
    for index in 0..1_500 {
        let list = generate::step_list(SEED, index);
        let Ok(image) = steps::write(&list, 4_000_000) else {
            continue;
        };
        written += 1;
        match steps::read(&source, &image, 4_000_000) {
            Ok(back) => {
                read += 1;
                assert_eq!(back, list);
            }
            Err(refusal) => assert!(matches!(refusal.number, 6 | 7)),
        }
    }
    assert!(written > 150 && read > 100, "{written} and {read}");
}

/// Damaged lists reach each cause, and each in some number.
#[test]
fn each_cause_is_reached() {
    let mut counts: BTreeMap<Cause, usize> = BTreeMap::new();
    for index in 0..4_000 {
        let list = generate::step_list(SEED, index);
        if let Err(fault) = follow(&list) {
            *counts.entry(fault.cause).or_default() += 1;
            assert!(fault.place <= list.len());
        }
    }
    for (cause, name) in Cause::ALL {
        let count = counts.get(&cause).copied().unwrap_or(0);
        assert!(count >= 2, "{name}: {counts:?}");
    }
}

#[test]
fn sizes_are_refused_past_their_value_alone() {
    for case in generate::step_size_cases() {
        let answer = steps::write(&case.list, 4_000_000);
        let number = answer.err().map_or(0, |refusal| refusal.number);
        assert_eq!(number, case.refusal, "{}", case.name);
    }
}

/// Lists depend on seed and index alone.
#[test]
fn lists_are_made_anew() {
    for index in 0..20 {
        let list = generate::step_list(SEED, index);
        assert_eq!(generate::step_list(SEED, index), list);
    }
    let other = |seed| generate::step_list(seed, 0);
    assert_ne!(other(SEED), other(SEED + 1));
}

/// At every place of generated trees: a kind that the reader refuses at its
/// record is refused at the step that opens it, and no other.
#[test]
fn kinds_are_those_of_the_reader() {
    let [mut wrong, mut right] = [0, 0];
    for bytes in generate::frames(Class::Wild, SEED, 40) {
        let parts = frame::split_any_size(&bytes).expect("a frame");
        // Half of the lists of comments run backwards.
        let Ok(steps) = steps::of_image(parts.source, parts.image) else {
            continue;
        };
        let read = reader::read(parts.source, parts.image).expect("legal");
        let mut records = Vec::new();
        read.tree.walk(&mut |record| records.push(record.at));
        // Every kind at every place takes its time.
        records.truncate(100);
        let opens = |step: &Step| matches!(step, Step::Open { .. });
        let opens = (0..steps.len()).filter(|i| opens(&steps[*i]));
        for (at, index) in records.into_iter().zip(opens) {
            for kind in [2, 16, 42, 51, 63, 86] {
                let mut image = parts.image.to_vec();
                image[at + 4] = kind;
                let steps = with_kind(&steps, index, kind);
                let place = joined(&steps[..index]).len();
                let cause = Cause::KindWrong;
                let fault = follow(&joined(&steps)).err();
                let answer = reader::read(parts.source, &image).err();
                if fault == Some(Fault { cause, place }) {
                    wrong += 1;
                    assert_eq!(answer, Some(refusal(4, at)));
                } else {
                    right += 1;
                    assert_eq!(answer.is_some(), fault.is_some());
                }
            }
        }
    }
    assert!(wrong > 5_000 && right > 500, "{wrong} and {right}");
}

fn with_kind(steps: &[Step], index: usize, other: u8) -> Vec<Step> {
    let mut steps = steps.to_vec();
    if let Step::Open { kind, .. } = &mut steps[index] {
        *kind = other;
    }
    steps
}
