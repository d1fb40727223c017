//! All small formulas: how many, in which order, and what is made of them.

mod support;

use rrufthim::{
    File, Formatter, Refusal, Version,
    calls::{self, check},
    formulas,
    generator::steps,
    limits::MAX_FORMULA_SIZE,
    reads_back,
};
use support::JUNK;

/// How many there are of each size, and of them those that are read back as
/// they are.
const COUNTS: [(usize, usize); MAX_FORMULA_SIZE] = [
    (1, 1),
    (2, 2),
    (6, 6),
    (20, 18),
    (72, 56),
    (272, 180),
    (1_064, 592),
];

fn text(image: &[u8]) -> String {
    let mut formatter = Formatter::new();
    let formatted = formatter.format_file(File::new("", image));
    formatted.expect("a formula").text.to_owned()
}

#[test]
fn all_are_given_in_order() {
    let value = |image: Vec<u8>| {
        let text = text(&image);
        let value = text.strip_prefix("const c: u32 = ").expect("it");
        value.strip_suffix(";\n").expect("its end").to_owned()
    };
    assert!(formulas(1).map(value).eq(["a"]));
    let due = ["a + a", "a * a", "--a", "-(a)", "(-a)", "((a))"];
    assert!(formulas(3).map(value).eq(due));
    for (size, (all, same)) in (1..).zip(COUNTS) {
        let images: Vec<_> = formulas(size).collect();
        assert_eq!(images.len(), all);
        let is_same = |image: &&Vec<u8>| {
            reads_back(File::new("no bytes of it", image)).is_ok()
        };
        assert_eq!(images.iter().filter(is_same).count(), same);
        let mut others = images.clone();
        others.sort_unstable();
        others.dedup();
        assert_eq!(others.len(), all);
    }
    for size in [0, MAX_FORMULA_SIZE + 1, usize::MAX] {
        assert_eq!(formulas(size).next(), None);
    }
}

/// Each goes with every source, has no comment, and is of version 1.
#[test]
fn images_are_plain() {
    for image in formulas(4) {
        assert_eq!(image[0], Version::One.first_byte());
        let accepted = check(File::new("über", &image)).expect("accepted");
        assert_eq!((accepted.comments, accepted.declarations), (0, 1));
        let list = steps(File::new("", &image)).expect("its steps");
        let opened = list.iter().map(ToString::to_string);
        let mut spans = opened.filter(|step| step.starts_with("open"));
        assert!(spans.all(|step| step.ends_with(" at 0..0")));
    }
}

/// A later one is found without those before it.
#[test]
fn places_are_reached_at_once() {
    let all: Vec<_> = formulas(5).collect();
    let mut some = formulas(5);
    assert_eq!(some.nth(10), Some(all[10].clone()));
    assert_eq!(some.next(), Some(all[11].clone()));
    assert_eq!(some.nth(usize::MAX), None);
    assert_eq!(some.clone().count(), 60);
    assert_eq!(some.nth(60), None);
    assert_eq!(some.last(), Some(all[71].clone()));
}

/// 24, then 17; the output as it was.
#[test]
fn the_call_refuses() {
    for (size, (count, _)) in (1..).zip(COUNTS) {
        let image = formulas(size).last().expect("one");
        let needed = image.len();
        for room in 0..needed {
            let mut output = vec![JUNK; room];
            let answer = calls::formula(size, count - 1, &mut output);
            assert_eq!(answer, Err(Refusal::MoreRoom { needed }));
            assert!(output.iter().all(|byte| *byte == JUNK));
        }
        let mut output = vec![JUNK; needed + 8];
        let answer = calls::formula(size, count - 1, &mut output);
        assert_eq!(answer, Ok(needed));
        assert_eq!(output[..needed], image);
        assert!(output[needed..].iter().all(|byte| *byte == JUNK));
        for place in [count, count + 1, usize::MAX] {
            let answer = calls::formula(size, place, &mut []);
            assert_eq!(answer, Err(Refusal::NoFormula));
        }
    }
    for size in [0, 8, 1 << 32, (1 << 32) + 1, usize::MAX] {
        let mut output = [JUNK; 400];
        let answer = calls::formula(size, 0, &mut output);
        assert_eq!(answer, Err(Refusal::NoFormula));
        assert!(output.iter().all(|byte| *byte == JUNK));
    }
}
