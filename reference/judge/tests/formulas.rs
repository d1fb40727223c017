//! Request 14: the small formulas, their order and their images.

use std::cmp::Ordering::Less;

use judge::{
    formulas::{COUNTS, Formula, MOST, image, of_size, write},
    frame::join,
    program::{self, Widths},
    reader,
    reads_back::{Verdict, reads_back},
    refusal::refusal,
};

fn all() -> impl Iterator<Item = &'static Formula> {
    (1..=MOST).flat_map(of_size)
}

#[test]
fn there_are_as_many_as_the_document_says() {
    let counts = (1..=MOST).map(|size| of_size(size).len());
    assert!(counts.eq(COUNTS));
    assert_eq!(all().count(), 1_437);
}

/// "each expression appears exactly once"
#[test]
fn each_comes_before_all_behind_it() {
    let sorted: Vec<_> = all().collect();
    for pair in sorted.windows(2) {
        assert_eq!(pair[0].order(pair[1]), Less, "{pair:?}");
    }
}

/// Sizes 1 to 3 in full, by the sentence of the document.
#[test]
fn the_first_are_in_the_documents_order() {
    let texts = |size| of_size(size).iter().map(Formula::text);
    assert!(texts(1).eq(["a"]));
    assert!(texts(2).eq(["-a", "(a)"]));
    assert!(texts(3).eq(["a + a", "a * a", "--a", "-(a)", "(-a)", "((a))"]));
    let due = [
        "a + -a", "a + (a)", "-a + a", "(a) + a", "a * -a", "a * (a)",
        "-a * a", "(a) * a",
    ];
    assert!(texts(4).take(8).eq(due));
}

/// Read by the judge's reader, printed by the original.
#[test]
fn images_are_those_of_their_texts() {
    for formula in all() {
        let image = image(formula);
        let read = reader::read(b"", &image).expect("an accepted image");
        assert!(read.comments.is_empty());
        let frame = join(b"", &image);
        let text = program::output(&frame, Widths::Supplied);
        assert!(
            text.ends_with(&format!("const c: u32 = {};\n", formula.text()))
        );
    }
}

/// Of sizes 1 to 7, how many are read back as they are.
#[test]
fn so_many_are_read_back_the_same() {
    let same = |formula: &&Formula| {
        let verdict = reads_back(b"", &image(formula));
        verdict.expect("an accepted image") == Verdict::Same
    };
    let counts =
        (1..=MOST).map(|size| of_size(size).iter().filter(same).count());
    assert!(counts.eq([1, 2, 6, 18, 56, 180, 592]));
}

#[test]
fn sizes_and_places_are_refused() {
    let none = Err(refusal(24, 0));
    for size in [0, MOST + 1, usize::MAX] {
        assert_eq!(write(size, 0, usize::MAX), none);
    }
    for (size, count) in (1..=MOST).zip(COUNTS) {
        for place in [count, count + 1, usize::MAX] {
            // 24 comes before 17.
            assert_eq!(write(size, place, 0), none);
        }
        let image = write(size, count - 1, usize::MAX).expect("the last");
        let needed = image.len();
        assert_eq!(write(size, count - 1, needed), Ok(image));
        let short = Err(refusal(17, needed));
        assert_eq!(write(size, count - 1, needed - 1), short);
    }
}

/// The longest image, and the whole of the first.
#[test]
fn images_by_hand() {
    let longest = all().map(|formula| image(formula).len()).max();
    assert_eq!(longest, Some(350));
    let zeros = [0; 8];
    let record = |kind: u8, inside: &[u8]| {
        let length = 9 + inside.len() as u8;
        [&[0, 0, 0, length, kind], &zeros[..], inside].concat()
    };
    let path = |name: &[u8]| {
        let text = [&[0, name.len() as u8], name].concat();
        record(4, &record(2, &text))
    };
    let ty = record(41, &[&path(b"u32")[..], &[0; 4]].concat());
    let name = record(2, b"\0\x01c");
    let value = record(56, &path(b"a"));
    let constant = record(11, &[name, ty, value].concat());
    let tree = record(1, &[&[0; 4][..], &constant].concat());
    let body = [&[0, 0][..], &tree].concat();
    let due = [&[1, 0, 0, 0, body.len() as u8][..], &body].concat();
    assert_eq!(write(1, 0, usize::MAX), Ok(due));
}
