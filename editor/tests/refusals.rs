//! Each number of the table, its place and its sentence.

mod support;

use std::collections::HashSet;

use rrufthim::{
    File, Options, Refusal,
    calls::{Accepted, LayoutArgs, LayoutState, RenderState, check, layout},
    encode, kind,
};
use support::{Buffers, constants};

const SOURCE: &str = "const A: u32 = 1;";

fn image() -> Vec<u8> {
    encode(&constants(SOURCE), &[0..5]).expect("within the limits")
}

/// The table has each number once, and those without a place are the
/// documents'.
#[test]
fn numbers_and_places_come_back() {
    let numbers = Refusal::TABLE.iter().map(|row| row.number);
    assert!(numbers.eq(1..=24));
    let without = Refusal::TABLE.iter().filter(|row| row.place.is_none());
    let without: Vec<_> = without.map(|row| row.number).collect();
    assert_eq!(without, [1, 3, 12, 13, 14, 15, 20, 22, 23, 24]);
    for row in Refusal::TABLE {
        let place = if row.place.is_some() { 77 } else { 0 };
        let refusal = Refusal::from_numbers(row.number, 77);
        assert_eq!((refusal.number(), refusal.place()), (row.number, place));
        assert!(format!("{refusal:?}").starts_with(row.name));
    }
    let strange = Refusal::from_numbers(99, 5);
    assert_eq!((strange.number(), strange.place()), (99, 5));
}

/// Its words are the cause, and the place if there is one.
#[test]
fn each_has_a_sentence_of_its_own() {
    let sentences = Refusal::TABLE.iter().map(|row| {
        let words = Refusal::from_numbers(row.number, 77).to_string();
        assert!(words.starts_with(row.cause), "{words}");
        assert_eq!(words.ends_with(": 77)"), row.place.is_some(), "{words}");
        words
    });
    let sentences: HashSet<String> = sentences.collect();
    assert_eq!(sentences.len(), 24);
    let output = Refusal::MoreOutput { needed: 77 };
    let due = "the output is too short (bytes needed: 77)";
    assert_eq!(output.to_string(), due);
    let width = Refusal::BadWidth.to_string();
    assert!(
        width.ends_with("or not that of the calls before"),
        "{width}"
    );
    let strange = Refusal::from_numbers(99, 5).to_string();
    assert!(strange.contains("by 99 at 5"), "{strange}");
}

/// An image with one byte set.
fn damaged(at: usize, byte: u8) -> Vec<u8> {
    let mut image = image();
    image[at] = byte;
    image
}

fn checked(source: &[u8], image: &[u8]) -> Result<Accepted, Refusal> {
    check(File::new(source, image))
}

/// Refusals 1 to 7, each provoked.
#[test]
fn the_reader_refuses() {
    let source = SOURCE.as_bytes();
    let long = vec![b' '; 65_537];
    assert_eq!(checked(&long, &image()), Err(Refusal::SourceTooLong));
    let bad = Refusal::SourceNotUtf8 { at: 2 };
    assert_eq!(checked(b"ab\xFF", &image()), Err(bad));
    for version in [0, 3, 255] {
        let other = damaged(0, version);
        assert_eq!(checked(source, &other), Err(Refusal::NoImage));
    }
    // The comment's pair is at 7, the tree's record at 15, the constant's
    // behind its kind, span and absent shebang.
    let at = 15 + 4 + 9 + 4;
    let kind = damaged(at + 4, 99);
    assert_eq!(checked(source, &kind), Err(Refusal::BadRecord { at }));
    let span = damaged(at + 12, 200);
    assert_eq!(checked(source, &span), Err(Refusal::BadSpan { at }));
    let comment = damaged(14, 0);
    let refusal = Refusal::BadComment { at: 7 };
    assert_eq!(checked(source, &comment), Err(refusal));
}

/// 65 records deep, which the encoder doesn't write: the tree, a constant,
/// its name and type, then parentheses in parentheses.
#[test]
fn the_reader_refuses_depth() {
    let mut record = b"\0\0\0\x0A\x57\0\0\0\0\0\0\0\0\0".to_vec();
    record = led(kind::LITERAL_EXPR, &record);
    for _ in 0..61 {
        record = led(kind::PARENTHESES, &record);
    }
    let name = b"\0\0\0\x0B\x02\0\0\0\0\0\0\0\0\0\0".to_vec();
    let never = b"\0\0\0\x09\x2A\0\0\0\0\0\0\0\0".to_vec();
    let constant = led(kind::CONST, &[name, never, record].concat());
    let tree = led(kind::TREE, &[vec![0; 4], constant].concat());
    let body = [vec![0, 0], tree].concat();
    let length = (body.len() as u32).to_be_bytes();
    let image = [vec![1], length.to_vec(), body].concat();
    let at = image.len() - 14;
    assert_eq!(checked(b"", &image), Err(Refusal::TooDeep { at }));
}

/// A record of a kind with these children.
fn led(kind: u8, children: &[u8]) -> Vec<u8> {
    let length = (children.len() as u32 + 9).to_be_bytes();
    [&length[..], &[kind], &[0; 8], children].concat()
}

/// Refusals 8 to 12, each provoked.
#[test]
fn calls_refuse() {
    let (image, options) = (image(), &Options::default());
    let file = File::new(SOURCE, &image);
    let format =
        |rows, marks, output| Buffers::new(rows, marks, output).format(file);
    let rows = Refusal::MoreRows { needed: 11 };
    assert_eq!(format(0, 0, 0), Err(rows));
    let marks = Refusal::MoreMarks { needed: 1 };
    assert_eq!(format(11, 0, 0), Err(marks));
    let output = format(11, 1, 0).expect_err("no output");
    assert_eq!(output.number(), 10);
    let mut ample = Buffers::ample();
    let row = ample.render(file, &RenderState::default(), 1, options);
    assert_eq!(row, Err(Refusal::BadRow { row: 0 }));
    let mut state = LayoutState::default();
    state.position = 1;
    let (store, args) = (&mut ample.store, LayoutArgs::up_to(0));
    let state = layout(file, store, &state, &args, options);
    assert_eq!(state, Err(Refusal::BadState));
}
