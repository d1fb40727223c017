//! Texts, each with ranges to count newlines in.

use crate::random::Random;

/// No other generator has this number.
const RANDOM: u64 = 90;

/// The longest text, in characters.
const LONGEST: usize = 40;

/// Newlines, what is taken for one (U+000D, U+0085, U+2028, U+2029), and
/// characters of one to four bytes.
const CHARACTERS: [char; 12] = [
    '\n',
    '\r',
    '\u{85}',
    '\u{2028}',
    '\u{2029}',
    ' ',
    'a',
    '\u{7F}',
    '\u{C8A}',
    'é',
    '日',
    '\u{1F980}',
];

/// A text, and ranges each with what it tries.
#[derive(Clone, Debug)]
pub struct RangeCase {
    pub source: Vec<u8>,
    pub ranges: Vec<(&'static str, u64, u64)>,
}

/// The case with this index.
pub fn case(seed: u64, index: u64) -> RangeCase {
    let mut random = Random::new(RANDOM, seed, index);
    let source = text(&mut random);
    let ranges = ranges(&mut random, &source);
    RangeCase { source, ranges }
}

/// One in eight isn't UTF-8.
fn text(random: &mut Random) -> Vec<u8> {
    let newlines = random.between(1, 8);
    let mut text = String::new();
    for _ in 0..random.between(0, LONGEST) {
        text.push(match random.once_in(newlines) {
            true => '\n',
            false => *random.pick(&CHARACTERS),
        });
    }
    let mut bytes = text.into_bytes();
    if random.once_in(8) && !bytes.is_empty() {
        let place = random.below(bytes.len());
        bytes[place] = *random.pick(&[0x80, 0x8A, 0xBF, 0xC3, 0xFF]);
    }
    bytes
}

/// A range of each sort that there is in the text.
fn ranges(
    random: &mut Random,
    source: &[u8],
) -> Vec<(&'static str, u64, u64)> {
    let length = source.len();
    let places = |wanted: fn(u8) -> bool| -> Vec<usize> {
        (0..length).filter(|at| wanted(source[*at])).collect()
    };
    let inside = [(); 2].map(|()| random.between(0, length));
    let [low, high] = [inside[0].min(inside[1]), inside[0].max(inside[1])];
    let past = length + random.between(1, 3);
    let far = *random.pick(&[1 << 31, 1 << 32, 1 << 63, usize::MAX]);
    let mut out = vec![
        ("whole", 0, length),
        ("any", low, high),
        ("empty", low, low),
        ("reversed", high + 1, low),
        ("past the end", low, past),
        ("outside", past, past + high),
        ("far out", low, far),
        ("far out, reversed", far, low),
    ];
    let newlines = places(|byte| byte == b'\n');
    if !newlines.is_empty() {
        let [one, other] = [(); 2].map(|()| *random.pick(&newlines));
        let [first, last] = [one.min(other), one.max(other)];
        out.push(("one newline", first, first + 1));
        out.push(("newlines at both ends", first, last + 1));
        out.push(("between newlines", first + 1, last.max(first + 1)));
    }
    let inner = places(|byte| matches!(byte, 0x80..=0xBF));
    if !inner.is_empty() {
        let place = *random.pick(&inner);
        out.push(("off a boundary at its start", place, length));
        out.push(("off a boundary at its end", 0, place));
    }
    out.into_iter()
        .map(|(sort, start, end)| (sort, start as u64, end as u64))
        .collect()
}
