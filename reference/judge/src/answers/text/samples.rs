//! Short byte strings that try every rule of UTF-8 and White_Space.

use crate::random::Random;

/// The longest sample, in bytes.
pub const LONGEST: usize = 12;

/// Bytes at the ends of the classes that well-formed UTF-8 tells apart.
const CLASS_ENDS: [u8; 29] = [
    0x00, 0x0A, 0x20, 0x41, 0x7F, 0x80, 0x8F, 0x90, 0x9F, 0xA0, 0xBF, 0xC0,
    0xC1, 0xC2, 0xDF, 0xE0, 0xE1, 0xEC, 0xED, 0xEE, 0xEF, 0xF0, 0xF1, 0xF3,
    0xF4, 0xF5, 0xF7, 0xF8, 0xFF,
];

/// The 25 code points of White_Space.
const WHITE_SPACE: [char; 25] = [
    '\u{9}', '\u{A}', '\u{B}', '\u{C}', '\u{D}', '\u{20}', '\u{85}',
    '\u{A0}', '\u{1680}', '\u{2000}', '\u{2001}', '\u{2002}', '\u{2003}',
    '\u{2004}', '\u{2005}', '\u{2006}', '\u{2007}', '\u{2008}', '\u{2009}',
    '\u{200A}', '\u{2028}', '\u{2029}', '\u{202F}', '\u{205F}', '\u{3000}',
];

/// Neighbours of white space, and what is taken for it.
const NOT_WHITE_SPACE: [char; 24] = [
    '\0', '\u{8}', '\u{E}', '\u{1C}', '\u{1F}', '\u{21}', '\u{7F}', '\u{84}',
    '\u{86}', '\u{9F}', '\u{A1}', '\u{167F}', '\u{1681}', '\u{180E}',
    '\u{1FFF}', '\u{200B}', '\u{2027}', '\u{202A}', '\u{2030}', '\u{205E}',
    '\u{2060}', '\u{2FFF}', '\u{3001}', '\u{FEFF}',
];

/// Letters of one to four bytes, at the ends of their lengths too.
const LETTERS: [char; 12] = [
    'a',
    '/',
    '\u{7F}',
    '\u{80}',
    'é',
    '\u{7FF}',
    '\u{800}',
    '日',
    '\u{D7FF}',
    '\u{FFFF}',
    '\u{1F980}',
    '\u{10FFFF}',
];

/// All samples, always the same.
pub fn samples() -> Vec<Vec<u8>> {
    let mut samples = vec![vec![]];
    three_bytes(&mut samples);
    four_bytes(&mut samples);
    cut_off(&mut samples);
    white_space_and_neighbours(&mut samples);
    let mut random = Random::new(0, 1, 0);
    for _ in 0..600 {
        samples.push(random_bytes(&mut random));
    }
    for _ in 0..1_200 {
        samples.push(random_text(&mut random));
    }
    samples
}

/// A sequence after a good prefix, and before a letter, by turns.
fn add(samples: &mut Vec<Vec<u8>>, sequence: &[u8]) {
    let turn = samples.len();
    let before: &[u8] = [&b""[..], b"a", "é".as_bytes(), b"\n "][turn % 4];
    let after: &[u8] = [&b""[..], b"a", b""][turn % 3];
    samples.push([before, sequence, after].concat());
}

const TAILS: [&[u8]; 5] = [&[], &[0x7F], &[0x80], &[0xBF], &[0xC0]];

fn three_bytes(samples: &mut Vec<Vec<u8>>) {
    for first in [0xE0, 0xE1, 0xED, 0xEE, 0xEF] {
        for second in [0x7F, 0x80, 0x9F, 0xA0, 0xBF, 0xC0] {
            for third in TAILS {
                add(samples, &[&[first, second], third].concat());
            }
        }
    }
}

fn four_bytes(samples: &mut Vec<Vec<u8>>) {
    for first in [0xF0, 0xF1, 0xF4, 0xF5] {
        for second in [0x7F, 0x80, 0x8F, 0x90, 0xBF, 0xC0] {
            for third in TAILS {
                for fourth in TAILS {
                    let tail = [third, fourth].concat();
                    add(samples, &[&[first, second], &tail[..]].concat());
                }
            }
        }
    }
}

/// Each letter without its last bytes, at the end and in the middle.
fn cut_off(samples: &mut Vec<Vec<u8>>) {
    for letter in LETTERS.map(String::from) {
        for length in 1..letter.len() {
            let cut = &letter.as_bytes()[..length];
            samples.push(cut.to_vec());
            samples.push([b"ab", cut].concat());
            samples.push([cut, b"z"].concat());
            samples.push([cut, letter.as_bytes()].concat());
        }
    }
}

fn white_space_and_neighbours(samples: &mut Vec<Vec<u8>>) {
    for c in WHITE_SPACE.into_iter().chain(NOT_WHITE_SPACE) {
        for text in [
            format!("{c}"),
            format!("a{c}"),
            format!("{c}a"),
            format!("é{c}\n{c}"),
            format!("\n{c}日{c}"),
            format!("{c}{c} {c}"),
        ] {
            samples.push(text.into_bytes());
        }
    }
}

fn random_bytes(random: &mut Random) -> Vec<u8> {
    let length = random.between(1, LONGEST);
    (0..length)
        .map(|_| match random.below(4) {
            0 => random.byte(),
            _ => *random.pick(&CLASS_ENDS),
        })
        .collect()
}

fn random_text(random: &mut Random) -> Vec<u8> {
    let mut text = String::new();
    loop {
        let c = match random.below(6) {
            0 | 1 => *random.pick(&LETTERS),
            2 => '\n',
            3 => *random.pick(&NOT_WHITE_SPACE),
            _ => *random.pick(&WHITE_SPACE),
        };
        if text.len() + c.len_utf8() > LONGEST || random.once_in(12) {
            return text.into_bytes();
        }
        text.push(c);
    }
}
