//! Answers of Rust's own text functions.

mod samples;

pub use samples::samples;

use crate::newlines::in_text;

/// Well-formed, or no answer.
const NONE: u8 = 255;

/// The whole file.
pub fn answers() -> Vec<u8> {
    let mut out = Vec::new();
    put_short_strings(&mut out);
    put_white_space(&mut out);
    let samples = samples();
    out.extend((samples.len() as u16).to_be_bytes());
    for sample in samples {
        put_sample(&mut out, &sample);
    }
    out
}

/// Every string of one byte, then every string of two.
fn put_short_strings(out: &mut Vec<u8>) {
    for byte in 0..=255 {
        out.push(check(&[byte]));
    }
    for first in 0..=255 {
        for second in 0..=255 {
            out.push(check(&[first, second]));
        }
    }
}

/// Where the well-formed prefix ends, unless it is the whole.
fn check(bytes: &[u8]) -> u8 {
    std::str::from_utf8(bytes)
        .map_or_else(|bad| small(bad.valid_up_to()), |_| NONE)
}

/// The ranges of `is_whitespace`, found by asking for every code point.
fn put_white_space(out: &mut Vec<u8>) {
    let mut ranges: Vec<(u32, u32)> = Vec::new();
    for point in 0..=0x10FFFF {
        if !char::from_u32(point).is_some_and(char::is_whitespace) {
            continue;
        }
        match ranges.last_mut() {
            Some((_, last)) if *last + 1 == point => *last = point,
            _ => ranges.push((point, point)),
        }
    }
    out.extend((ranges.len() as u16).to_be_bytes());
    for (first, last) in ranges {
        out.extend(first.to_be_bytes());
        out.extend(last.to_be_bytes());
    }
}

fn put_sample(out: &mut Vec<u8>, sample: &[u8]) {
    out.push(small(sample.len()));
    out.extend(sample);
    out.push(check(sample));
    let Ok(text) = std::str::from_utf8(sample) else {
        return;
    };
    let places = 0..=text.len() + 1;
    for a in places.clone() {
        for b in places.clone() {
            out.push(small(in_text(text, a, b).count));
        }
    }
    for a in places.clone() {
        for b in places.clone() {
            let end = text.get(a..b).map(|part| a + part.trim_end().len());
            out.push(end.map_or(NONE, small));
        }
    }
    for a in places.clone() {
        out.push(something(text, a).map_or(NONE, small));
    }
    for a in places.clone() {
        put_char(out, text.get(a..).and_then(|part| part.chars().next()));
    }
    for a in places.clone() {
        put_char(
            out,
            text.get(..a).and_then(|part| part.chars().next_back()),
        );
    }
    for a in places.clone() {
        for b in places.clone() {
            out.push(small(in_text(text, a, b).place));
        }
    }
}

/// The search of `pop_trailing_comment`.
fn something(text: &str, from: usize) -> Option<usize> {
    let found = text
        .get(from..)
        .and_then(|s| s.find(|c: char| !c.is_whitespace() || c == '\n'));
    found.map(|offset| from + offset)
}

fn put_char(out: &mut Vec<u8>, c: Option<char>) {
    out.extend(c.map_or(u32::MAX, u32::from).to_be_bytes());
}

fn small(value: usize) -> u8 {
    u8::try_from(value).expect("a sample is short")
}
