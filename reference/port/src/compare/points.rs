//! The columns of every code point, and of texts that are none.

use judge::{
    rule::{self, LEGAL},
    unicode::LAST,
};

use super::Tally;

/// Texts that aren't UTF-8, or only at their start, and some that are.
const TEXTS: [&[u8]; 12] = [
    b"",
    b"plain",
    "größe 日本語 e\u{301}\u{302A}".as_bytes(),
    b"ab\xFFcd",
    b"\x80",
    b"a\xC3",
    b"\xE6\x97\xA5\xE6\x97",
    b"\xE6\x97i\xE6\x97\xA5",
    b"\xED\xA0\x80",
    b"a\xED\xBF\xBFb",
    b"\xF4\x90\x80\x80",
    b"\xC0\x80",
];

/// What a caller supplies, where a text has so many bytes.
fn supplied(bytes: usize) -> [usize; 4] {
    [bytes, 0, 1 << 32, usize::MAX]
}

/// How many parts all code points are compared in.
pub const PARTS: usize = 17;

/// The code points of a part, each as a text of its own, by each rule. A
/// surrogate has no text; its three bytes aren't UTF-8.
pub fn compare(tally: &mut Tally, part: usize) {
    let size = (LAST + 1) / PARTS as u32;
    let points = part as u32 * size..(part as u32 + 1) * size;
    for point in points {
        for rule in LEGAL {
            expect(tally, &bytes(point), rule, point as usize);
        }
    }
    if part == 0 {
        for text in TEXTS {
            for rule in [1, 2, 3, 0, 4, 1 << 32, (1 << 32) + 2, usize::MAX] {
                for supplied in supplied(text.len()) {
                    expect(tally, text, rule, supplied);
                }
            }
        }
    }
}

/// As UTF-8 has it, for surrogates as it would.
fn bytes(point: u32) -> Vec<u8> {
    match char::from_u32(point) {
        Some(character) => character.to_string().into_bytes(),
        None => {
            let [high, middle, low] =
                [point >> 12, point >> 6, point].map(|part| part as u8 & 63);
            vec![0xE0 | high, 0x80 | middle, 0x80 | low]
        }
    }
}

fn expect(tally: &mut Tally, text: &[u8], rule: usize, supplied: usize) {
    let due = rule::columns(text, rule, supplied);
    let number = due.err().map_or(0, |refusal| refusal.number);
    tally.count("columns of texts", number);
    let got = crate::columns(text, rule, supplied);
    if due != got {
        let what =
            format!("columns of {text:02x?} by rule {rule} or {supplied}");
        tally.expect(&what, &due, &got);
    }
}
