//! Request 1 of document 02: the newline count with the place of the last
//! newline it counts.

/// How many newlines a range has, and where the last one is, or the range's
/// end if there is none.
#[derive(Clone, Copy, Debug, PartialEq, Eq)]
pub struct Newlines {
    pub count: usize,
    pub place: usize,
}

/// By `str::get` and `rfind`; in a source that isn't UTF-8, by its bytes.
pub fn newlines(source: &[u8], start: usize, end: usize) -> Newlines {
    match std::str::from_utf8(source) {
        Ok(text) => in_text(text, start, end),
        Err(_) => in_bytes(source, start, end),
    }
}

/// `count_newlines` of src/fmt.rs on any range, with the place.
pub fn in_text(text: &str, start: usize, end: usize) -> Newlines {
    let part = text.get(start..end).unwrap_or("");
    Newlines {
        count: part.chars().filter(|c| *c == '\n').count(),
        place: part.rfind('\n').map_or(end, |offset| start + offset),
    }
}

/// The same where `str` has no say: no range has an end at a byte that goes
/// on with a character.
fn in_bytes(source: &[u8], start: usize, end: usize) -> Newlines {
    let inner = |place: usize| matches!(source.get(place), Some(0x80..=0xBF));
    let part = match source.get(start..end) {
        Some(part) if !inner(start) && !inner(end) => part,
        _ => &[],
    };
    let is_newline = |byte: &u8| *byte == b'\n';
    Newlines {
        count: part.iter().filter(|byte| is_newline(byte)).count(),
        place: part
            .iter()
            .rposition(is_newline)
            .map_or(end, |offset| start + offset),
    }
}
