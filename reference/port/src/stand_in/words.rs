//! What a text says, with something left out or put elsewhere.

use judge::{
    calls::Given,
    reader::{self, Reading},
};

use super::{Fault, planted};

/// A text of a file, wrong where a fault on its words is planted. It is no
/// longer than before.
pub fn respoken(given: Given, text: Vec<u8>) -> Vec<u8> {
    if planted(Fault::CommentLost) {
        return without_comment(given, &text).unwrap_or(text);
    }
    if planted(Fault::WordsSwapped) {
        return with_words_swapped(text);
    }
    text
}

/// Without the line of the last comment of the list that stands in it.
fn without_comment(given: Given, text: &[u8]) -> Option<Vec<u8>> {
    let Given { source, image } = given;
    let read = reader::read_by(source, image, Reading::Earlier).ok()?;
    let comments = read.comments.iter().rev();
    let (at, length) = comments
        .map(|comment| read.source[comment.clone()].trim_end())
        .filter(|comment| !comment.is_empty())
        .find_map(|comment| {
            let line = format!("{comment}\n");
            let mut windows = text.windows(line.len());
            let at = windows.rposition(|there| there == line.as_bytes())?;
            Some((at, line.len()))
        })?;
    Some([&text[..at], &text[at + length..]].concat())
}

/// With the first two words that stand side by side, and differ, swapped.
fn with_words_swapped(text: Vec<u8>) -> Vec<u8> {
    let mut words: Vec<&[u8]> = text.split(|byte| *byte == b' ').collect();
    let pair = words.windows(2).position(|pair| match pair {
        [first, second] => {
            first != second && !first.is_empty() && !second.is_empty()
        }
        _ => false,
    });
    match pair {
        Some(place) => words.swap(place, place + 1),
        None => return text,
    }
    words.join(&b' ')
}
