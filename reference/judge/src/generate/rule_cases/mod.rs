//! A fixed list of calls that choose rules: texts that cut a character, lines
//! that turn by one rule and not by another, and what is refused.

mod layout;
mod order;
mod rows;
mod texts;

use super::{
    CallCase,
    rendering::parts::{self, Part},
};
use crate::{
    allotment::ALL_ROWS,
    calls::{Call, RenderArgs},
    image::with_header,
    width::REFERENCE,
};

pub use texts::every as every_text;

/// All cases.
pub fn cases() -> Vec<CallCase> {
    let parts = [
        texts::torn(),
        texts::kinds(),
        texts::neighbours(),
        texts::unread(),
        rows::turning(),
        rows::widths_stand(),
        rows::rooms(),
        rows::carried(),
        rows::illegal(),
        rows::choices(),
        order::encodings(),
        order::versions(),
        order::causes(),
        layout::sums(),
        layout::turning(),
        layout::carried(),
        layout::illegal(),
        layout::choices(),
        layout::unreadable(),
    ];
    parts.into_iter().flatten().collect()
}

/// Characters of one to four bytes.
const CHARACTERS: &str = "ab日本é\u{1F980}x";

/// What the image has behind them: a byte 80 that is no character's, a width
/// that looks like one, and sequences that are none: cut off, a surrogate's,
/// overlong, past the last code point.
const NONE: &[u8] =
    b"\x80i\xC3\xA9i\xE6\x97i\xED\xA0\x80\xC0\x80\xF4\x90\x80\x80\xFFi";

/// A body of 128 bytes, so that the last byte of its length is 80; its end
/// cuts a character off. Rendering looks at no more of it than the header.
fn image() -> Vec<u8> {
    let mut body = [CHARACTERS.as_bytes(), NONE].concat();
    body.resize(126, b'i');
    body.extend(b"\xE6\x97");
    with_header(&body)
}

/// One rendering call on all of some rows, by a rule.
fn on(nodes: &[Part], rule: usize) -> CallCase {
    let mut case = parts::on(nodes);
    case.source = CHARACTERS.into();
    case.image = image();
    let rows = case.world.room_for_rows();
    case.calls = vec![render(rule, rows, parts::PLENTY)];
    case
}

/// The same with the rows' texts in a source of its own.
fn on_source(source: &str, nodes: &[Part], rule: usize) -> CallCase {
    let mut case = on(nodes, rule);
    case.source = source.into();
    case
}

fn render(rule: usize, stop: usize, room: usize) -> Call {
    Call::Render(RenderArgs {
        stop,
        room,
        width: REFERENCE,
        rule,
        allotment: ALL_ROWS,
    })
}
