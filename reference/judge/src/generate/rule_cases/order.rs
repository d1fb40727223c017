//! Rendering calls with several causes at once: 20, 1, 2, 3, 11, 12, 15, 9,
//! 10 in this order.

use super::{
    super::{
        CallCase,
        rendering::parts::{PLENTY, Part, group, pen},
    },
    on, render,
};
use crate::{
    calls::{Call, LayoutArgs, RenderArgs},
    image::{self, Tree, node},
    mode::OLD,
    reader::Version,
    rows::{Row, SOURCE},
    rule::{LEGAL, SUPPLIED, UNICODE_15_1, UNICODE_16_0},
};

/// Sources that aren't UTF-8, by each rule, with an image that is none and
/// one that is: 2 with its place unless widths are supplied, then 3.
pub fn encodings() -> Vec<CallCase> {
    let sources: [&[u8]; 5] = [
        b"ab\xFFcd",
        b"ab\xE6\x97",
        b"\x80",
        b"abc\xC0\x80",
        b"ab\xED\xA0\x80",
    ];
    let mut cases = Vec::new();
    for source in sources {
        for rule in LEGAL {
            let mut case = on(&[Part::Ascii([SOURCE, 0, 1])], rule);
            case.source = source.to_vec();
            cases.push(case.clone());
            case.image = b"\x03".to_vec();
            cases.push(case);
        }
    }
    cases
}

/// A first byte 2 by each rule, with and without what it belongs to, and with a
/// source that isn't UTF-8: 20 before all else but by Unicode 16.0.
pub fn versions() -> Vec<CallCase> {
    let shebang = Tree {
        payload: b"#!/x \n".to_vec(),
        ..node(2, 0..0, [])
    };
    let tree = node(1, 0..0, [Some(shebang)]);
    let whole = image::write_as(Version::Two, &[], &tree);
    let mut cases = Vec::new();
    for image in [&whole[..], b"\x02", &whole[..9]] {
        for source in [&b"ab"[..], b"ab\xFF"] {
            for rule in LEGAL {
                let layout = Call::Layout(LayoutArgs {
                    stop: 0,
                    close: true,
                    mode: OLD,
                    rule,
                    archive: false,
                });
                let mut case = on(&[Part::Ascii([SOURCE, 0, 1])], rule);
                case.source = source.to_vec();
                case.image = image.to_vec();
                cases.push(case.clone());
                // The shebang, and two lines.
                let both = [layout, render(rule, 3, PLENTY)];
                case.world.store = vec![0; 3 * Row::CELLS];
                case.calls = both.to_vec();
                cases.push(case);
            }
        }
    }
    cases
}

/// Each cause or not, by each rule and by one that is none.
pub fn causes() -> Vec<CallCase> {
    let mut cases = Vec::new();
    for rule in [SUPPLIED, UNICODE_15_1, UNICODE_16_0, 4] {
        for causes in 0..64 {
            // A few of the many.
            if (causes + rule) % 7 == 0 {
                cases.push(several(rule, |cause| causes >> cause & 1 == 1));
            }
        }
    }
    cases
}

/// A group too wide for a line, and what is wrong with it.
fn several(rule: usize, wrong: impl Fn(usize) -> bool) -> CallCase {
    let text = match wrong(0) {
        true => [SOURCE, 3, 2],
        false => [SOURCE, 0, 15],
    };
    let parts = vec![Part::Ascii(text); 3];
    let mut case = on(&[group(7, parts)], rule);
    if wrong(1) {
        case.source[14] = 0xFF;
    }
    if wrong(2) {
        case.image[0] = 3;
    }
    if wrong(3) {
        case.world.rendering.rule = 1 + rule % 3;
    }
    case.world.marks = vec![4; if wrong(4) { 2 } else { 8 }];
    case.world.rendering.pen = pen([0, 0, 60]);
    if let [Call::Render(RenderArgs { width, room, .. })] =
        &mut case.calls[..]
    {
        *width = if wrong(5) { 39 } else { 80 };
        *room = 40;
    }
    case
}
