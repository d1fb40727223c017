//! Files with characters that take two columns, or none, and lines that turn
//! about where a rule says.
//!
//! One name or literal of a random tree is marked, and made longer until a
//! group wraps that didn't while it was short: so the group's width is one
//! column more than there is. Then it gets that length, or one about it.

use std::ops::Range;

use super::{
    Draft,
    edges::{count_names, in_blocks, put_name, tree},
    feet, realistic, rules,
    shape::{Fill, Shapes},
    widths,
};
use crate::{
    choice::Choice,
    frame::Frame,
    grammar::Place,
    image::{Tree, chosen, node, text},
    program::{self, Widths},
    random::Random,
    rule,
    unicode::Edition,
};

const RANDOM: u64 = 108;

/// The source, in pieces that literals, parts of f-strings and comments are
/// taken from; no piece cuts a character.
const PIECES: [&str; 16] = [
    "42",
    "\"東京都千代田区\"",
    "\"火災\"",
    "'é'",
    "\"e\u{301}\u{301}\u{20DD}\"",
    "\"か\u{3099}す\u{302A}\"",
    "\"ﾊﾝｶｸ\"",
    "\"ＡＢＣ\"",
    "\"\u{4DC0}\u{2630}\u{1171E}\u{897}\"",
    "\"\u{1F980}\u{1F1EF}\u{1F1F5}\"",
    "\n",
    "合計",
    " = ",
    "// 備考\n",
    "// か\u{3099}\u{3000}\n",
    "料率",
];
const LITERALS: Range<usize> = 0..10;
const REMARKS: Range<usize> = 13..15;

/// What a name is made of: of each width, and of other widths in another
/// edition.
const CHARACTERS: [char; 28] = [
    'm',
    'x',
    'é',
    'ß',
    'д',
    '\u{FF8A}',
    '日',
    '本',
    '語',
    '保',
    '険',
    'か',
    'Ａ',
    '\u{3000}',
    '\u{1F980}',
    '\u{20000}',
    '\u{301}',
    '\u{20DD}',
    '\u{302A}',
    '\u{3099}',
    '\u{4DC0}',
    '\u{2630}',
    '\u{31E4}',
    '\u{1171E}',
    '\u{897}',
    '\u{1160}',
    '\u{200B}',
    '\u{2FFFE}',
];

/// The most columns that what is marked may take.
const LONGEST: usize = 210;

/// A frame with a width and a rule for it, by seed and index.
pub fn frame(seed: u64, index: u64) -> (Vec<u8>, Choice) {
    let random = &mut Random::new(RANDOM, seed, index);
    let width = match random.below(3) {
        0 => widths::legal(random),
        _ => Choice::REFERENCE.width,
    };
    let choice = Choice {
        width,
        rule: rules::legal(random),
        ..Choice::REFERENCE
    };
    let draft = match random.below(8) {
        0 | 1 => realistic::broad_draft(random),
        2 => feet::of(random, realistic::short_broad_draft),
        _ => draft(random, choice),
    };
    (draft.frame(), choice)
}

/// A file that turns, or is about to, at a width and by a rule.
pub fn draft(random: &mut Random, choice: Choice) -> Draft {
    let edition = rule::edition(choice.rule);
    let edition = edition.unwrap_or(Edition::Unicode16_0);
    let left = *random.pick(&[4, 10, 25]);
    let fill = Broad {
        edition,
        longest: *random.pick(&[2, 4, 12]),
    };
    let tree = match random.once_in(2) {
        true => tree(random, fill, left),
        false => literals(random, fill),
    };
    let characters = characters(random, LONGEST);
    let mut draft = Draft {
        source: PIECES.concat() + &characters,
        comments: vec![],
        tree,
    };
    if random.once_in(5) {
        draft.comments.push(piece(random, REMARKS));
    }
    if let Some(marked) = Marked::one(random, &mut draft.tree) {
        let name = |columns| name(&characters, columns, edition);
        let put = |tree: &mut Tree, length| marked.put(tree, &name, length);
        turn(random, &mut draft, choice, put);
    }
    draft
}

/// A few literals and names: a list, what is called with them, or a sum, in a
/// constant or in blocks.
fn literals(random: &mut Random, fill: Broad) -> Tree {
    let mut shapes = Shapes {
        random,
        fill,
        left: 0,
    };
    let count = shapes.random.between(1, 5);
    let one = |shapes: &mut Shapes<Broad>| match shapes.random.below(4) {
        0 => Some(shapes.of_kind(56, Place::Expr, 20)),
        _ => {
            let literal = piece(shapes.random, LITERALS);
            let literal = Some(chosen(87, literal, 0, []));
            Some(node(51, 0..0, [literal]))
        }
    };
    let mut values: Vec<_> = (0..count).map(|_| one(&mut shapes)).collect();
    let value = match shapes.random.below(4) {
        0 | 1 => node(59, 0..0, [Some(node(3, 0..0, values))]),
        2 => {
            let called = shapes.of_kind(56, Place::Expr, 20);
            node(54, 0..0, [Some(called), Some(node(3, 0..0, values))])
        }
        _ => {
            let first = values.pop().flatten().expect("one at least");
            values.into_iter().fold(first, |left, right| {
                let plus = Some(chosen(86, 0..0, 8, []));
                node(63, 0..0, [Some(left), plus, right])
            })
        }
    };
    let declaration = match shapes.random.once_in(2) {
        true => {
            let name = shapes.record(Place::Kind(2), 3);
            let ty = shapes.of_kind(41, Place::Type, 20);
            node(11, 0..0, [name, ty, value].map(Some))
        }
        false => in_blocks(&mut shapes, node(32, 0..0, [Some(value)])),
    };
    node(1, 0..0, [None, Some(declaration)])
}

/// What is made longer, by its place among those of its sort in reading order.
enum Marked {
    Name(usize),
    /// A literal of the source, or a text of an f-string.
    Content(usize),
}

impl Marked {
    /// Any, if there is one: contents rather than names.
    fn one(random: &mut Random, tree: &mut Tree) -> Option<Self> {
        let mut contents = 0;
        visit_contents(tree, &mut |_| contents += 1);
        let names = count_names(tree);
        match [contents, names] {
            [0, 0] => None,
            [0, _] => Some(Marked::Name(random.below(names))),
            [_, 0] => Some(Marked::Content(random.below(contents))),
            _ if random.once_in(3) => Some(Marked::Name(random.below(names))),
            _ => Some(Marked::Content(random.below(contents))),
        }
    }

    /// Puts a name of so many columns there, or so many bytes of the source's
    /// end.
    fn put(
        &self,
        tree: &mut Tree,
        name: &impl Fn(usize) -> String,
        length: usize,
    ) {
        let content = name(length);
        match self {
            Marked::Name(place) => {
                put_name(tree, *place, &text(0..0, length, &content));
            }
            Marked::Content(place) => {
                let start = PIECES.concat().len();
                // The letter that `name` may end in isn't in the source.
                let whole = content.trim_end_matches('n').len();
                let mut at = 0;
                visit_contents(tree, &mut |record| {
                    if at == *place {
                        record.span = start..start + whole;
                    }
                    at += 1;
                });
            }
        }
    }
}

/// Calls `f` on records whose text is their span, in reading order.
fn visit_contents(tree: &mut Tree, f: &mut impl FnMut(&mut Tree)) {
    if tree.kind == 84 || tree.kind == 87 && tree.payload == [0] {
        f(tree);
    }
    for child in tree.children.iter_mut().flatten() {
        visit_contents(child, f);
    }
}

/// So many columns of these characters, with letters behind them where some
/// are left.
fn name(characters: &str, columns: usize, edition: Edition) -> String {
    let mut name = String::new();
    let mut left = columns;
    for character in characters.chars() {
        let width = edition.width(character.into());
        if width > left {
            break;
        }
        name.push(character);
        left -= width;
    }
    name.extend(std::iter::repeat_n('n', left));
    name
}

/// Puts a length about which a group of the file turns.
fn turn(
    random: &mut Random,
    draft: &mut Draft,
    choice: Choice,
    put: impl Fn(&mut Tree, usize),
) {
    let mut marks = |length: usize| {
        put(&mut draft.tree, length);
        wrapped(draft, choice)
    };
    let before = marks(1);
    let [mut same, mut turned] = [1, LONGEST];
    while turned - same > 1 {
        let middle = same.midpoint(turned);
        if marks(middle) == before {
            same = middle;
        } else {
            turned = middle;
        }
    }
    let about = [same - 1, same, same, turned, turned, turned + 1];
    put(&mut draft.tree, *random.pick(&about));
}

/// Which groups wrap.
fn wrapped(draft: &Draft, choice: Choice) -> Vec<u8> {
    let image = draft.image();
    let frame = Frame {
        source: draft.source.as_bytes(),
        image: &image,
    };
    let run = program::format_as(frame, Widths::Supplied, choice);
    run.expect("a legal tree").marks
}

fn characters(random: &mut Random, count: usize) -> String {
    (0..count).map(|_| *random.pick(&CHARACTERS)).collect()
}

/// The range of one of these pieces in the source.
fn piece(random: &mut Random, pieces: Range<usize>) -> Range<usize> {
    let place = random.between(pieces.start, pieces.end - 1);
    let start = PIECES[..place].concat().len();
    start..start + PIECES[place].len()
}

/// No spans but those of content, and names of the characters above.
struct Broad {
    edition: Edition,
    longest: usize,
}

impl Fill for Broad {
    fn span(&mut self, random: &mut Random, kind: u8) -> Range<usize> {
        match kind {
            87 => piece(random, LITERALS),
            84 => piece(random, 0..PIECES.len()),
            _ => 0..0,
        }
    }

    /// The width is that of Unicode, or what the original's users have.
    fn text(&mut self, random: &mut Random) -> (String, usize) {
        let length = random.between(1, self.longest);
        let name = characters(random, length);
        let width = match random.once_in(2) {
            true => self.edition.columns(&name),
            false => unicode_width::true_width(&name),
        };
        (name, width)
    }
}
