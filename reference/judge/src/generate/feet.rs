//! Files with comments after the last declaration: none, one or many, on its
//! line, after blank lines, up to the source's end, in files without a
//! declaration, and in lists that run backwards.

use std::ops::Range;

use super::{Draft, realistic, wild};
use crate::{
    image::{node, text},
    random::Random,
};

/// What stands before a comment, and at the source's end.
const GAPS: [&str; 10] = [
    "",
    " ",
    "\n",
    "\n",
    "\n\n",
    "\n \n",
    "\n\n\n\n",
    "\r\n",
    "\r\n\r\n",
    "\u{3000}\u{2028}",
];

const REMARKS: [&str; 9] = [
    "// Filed 2026-03-01, reference 4471",
    "# ok",
    "//",
    "#",
    "// ends in é",
    "// 日本語",
    "// trailing blanks  ",
    "//\u{3000}\u{85}",
    "x",
];

/// One frame by seed and index.
pub fn frame(seed: u64, index: u64) -> Vec<u8> {
    draft(&mut Random::new(105, seed, index)).frame()
}

pub fn draft(random: &mut Random) -> Draft {
    let draft = match random.below(8) {
        0 | 1 => bare(random),
        2 => wild::draft(random),
        3 => realistic::draft(random),
        _ => realistic::short_draft(random),
    };
    with_foot(random, draft)
}

/// Comments behind a draft that is made so.
pub fn of(random: &mut Random, make: fn(&mut Random) -> Draft) -> Draft {
    let draft = make(random);
    with_foot(random, draft)
}

/// One without declarations.
pub fn bare_draft(random: &mut Random) -> Draft {
    let draft = bare(random);
    with_foot(random, draft)
}

fn with_foot(random: &mut Random, mut draft: Draft) -> Draft {
    let listed = draft.comments.len();
    // A draft whose last comment has no newline goes on in its line.
    for _ in 0..*random.pick(&[0, 1, 1, 1, 2, 3, 5, 30]) {
        put(random, &mut draft, &GAPS);
        put_comment(random, &mut draft);
    }
    if !random.once_in(3) {
        put(random, &mut draft, &GAPS);
    }
    turn(random, &mut draft, listed);
    draft
}

/// No declarations; the shebang is none.
fn bare(random: &mut Random) -> Draft {
    let shebang = random.once_in(4).then(|| text(0..0, 4, "#!/x"));
    Draft {
        source: (*random.pick(&GAPS)).into(),
        comments: vec![],
        tree: node(1, 0..0, [shebang]),
    }
}

fn put(random: &mut Random, draft: &mut Draft, pieces: &[&str]) {
    let piece = *random.pick(pieces);
    draft.source.push_str(piece);
}

/// A comment to the end of its line, its newline included or not.
fn put_comment(random: &mut Random, draft: &mut Draft) {
    let start = draft.source.len();
    put(random, draft, &REMARKS);
    let end = draft.source.len();
    put(random, draft, &["", "\n", "\n", "\r\n"]);
    let whole = random.once_in(2);
    let end = if whole { draft.source.len() } else { end };
    draft.comments.push(start..end);
}

/// Now and then the list runs backwards from a place on, or one of it lies
/// elsewhere.
fn turn(random: &mut Random, draft: &mut Draft, listed: usize) {
    let from = if random.once_in(3) { 0 } else { listed };
    let turned = &mut draft.comments[from..];
    if turned.is_empty() {
        return;
    }
    match random.below(8) {
        0 => turned.reverse(),
        1 => {
            let [a, b] = [(); 2].map(|()| random.below(turned.len()));
            turned.swap(a, b);
        }
        2 => {
            let which = random.below(turned.len());
            turned[which] = anywhere(random, &draft.source);
        }
        _ => {}
    }
}

/// A range of the source's characters that isn't empty; it isn't either.
fn anywhere(random: &mut Random, source: &str) -> Range<usize> {
    let starts: Vec<_> = source.char_indices().map(|(at, _)| at).collect();
    let start = random.below(starts.len());
    let end = random.between(start + 1, starts.len());
    starts[start]..starts.get(end).copied().unwrap_or(source.len())
}
