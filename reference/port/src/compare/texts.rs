//! Each text is the program: the comments of the list that are placed and the
//! tokens of the tree, each once and in order, with nothing around them but
//! blanks, newlines, and commas where a list ends. What the other side writes
//! isn't looked at.

use judge::{
    contents::{Contents, Place},
    driver::Run,
    frame::Frame,
    holds::{Fault, Pieces},
    mode::NEW,
    reader::{self, Reading},
};

use super::Tally;

/// Whose texts they are, and of what.
pub const SORTS: [&str; 12] = [
    JUDGED_FILES,
    JUDGED_DECLARATIONS,
    JUDGED_CALLS,
    JUDGED_CALLS_UNDER_WAY,
    JUDGED_BATCHES,
    FILES,
    DECLARATIONS,
    CALLS,
    CALLS_UNDER_WAY,
    BATCHES,
    SINGLES,
    COUNTED,
];

pub const JUDGED_FILES: &str = "whole files, the judge's";
pub const JUDGED_DECLARATIONS: &str = "declarations, the judge's";
pub const JUDGED_CALLS: &str = "calls, all rows rendered, the judge's";
pub const JUDGED_CALLS_UNDER_WAY: &str = "calls under way, the judge's";
pub const JUDGED_BATCHES: &str = "files of batches, the judge's";
pub const FILES: &str = "whole files, the port's";
pub const DECLARATIONS: &str = "declarations, the port's";
pub const CALLS: &str = "calls, all rows rendered, the port's";
pub const CALLS_UNDER_WAY: &str = "calls under way, the port's";
pub const BATCHES: &str = "files of batches, the port's";
pub const SINGLES: &str = "files of batches by single calls, the port's";
pub const COUNTED: &str = "files counted, the port's";

/// What a file says, if the archive entry accepts it.
pub fn contents(frame: Frame<'_>) -> Option<Contents<'_>> {
    let Frame { source, image } = frame;
    let accepted = reader::read_by(source, image, Reading::Earlier);
    accepted.ok().map(|accepted| Contents::of(&accepted))
}

/// A whole file's text, by how many comments are left; in the new mode it
/// holds all of them.
pub fn expect_file(
    tally: &mut Tally,
    sort: &'static str,
    contents: &Contents,
    (mode, left): (usize, usize),
    text: &[u8],
) {
    let all = contents.comments.len();
    let placed = match mode {
        NEW => all,
        // With more left than there are, there are no such pieces.
        _ => all.checked_sub(left).unwrap_or(usize::MAX),
    };
    let to = contents.end(placed);
    expect(tally, sort, contents, [Place::default(), to], text);
}

/// A text from one place to another.
pub fn expect(
    tally: &mut Tally,
    sort: &'static str,
    contents: &Contents,
    places: [Place; 2],
    text: &[u8],
) {
    tally.text(sort, read(contents, places, text, Pieces::make));
}

/// A text that has some of the pieces before a place, the first ones.
pub fn expect_begun(
    tally: &mut Tally,
    sort: &'static str,
    contents: &Contents,
    to: Place,
    text: &[u8],
) {
    let places = [Place::default(), to];
    tally.text(sort, read(contents, places, text, Pieces::begin));
}

/// A fault is told with what stands there, and what might have.
fn read<'c>(
    contents: &'c Contents,
    [from, to]: [Place; 2],
    text: &[u8],
    made_of: impl Fn(&Pieces<'c>, &[u8]) -> Result<(), Fault>,
) -> Result<(), String> {
    let pieces = contents
        .between(from, to)
        .ok_or_else(|| format!("no pieces from {from:?} to {to:?}"))?;
    made_of(&pieces, text).map_err(|fault| {
        let end = text.len().min(fault.at + 24);
        let there = String::from_utf8_lossy(&text[fault.at..end]);
        let Place { comments, tokens } = fault.before;
        let comment = pieces.comments.get(comments);
        let token = pieces.tokens.get(tokens).map(|token| token.text);
        format!(
            "{fault}: {there:?}, next comment {comment:?}, next token \
             {token:?}"
        )
    })
}

/// The places behind the shebang, behind each declaration, and at the end.
pub fn places(contents: &Contents, run: &Run) -> Vec<Place> {
    let stops = run.stops.iter().enumerate();
    let placed = run.closed.comments_placed;
    stops
        .map(|(done, stop)| contents.behind(stop.comments_placed, done))
        .chain([contents.end(placed)])
        .collect()
}

/// The judge's text of a file, whole and declaration by declaration.
pub fn expect_run(
    tally: &mut Tally,
    contents: &Contents,
    mode: usize,
    run: &Run,
) {
    let text = run.text.as_bytes();
    let left = (mode, run.comments_left);
    expect_file(tally, JUDGED_FILES, contents, left, text);
    let ends = run.shown.iter().map(|shown| shown.bytes);
    let ends = ends.chain([text.len()]);
    let mut from = (Place::default(), 0);
    for (place, end) in places(contents, run).into_iter().zip(ends) {
        let part = &text[from.1..end];
        let between = [from.0, place];
        expect(tally, JUDGED_DECLARATIONS, contents, between, part);
        from = (place, end);
    }
}
