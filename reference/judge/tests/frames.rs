//! Document 01's worked frames, and its edges that are frames.

use judge::{
    driver::Run,
    examples, frame,
    program::{self, Widths},
    rows,
};

fn output(name: &str) -> String {
    let bytes = examples::frame(name).unwrap();
    program::output(&bytes, Widths::Supplied)
}

fn run(name: &str) -> Run {
    let bytes = examples::frame(name).unwrap();
    program::answer(&bytes, Widths::Supplied).unwrap()
}

#[test]
fn every_name_has_a_frame() {
    for (name, _) in examples::NAMES {
        assert!(examples::frame(name).is_some(), "{name}");
    }
}

#[test]
fn the_worked_frames() {
    assert_eq!(output("shebang"), "#!/x\n\n");
    assert_eq!(output("version-3"), "refused 3 at 0\n");
    assert_eq!(output("version-2"), "refused 20 at 0\n");
}

#[test]
fn no_declarations_are_one_row() {
    let run_nothing = run("nothing");
    assert_eq!(run_nothing.rows.len(), 1);
    assert_eq!(run_nothing.rows[0].kind, rows::LINE);
    assert_eq!(run_nothing.text, "");
    assert_eq!(run_nothing.comments_left, 0);
    let with_comment = run("comment-alone");
    assert_eq!(with_comment.rows, run_nothing.rows);
    assert_eq!(with_comment.text, "");
    assert_eq!(with_comment.comments_left, 1);
}

#[test]
fn a_constant_is_ten_rows() {
    for (name, left) in [("const", 0), ("const-comment", 1)] {
        let run = run(name);
        assert_eq!(run.rows.len(), 10);
        assert_eq!(run.marks, [0]);
        assert_eq!(run.closed.next_number, 1);
        assert_eq!(run.text, "const A: u32 = 1;\n");
        assert_eq!(run.text.len(), 18);
        assert_eq!(run.comments_left, left);
    }
}

#[test]
fn the_comment_returns_on_the_line_before() {
    let run = run("two-consts");
    assert_eq!(run.text, "const A: u32 = 1; # ok\nconst B: u32 = 2;\n");
    assert_eq!(run.text.len(), 41);
    assert_eq!(run.comments_left, 0);
}

#[test]
fn refusal_13() {
    let short = [
        &[][..],
        &[0, 0, 0],
        &[0, 0, 0, 1],
        &[0xFF, 0xFF, 0xFF, 0xFF, 1, 2, 3],
    ];
    for bytes in short {
        let refused = program::output(bytes, Widths::Supplied);
        assert_eq!(refused, "refused 13 at 0\n");
    }
    let mut bytes = frame::join(&[b' '; 32_000], &[]);
    bytes.resize(frame::MOST_BYTES, 0);
    let refused = program::output(&bytes, Widths::Supplied);
    assert_eq!(refused, "refused 3 at 0\n");
    bytes.push(0);
    let refused = program::output(&bytes, Widths::Supplied);
    assert_eq!(refused, "refused 13 at 0\n");
    // 13 comes before 20, and 20 before 2.
    for (size, due) in [(0, "20"), (frame::MOST_BYTES, "13")] {
        let mut bytes = frame::join(b"\xFF", b"\x02");
        bytes.resize(bytes.len().max(size + 1), 0);
        let refused = program::output(&bytes, Widths::Supplied);
        assert_eq!(refused, format!("refused {due} at 0\n"));
    }
}

#[test]
fn fixed_words_start_at_their_own_place() {
    let words = rows::fixed_words();
    assert_eq!(rows::word_start("filtermap "), Some(0));
    assert_eq!(rows::word_start(""), Some(0));
    assert_eq!(rows::word_start("foreign"), None);
    for word in [" ", "}", "()", "\"", "<", "**", " = "] {
        let start = rows::word_start(word).unwrap();
        assert!(words[start..].starts_with(word));
    }
    // Not the space in `filtermap `, but the one listed after `: `.
    let colon = rows::word_start(": ").unwrap();
    assert_eq!(rows::word_start(" "), Some(colon + 2));
}
