//! What the readings of document 01 say of rows and states.

use std::ops::Range;

use judge::{
    driver::Run,
    examples, frame, image,
    image::{Tree, chosen, node, text},
    program::{self, Widths},
    rows::{self, Row},
};

fn run(bytes: &[u8]) -> Run {
    program::answer(bytes, Widths::Supplied).unwrap()
}

fn name(text_: &str) -> Option<Tree> {
    Some(text(0..0, text_.len(), text_))
}

fn path(names: &[&str]) -> Option<Tree> {
    Some(node(4, 0..0, names.iter().map(|n| name(n))))
}

fn list(elements: Vec<Option<Tree>>) -> Option<Tree> {
    Some(node(3, 0..0, elements))
}

/// The text that a declaration gives with an empty source.
fn printed(declaration: Tree) -> String {
    run(&examples::of_source("", vec![], vec![declaration])).text
}

fn of_kind(run: &Run, kind: u32) -> Vec<Row> {
    run.rows
        .iter()
        .filter(|r| r.kind == kind)
        .copied()
        .collect()
}

#[test]
fn imports_without_their_braces() {
    let import = |path, group| node(16, 0..0, [path, group]);
    let item = || Some(import(path(&["b"]), None));
    assert_eq!(printed(import(None, None)), "import ;\n");
    let one = list(vec![item()]);
    assert_eq!(printed(import(path(&["a"]), one)), "import a.b;\n");
    let empty_one = list(vec![Some(import(None, None))]);
    assert_eq!(printed(import(path(&["a"]), empty_one)), "import a.;\n");
    let two = list(vec![item(), item()]);
    assert_eq!(printed(import(path(&["a"]), two)), "import a.{b, b};\n");
    assert_eq!(
        printed(import(path(&["a"]), list(vec![]))),
        "import a.{};\n"
    );
}

#[test]
fn present_but_empty_lists() {
    let unit = || Some(node(51, 0..0, [Some(chosen(87, 0..0, 3, []))]));
    let typed = |arguments| {
        let ty = Some(node(41, 0..0, [path(&["A"]), arguments]));
        printed(node(11, 0..0, [name("c"), ty, unit()]))
    };
    assert_eq!(typed(None), "const c: A = ();\n");
    assert_eq!(typed(list(vec![])), "const c: A[] = ();\n");
    for kind in [12, 13] {
        let without = node(kind, 0..0, [name("R"), None, list(vec![])]);
        let empty = node(kind, 0..0, [name("R"), list(vec![]), list(vec![])]);
        assert_eq!(printed(without), printed(empty));
    }
}

#[test]
fn the_empty_word_is_a_fixed_word() {
    let params = list(vec![Some(node(
        20,
        0..0,
        [name("p"), Some(node(42, 0..0, []))],
    ))]);
    let declaration = node(12, 0..0, [name("R"), None, params]);
    let run = run(&examples::of_source("", vec![], vec![declaration]));
    let choices = of_kind(&run, rows::IF_WRAP);
    let second = run.rows[choices[0].second_part as usize];
    assert_eq!((second.origin, second.start, second.length), (2, 0, 0));
}

fn with_shebang(shebang: &str, width: usize) -> Vec<u8> {
    let tree = node(1, 0..0, [Some(text(0..0, width, shebang))]);
    frame::join(b"", &image::write(&[], &tree))
}

#[test]
fn trimmed_texts_keep_their_start() {
    let run_ = run(&with_shebang("#!x \u{3000}\u{85}\n", 77));
    let row = run_.rows[0];
    assert_eq!((row.origin, row.start, row.length), (1, 35, 3));
    assert_eq!(row.width, 77);
    let blank = run(&with_shebang("\u{a0}\n", 2)).rows[0];
    assert_eq!((blank.start, blank.length, blank.width), (35, 0, 2));
    // U+200B and U+180E are not White_Space.
    let kept = run(&with_shebang("a\u{200B}", 1)).rows[0];
    assert_eq!(kept.length, 4);
}

#[test]
fn a_blank_comment_still_gets_its_row() {
    let source = " \t const A: u32 = 1;";
    let run = run(&examples::of_consts(source, vec![0..3]));
    let comments = of_kind(&run, rows::COMMENT);
    assert_eq!(comments.len(), 1);
    assert_eq!((comments[0].start, comments[0].length), (0, 0));
    assert_eq!(run.text, "\nconst A: u32 = 1;\n");
}

/// Comments placed in front of `const A`, whose name starts at 6.
fn placed(comments: Vec<Range<usize>>) -> usize {
    let source = "const A: u32 = 1;";
    let frame = examples::of_consts(source, comments);
    run(&frame).closed.comments_placed
}

#[test]
fn a_comment_must_start_before_the_place_asked_for() {
    // The literal asks for its end, 16.
    assert_eq!(placed(vec![15..16]), 1);
    assert_eq!(placed(vec![16..17]), 1, "as a trailing comment");
    let source = "const A: u32 = 1 ;x";
    let frame = examples::of_consts(source, vec![18..19]);
    assert_eq!(run(&frame).comments_left, 1);
    // Only the front comment is looked at.
    let backwards = examples::of_consts(source, vec![18..19, 0..1]);
    let archived = program::answer_archived(&backwards).unwrap();
    assert_eq!(archived.comments_left, 2);
}

#[test]
fn a_trailing_comment_may_start_at_the_newline() {
    let value = node(51, 0..1, [Some(chosen(87, 0..1, 0, []))]);
    let ty = node(43, 0..0, []);
    let constant = node(11, 0..0, [name("A"), Some(ty), Some(value)]);
    let at = |comment| {
        let constants = vec![constant.clone()];
        run(&examples::of_source("1 \n;", vec![comment], constants))
    };
    let placed = at(2..4);
    assert_eq!(placed.comments_left, 0);
    assert_eq!(placed.closed.position, 4);
    assert_eq!(at(3..4).comments_left, 1);
}

#[test]
fn the_position_may_stand_inside_a_character() {
    // After a comment it is the comment's end less 1; no newline is counted
    // from there.
    let source = "//é\n\nconst A: u32 = 1;";
    let at = |end| run(&examples::of_consts(source, vec![0..end])).text;
    assert_eq!(at(4), "//é\nconst A: u32 = 1;\n");
    assert_eq!(at(5), "//é\n\nconst A: u32 = 1;\n");
}

#[test]
fn the_first_declaration_is_first_after_a_shebang() {
    let tree = |shebang| {
        let value = node(51, 7..8, [Some(chosen(87, 7..8, 0, []))]);
        let ty = node(43, 0..0, []);
        let constant = node(11, 0..0, [name("A"), Some(ty), Some(value)]);
        let image =
            image::write(&[], &node(1, 0..0, [shebang, Some(constant)]));
        run(&frame::join(b"\n\n\n\n\n\n\n1", &image)).text
    };
    assert_eq!(tree(None), "const A: () = 1;\n");
    assert_eq!(tree(name("#!x")), "#!x\n\nconst A: () = 1;\n");
}

#[test]
fn equal_texts_may_carry_different_widths() {
    let unit = Some(node(51, 0..0, [Some(chosen(87, 0..0, 3, []))]));
    let empty = |width| Some(text(0..0, width, ""));
    let path = Some(node(4, 0..0, [empty(3), empty(65_535), empty(0)]));
    let ty = Some(node(41, 0..0, [path, None]));
    let constant = node(11, 0..0, [empty(9), ty, unit]);
    let bytes = examples::of_source("", vec![], vec![constant]);
    let widths = |run: &Run| -> Vec<u32> {
        of_kind(run, rows::STR)
            .iter()
            .map(|row| row.width)
            .collect()
    };
    assert_eq!(widths(&run(&bytes)), [9, 3, 65_535, 0]);
    let true_widths = program::answer(&bytes, Widths::True).unwrap();
    assert_eq!(widths(&true_widths), [0, 0, 0, 0]);
}
