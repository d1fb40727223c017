//! docs/DIFFERENCES.md: every input and output there, on the original.

use std::{any::Any, ops::Range, panic};

use judge::{
    choice::Choice,
    driver, examples, frame,
    image::{self, Tree, chosen, node, text},
    mode::NEW,
    program::{self, Widths},
    reader::{self, Reading},
    reads_back::{Verdict, reads_back},
    rule::{UNICODE_15_1, UNICODE_16_0},
    script,
    tree::Input,
};

const PAGE: &str = include_str!("../../../docs/DIFFERENCES.md");

fn output(frame: &[u8]) -> String {
    program::output(frame, Widths::Supplied)
}

/// What a text becomes; the page's words for one that can't be read.
fn formatted(source: &str) -> String {
    match script::frame(source) {
        Ok(frame) => output(&frame),
        Err(_) => "not read\n".into(),
    }
}

/// The page's fenced blocks in a language, each cut at its `=>` lines.
fn blocks(language: &str) -> Vec<Vec<String>> {
    let fence = format!("```{language}\n");
    let bodies = PAGE.split(&fence).skip(1);
    let body = |rest: &str| rest.split("```").next().unwrap().to_owned();
    bodies.map(|rest| stages(&body(rest))).collect()
}

fn stages(body: &str) -> Vec<String> {
    let stages = body.split("=>\n");
    stages.map(|stage| stage.replace('·', " ")).collect()
}

#[test]
fn texts() {
    let blocks = blocks("roto");
    assert!(blocks.len() > 25, "{} blocks", blocks.len());
    for block in blocks {
        assert!(block.len() > 1, "{block:?}");
        for pair in block.windows(2) {
            assert_eq!(formatted(&pair[0]), pair[1], "{}", pair[0]);
        }
        // Unless the page says otherwise, a second run changes nothing.
        let last = block.last().unwrap();
        if last != "not read\n" {
            assert_eq!(formatted(last), *last);
        }
    }
}

/// What the page shows of the mode that keeps every comment.
#[test]
fn texts_that_keep_all() {
    let blocks = blocks("kept");
    assert!(blocks.len() > 3, "{} blocks", blocks.len());
    let kept = |source: &str| {
        let bytes = script::frame(source).expect("it can be read");
        let frame = frame::split(&bytes).expect("a frame");
        let choice = Choice {
            mode: NEW,
            ..Choice::REFERENCE
        };
        let run = program::format_as(frame, Widths::Supplied, choice);
        run.expect("accepted").text
    };
    for block in blocks {
        let [source, due] = &block[..] else {
            panic!("{block:?}");
        };
        assert_eq!(kept(source), *due);
        assert_eq!(kept(due), *due, "a second run changes nothing");
    }
}

/// What the page shows by an edition of Unicode, the same by both.
#[test]
fn texts_by_unicode() {
    let blocks = blocks("unicode");
    assert!(!blocks.is_empty());
    for block in blocks {
        let [source, due] = &block[..] else {
            panic!("{block:?}");
        };
        for rule in [UNICODE_15_1, UNICODE_16_0] {
            let bytes = script::frame(source).expect("it can be read");
            let frame = frame::split(&bytes).expect("a frame");
            let choice = Choice {
                rule,
                ..Choice::REFERENCE
            };
            let run = program::format_as(frame, Widths::Supplied, choice);
            assert_eq!(run.expect("accepted").text, *due, "{rule}");
        }
    }
}

/// What the page says beside its blocks.
const SAID: &[(&str, &str)] = &[
    ("record R {} // c", "record R {\n} // c\n"),
    ("enum E {} // c", "enum E {\n} // c\n"),
    (
        "import a.{b // c\n}; import d;",
        "import a.b; // c\nimport d;\n",
    ),
    ("import a // c\n; import d;", "import a; // c\nimport d;\n"),
    (
        "fn f() { if a {} // c\nelse {} }",
        "fn f() {\n    if a {} else {\n        // c\n    }\n}\n",
    ),
    (
        "const A: T = g( // c\na);",
        "const A: T = g(\n    // c\n    a,\n);\n",
    ),
    (
        "const A: T = g(a // c\n);",
        "const A: T = g(\n    a, // c\n);\n",
    ),
    (
        "const A: T = g(a.b // c\n);",
        "const A: T = g(\n    a.b // c\n    ,\n);\n",
    ),
    (
        "fn f() { 1 + // c\n2; return // d\n3 }",
        "fn f() {\n    1\n        +  // c\n        2;\n    \
             return  // d\n    3\n}\n",
    ),
    ("const A: u32 = 1 // c\n;", "const A: u32 = 1 // c\n;\n"),
    (
        "record R {} // c\n\nrecord S {}",
        "record R {\n} // c\nrecord S {}\n",
    ),
    ("const A: T = [a,\n\nb];", "const A: T = [a, b];\n"),
    (
        "fn f() { let a = !b.c(); !d.e }",
        "fn f() {\n    let a = !b\n    .c();\n    !d\n    .e\n}\n",
    ),
    (
        "fn f() { match a { _ => !b.c } }",
        "fn f() {\n    match a {\n        _ => !b\n        .c,\n    }\n}\n",
    ),
    ("fn f() { g(!b.c); }", "fn f() {\n    g(!b.c);\n}\n"),
    // Of a chain of operators all break, of another one around it none.
    (
        "fn f() { a + b + 1 // c\n + d }",
        "fn f() {\n    a\n        + b\n        + 1 // c\n        + d\n}\n",
    ),
    (
        "fn f() { a + b * 1 // c\n}",
        "fn f() {\n    a + b\n        * 1 // c\n}\n",
    ),
    (
        "fn f() { a + b.c // c\n}",
        "fn f() {\n    a\n        + b.c // c\n}\n",
    ),
    ("fn f() { a + b // c\n}", "fn f() {\n    a + b // c\n}\n"),
    ("fn f() { a + 1; // c\n}", "fn f() {\n    a + 1; // c\n}\n"),
    (
        "fn f() { while a.b // c\n{} }",
        "fn f() {\n    while a.b // c\n     {}\n}\n",
    ),
];

#[test]
fn texts_said_in_passing() {
    for (source, expected) in SAID {
        assert_eq!(formatted(source), *expected, "{source}");
    }
}

#[test]
fn return_types_are_not_counted() {
    let x = "x".repeat(71);
    let header = format!("fn f(a: {x}) -> u32 {{");
    assert_eq!(header.len(), 89);
    let source = format!("{header}}}");
    assert_eq!(formatted(&source), format!("{header}\n}}\n"));
}

#[test]
fn f_string_text_is_counted_in_bytes() {
    let text = |count| format!("const A: T = [f\"{}\"];", "日".repeat(count));
    assert_eq!(formatted(&text(20)).lines().count(), 1);
    assert_eq!(formatted(&text(21)).lines().count(), 3);
}

#[test]
fn deep_lists_break() {
    let nested = |depth: usize| {
        let source =
            format!("fn f() {}g(){}", "{".repeat(depth), "}".repeat(depth));
        formatted(&source)
    };
    assert!(nested(19).contains("g()\n"));
    assert!(nested(20).contains("g(\n"));
}

/// The smallest inputs are smallest: one column less, and all is as usual.
#[test]
fn edges() {
    let x = |count| "x".repeat(count);
    let call = format!("const {}: T = h(1);", x(65));
    let broken = format!("const {}: T = h(\n    1,\n);\n", x(65));
    assert_eq!(formatted(&call), broken);
    let function = format!("fn {}() {{}}", x(75));
    assert!(formatted(&function).contains("()"));
    let body = format!("fn {}() {{}}", x(72));
    assert_eq!(formatted(&body), body.clone() + "\n");
    let condition = format!("if {} && b {{", x(68));
    let function = format!("fn f() {{ {condition}}} }}");
    assert!(formatted(&function).contains(&condition));
    let f_string = format!("const A: T = f\"{}{{a.b}}\";", x(61));
    assert_eq!(formatted(&f_string), f_string.clone() + "\n");
    // A path elsewhere breaks where an import's doesn't.
    let path = format!("const A: T = {}.b;", x(66));
    assert!(formatted(&path).contains("\n    .b"));
    let wide = format!("const A: T = [\"{}\"];", "日".repeat(21));
    assert_eq!(formatted(&wide), wide.clone() + "\n");
    let lines = format!("const A: T = [\"{}\n{}\"];", x(31), x(31));
    assert_eq!(formatted(&lines), lines.clone() + "\n");
}

#[test]
fn frames() {
    let sources = ["// c\n", "import a // c\n;\n"];
    let blocks = blocks("hex");
    assert_eq!(blocks.len(), sources.len());
    for (block, source) in blocks.iter().zip(sources) {
        let frame = bytes(&block[0]);
        assert_eq!(frame, script::frame(source).unwrap());
        assert_eq!(output(&frame), block[1]);
    }
}

fn bytes(hex: &str) -> Vec<u8> {
    let digits: Vec<char> =
        hex.split_whitespace().collect::<String>().chars().collect();
    let pairs = digits.chunks(2).map(String::from_iter);
    pairs
        .map(|pair| u8::from_str_radix(&pair, 16).unwrap())
        .collect()
}

/// A row of a table: its first cell, and its second as a Rust string.
fn assert_row(first: &str, second: &str) {
    let row = format!("| {first} | `{second:?}` | ");
    assert!(PAGE.contains(&row), "{row}");
}

#[test]
fn white_space() {
    let texts = [
        "const A: u32 = 1;\r\n\r\nconst B: u32 = 2;\r\n",
        "const A: T = \"a\r\nb\";\r\n",
        "const A: u32 = 1;\r\rconst B: u32 = 2;",
        "const A: u32 = 1;\u{2028}\u{2028}const B: u32 = 2;",
        "// c\t\u{3000}\u{85}\nconst A: u32 = 1;",
        "// c\u{200b}\nconst A: u32 = 1;",
        "const A: T = 10.0.0.0/8;",
        "//\tc\nconst A:\tT = '\t';",
    ];
    for source in texts {
        assert_row(&format!("`{source:?}`"), &formatted(source));
    }
}

fn name(content: &str) -> Option<Tree> {
    Some(text(0..0, content.len(), content))
}

fn path(content: &str) -> Option<Tree> {
    Some(node(4, 0..0, [name(content)]))
}

fn value(content: &str) -> Option<Tree> {
    Some(node(56, 0..0, [path(content)]))
}

fn operation(place: u8, left: Option<Tree>, right: Option<Tree>) -> Tree {
    let operator = chosen(86, 0..0, place, []);
    node(63, 0..0, [left, Some(operator), right])
}

/// `const A: T = ` and a value, every span 0, 0.
fn constant(name: Option<Tree>, value: Option<Tree>) -> Tree {
    let ty = node(41, 0..0, [path("T"), None]);
    node(11, 0..0, [name, Some(ty), value])
}

/// A constant's text with an empty source.
fn printed(value: Tree) -> String {
    let declaration = constant(name("A"), Some(value));
    output(&examples::of_source("", vec![], vec![declaration]))
}

#[test]
fn trees_without_parentheses() {
    let sum = operation(8, value("b"), value("c"));
    let product = operation(10, value("a"), Some(sum));
    let first = "63 `*` over `a` and 63 `+` of `b`, `c`, without 70";
    assert_row(first, &printed(product));
    let sum = operation(8, value("a"), value("b"));
    let negation = node(64, 0..0, [Some(sum)]);
    assert_row("64 over 63 `+` of `a`, `b`", &printed(negation));
}

fn over(kind: u8, inner: Option<Tree>) -> Option<Tree> {
    Some(node(kind, 0..0, [inner]))
}

fn binary(
    place: u8,
    left: Option<Tree>,
    right: Option<Tree>,
) -> Option<Tree> {
    Some(operation(place, left, right))
}

/// The place in `BinOp` of `+`.
const ADD: u8 = 8;

/// What is read of a constant's text, by this parser: its value's record; the
/// page's words for a text that can't be read.
fn read_again(printed: &str) -> String {
    let Ok(bytes) = script::frame(printed) else {
        return "not read".into();
    };
    let frame = frame::split(&bytes).expect("a frame");
    let read = reader::read(frame.source, frame.image).expect("legal");
    let constant = read.tree.children[1].as_ref().expect("a constant");
    let value = constant.children[2].as_ref().expect("a value");
    let shown = words(value, printed);
    let plain = shown.strip_prefix('(').and_then(|it| it.strip_suffix(')'));
    plain.unwrap_or(&shown).to_owned()
}

/// A value with round brackets around each record that is no path, and in which
/// such a record is an operand.
fn words(record: &reader::Record, text: &str) -> String {
    let children = record.children.iter().flatten();
    let operands = children
        .filter(|child| (50..=70).contains(&child.kind) && child.kind != 56);
    let mut shown = String::new();
    let mut at = record.span.start;
    for operand in operands {
        shown += &text[at..operand.span.start];
        shown += &words(operand, text);
        at = operand.span.end;
    }
    shown += &text[at..record.span.end];
    match record.kind {
        56 => shown,
        _ => format!("({shown})"),
    }
}

/// Trees of which yes is said, though their texts are read as others, or not
/// at all; as the page calls them.
fn trees_with_a_yes() -> [(&'static str, Option<Tree>); 9] {
    let sum = || binary(ADD, value("a"), value("b"));
    let list = Some(node(3, 0..0, []));
    let assigned = Some(node(61, 0..0, [path("a"), value("b")]));
    let operator = Some(chosen(86, 0..0, 0, []));
    let added = Some(node(62, 0..0, [path("a"), operator, value("b")]));
    let returned = Some(chosen(50, 0..0, 0, [value("a")]));
    let access = |inner| Some(node(55, 0..0, [inner, name("c")]));
    let call = Some(node(54, 0..0, [sum(), list]));
    let negated = || over(64, value("a"));
    [
        ("68 over 63 `+` of `a`, `b`", over(68, sum())),
        ("55 `c` over 63 `+` of `a`, `b`", access(sum())),
        ("54 without arguments over 63 `+` of `a`, `b`", call),
        ("68 over 64 over `a`", over(68, negated())),
        ("55 `c` over 60 over `a`", access(over(60, value("a")))),
        (
            "63 `+` of 50 over `a`, `b`",
            binary(ADD, returned, value("b")),
        ),
        (
            "63 `+` of 61 of `a`, `b`, and `c`",
            binary(ADD, assigned, value("c")),
        ),
        (
            "63 `+` of 62 `+=` of `a`, `b`, and `c`",
            binary(ADD, added, value("c")),
        ),
        ("64 over 64 over `a`", over(64, negated())),
    ]
}

#[test]
fn trees_of_which_yes_is_said() {
    for (image, tree) in trees_with_a_yes() {
        let declaration = constant(name("A"), tree);
        let bytes = examples::of_source("", vec![], vec![declaration]);
        let frame = frame::split(&bytes).expect("a frame");
        let verdict = reads_back(frame.source, frame.image);
        assert_eq!(verdict, Ok(Verdict::Same), "{image}");
        let printed = output(&bytes);
        let again = match &read_again(&printed)[..] {
            "not read" => "not read".into(),
            read => format!("`{read}`"),
        };
        let row = format!("| {image} | `{printed:?}` | {again} |");
        assert!(PAGE.contains(&row), "{row}");
    }
}

#[test]
fn spans_of_nothing() {
    let literal = chosen(87, 0..0, 0, []);
    let literal = node(51, 0..0, [Some(literal)]);
    assert_row("a literal with span 0, 0", &printed(literal));
    let declaration = constant(name("A"), value("a"));
    let source = "// c\n";
    let frame =
        examples::of_source(source, vec![0..source.len()], vec![declaration]);
    let first = "all spans 0, 0, a name as value, the source `// c` with \
                 its comment";
    assert_row(first, &output(&frame));
    let declaration = constant(name("A"), value("a"));
    let frame =
        examples::of_source("a // c\n", vec![2..7], vec![declaration]);
    let run = program::answer(&frame, Widths::Supplied).unwrap();
    assert_eq!(run.comments_left, 1);
}

/// `source` read as it is but for its comments.
fn with_comments(source: &str, comments: &[Range<usize>]) -> String {
    let (_, tree) = script::read(source).unwrap();
    let image = image::write(comments, &tree);
    output(&frame::join(source.as_bytes(), &image))
}

fn cut_statements(tree: &mut Tree) {
    if tree.kind == 30 {
        tree.span.end -= 1;
    }
    tree.children.iter_mut().flatten().for_each(cut_statements);
}

#[test]
fn comment_lists() {
    let source = "import a; // c\n// d\nimport b;\n";
    let first = "`import a; // c`, `// d`, `import b;` with `// d` first in \
                 the list, by the archive entry";
    let (_, tree) = script::read(source).unwrap();
    let image = image::write(&[15..20, 10..15], &tree);
    let frame = frame::join(source.as_bytes(), &image);
    assert_eq!(output(&frame), "refused 7 at 15\n");
    assert_row(first, &program::answer_archived(&frame).unwrap().text);
    let source = "fn f() {\nlet a = 1; // c\n\nlet b = 2;\n}";
    let first = "`let a = 1; // c`, a blank line, `let b = 2;` in `fn f`, \
                 the comment's span without its newline";
    let kept = with_comments(source, &[20..24]);
    assert_row(first, &kept);
    // Statements that end before their `;` do the same.
    let (comments, mut tree) = script::read(source).unwrap();
    cut_statements(&mut tree);
    let image = image::write(&comments, &tree);
    assert_eq!(output(&frame::join(source.as_bytes(), &image)), kept);
    let first = "a comment of one blank before `a` in `fn f() { a }`";
    assert_row(first, &with_comments("fn f() { a }", &[8..9]));
}

#[test]
fn widths_are_believed() {
    let list = node(3, 0..0, [value("a")]);
    let list = node(59, 0..0, [Some(list)]);
    let wide = Some(text(0..0, 65_535, "A"));
    let declaration = constant(wide, Some(list));
    let frame = examples::of_source("", vec![], vec![declaration]);
    let first = "width 65,535 for the name of `const A: T = [a];`";
    assert_row(first, &output(&frame));
}

#[test]
fn an_import_of_nothing() {
    let frame = examples::frame("import-nothing").unwrap();
    assert_row("16 with neither path nor group", &output(&frame));
}

/// `const A: T = VALUE;` with this span for `A`, all others 0, 0.
fn constant_at(span: Range<usize>, value: Option<Tree>) -> Tree {
    constant(Some(text(span, 1, "A")), value)
}

/// What the original makes of a frame whose ranges nobody tested: its text, or
/// the page's words for its panic.
fn untested(frame: &[u8]) -> String {
    let frame = frame::split(frame).unwrap();
    let (source, image) = (frame.source, frame.image);
    let accepted = reader::read_by(source, image, Reading::Believing);
    let accepted = accepted.expect("all but the ranges is right");
    let input = Input::new(&accepted, frame.image);
    let _held = input.supply_widths();
    let run = panic::AssertUnwindSafe(|| driver::run(&input).text);
    match panic::catch_unwind(run) {
        Ok(text) => format!("`{text:?}`"),
        Err(message) => panic_in_words(message).to_owned(),
    }
}

fn panic_in_words(message: Box<dyn Any + Send>) -> &'static str {
    let message = match message.downcast::<String>() {
        Ok(owned) => *owned,
        Err(other) => (*other.downcast::<&str>().unwrap()).to_owned(),
    };
    let known = [
        (
            "out of bounds",
            "panics: a slice past the end (`span_content`)",
        ),
        (
            "subtract with overflow",
            "panics: overflow (`comment.end - 1`)",
        ),
    ];
    let found = known.iter().find(|(part, _)| message.contains(part));
    found.unwrap_or_else(|| panic!("{message}")).1
}

/// "Refusals that the Rust doesn't have": the original without the tests, and
/// the number and place that they give.
#[test]
fn refused_where_the_original_has_no_test() {
    let one = |source, comments, declaration| {
        examples::of_source(source, comments, vec![declaration])
    };
    let name_at = |span| constant_at(span, value("a"));
    let literal = chosen(87, 0..1, 0, []);
    let literal = node(51, 0..0, [Some(literal)]);
    let literal = constant_at(0..0, Some(literal));
    #[allow(clippy::reversed_empty_ranges)]
    let reversed = 2..1;
    let inputs = [
        ("source empty, `A` at 1..2", one("", vec![], name_at(1..2))),
        ("source `é`, `A` at 1..1", one("é", vec![], name_at(1..1))),
        (
            "source `ab`, `A` at 2..1",
            one("ab", vec![], name_at(reversed)),
        ),
        (
            "source empty, the value a literal (87, payload 0) at 0..1",
            one("", vec![], literal),
        ),
        (
            "source `ab`, a comment 1..1, `A` at 2..2",
            one("ab", vec![1..1], name_at(2..2)),
        ),
        (
            "source `ab`, a comment 0..0, `A` at 1..2",
            one("ab", vec![0..0], name_at(1..2)),
        ),
        (
            "source `ab`, comments 1..2 and 0..1, `A` at 2..2",
            one("ab", vec![1..2, 0..1], name_at(2..2)),
        ),
    ];
    for (input, frame) in inputs {
        let original = untested(&frame);
        let port = output(&frame);
        let row = format!("| {input} | {original} | {} |", port.trim_end());
        assert!(PAGE.contains(&row), "{row}");
        assert!(port.starts_with("refused "), "{port}");
        // What the order alone refuses the archive entry answers as the
        // original does.
        let archived = program::answer_archived(&frame);
        let archived = archived.map(|run| format!("`{:?}`", run.text));
        let by_order = input.contains("comments");
        assert_eq!(archived.is_ok(), by_order, "{input}");
        assert!(archived.is_err() || archived == Ok(original), "{input}");
    }
}
