//! The tokens of trees: by hand for every form, and against the rows that the
//! original lays for generated ones.

use judge::{
    choice::Choice,
    contents::Contents,
    driver::{self, Run},
    examples, frame,
    frame::Frame,
    generate::{self, Class},
    image::{Tree, chosen, node, text},
    reader::{self, Reading},
    rows::{self, Row},
    script,
    tree::Input,
};

/// The tokens of a file with bars between, and `^` before those that end a
/// list.
fn said(bytes: &[u8]) -> String {
    let Frame { source, image } = frame::split_any_size(bytes).unwrap();
    let accepted = reader::read(source, image).unwrap();
    let contents = Contents::of(&accepted);
    let mark = |ends_list| if ends_list { "^" } else { "" };
    let tokens = contents.tokens.all.iter();
    let tokens = tokens.map(|t| format!("{}{}", mark(t.ends_list), t.text));
    tokens.collect::<Vec<_>>().join("|")
}

/// Those of a text.
fn of(text: &str) -> String {
    said(&script::frame(text).unwrap())
}

/// Those of statements.
fn within(statements: &str) -> String {
    let tokens = of(&format!("fn f() {{ {statements} }}"));
    let inner = tokens.strip_prefix("fn |f|(|)| |{|");
    inner.and_then(|t| t.strip_suffix("|}")).unwrap().into()
}

/// Those of a declaration over an empty source.
fn declared(declaration: Tree) -> String {
    said(&examples::of_source("", vec![], vec![declaration]))
}

#[test]
fn declarations() {
    let due = "filtermap |m|(|a|: |A|,|b|: |B|^)| |{|}";
    assert_eq!(of("filtermap m(a: A, b: B) { }"), due);
    assert_eq!(of("const A: u32 = 1;"), "const |A|: |u32| = |1|;");
    assert_eq!(of("record R { a: A? }"), "record |R| |{|a|: |A|?|^}");
    assert_eq!(of("fn f() -> ! { a }"), "fn |f|(|)| |-> |!| |{|a|}");
    assert_eq!(of("test t { }"), "test |t| |{|}");
    let due = "import |a|.|{|b|,|c|.|d|^}|;|test |t| |{|}";
    assert_eq!(of("import a.{b, c.d}; test t { }"), due);
}

fn name(name: &str) -> Option<Tree> {
    Some(text(0..0, name.len(), name))
}

fn list(elements: impl IntoIterator<Item = Tree>) -> Option<Tree> {
    Some(node(3, 0..0, elements.into_iter().map(Some)))
}

fn path(names: &[&str]) -> Option<Tree> {
    Some(node(4, 0..0, names.iter().map(|one| name(one))))
}

fn unit() -> Tree {
    node(43, 0..0, [])
}

#[test]
fn type_parameters_and_variants_that_are_absent_or_empty() {
    let record = |names| node(12, 0..0, [name("R"), names, list([])]);
    assert_eq!(declared(record(None)), "record |R| |{|}");
    assert_eq!(declared(record(list([]))), "record |R| |{|}");
    let one = list([text(0..0, 1, "T")]);
    assert_eq!(declared(record(one)), "record |R|[|T|^]| |{|}");
    let variant = |types| node(21, 0..0, [name("V"), types]);
    let two = list([variant(list([])), variant(list([unit()]))]);
    let due = "enum |E| |{|V|,|V|(|()|^)|^}";
    assert_eq!(declared(node(13, 0..0, [name("E"), None, two])), due);
}

#[test]
fn types() {
    let of = |ty| {
        let truth = node(51, 0..0, [Some(chosen(87, 0..0, 1, []))]);
        let constant = [name("C"), Some(ty), Some(truth)];
        let tokens = declared(node(11, 0..0, constant));
        let ty = tokens.strip_prefix("const |C|: |").unwrap();
        ty.strip_suffix("| = |true|;").unwrap().to_string()
    };
    let named = |types| node(41, 0..0, [path(&["a", "b"]), types]);
    assert_eq!(of(named(None)), "a|.|b");
    assert_eq!(of(named(list([]))), "a|.|b|[|]");
    let two = list([unit(), node(42, 0..0, [])]);
    assert_eq!(of(named(two)), "a|.|b|[|()|,|!|^]");
    let field = node(20, 0..0, [name("f"), Some(unit())]);
    assert_eq!(of(node(44, 0..0, [list([field])])), "{|f|: |()|^}");
    assert_eq!(of(node(40, 0..0, [Some(unit())])), "()|?");
}

#[test]
fn imports() {
    let import = |path, group| node(16, 0..0, [path, group]);
    let item = |name: &str| import(path(&[name]), None);
    assert_eq!(declared(import(None, None)), "import |;");
    let one = import(path(&["a"]), list([item("b")]));
    assert_eq!(declared(one), "import |a|.|b|;");
    let two = import(None, list([item("b"), import(None, None)]));
    assert_eq!(declared(two), "import |{|b|,|^}|;");
    let none = import(path(&["a"]), list([]));
    assert_eq!(declared(none), "import |a|.|{|}|;");
}

#[test]
fn a_shebang_is_trimmed() {
    let shebang = text(0..0, 4, "#!/x \u{2003}\n");
    let tree = node(1, 0..0, [Some(shebang)]);
    let image = judge::image::write(&[], &tree);
    assert_eq!(said(&frame::join(b"", &image)), "#!/x");
}

#[test]
fn statements() {
    assert_eq!(within("let a: A = b; c;"), "let |a|: |A| = |b|;|c|;");
    let due = "let |a| = |true|;|import |b|;|()";
    assert_eq!(within("let a = true; import b; ()"), due);
    let due = "if |a| |{|b|;|}| else |{|c|}|while |d| |{|}";
    assert_eq!(within("if a { b; } else { c } while d { }"), due);
    assert_eq!(within("for e in f { }"), "for |e| in |f| |{|}");
    let due = "return|;|accept| |1|;|reject";
    assert_eq!(within("return; accept 1; reject"), due);
    let due = "a|.|b| = |c|;|a| += |d|;|a| -= |1|;";
    assert_eq!(within("a.b = c; a += d; a -= 1;"), due);
}

#[test]
fn expressions() {
    assert_eq!(within("a - b * -c"), "a|-| |b|*| |-|c");
    assert_eq!(within("!a(b, 1).c?"), "!|a|(|b|,|1|^)|.|c|?");
    let due = "R| |{|a|: |1|,|b|: |[|]|,|c|: |[|2|^]|^}";
    assert_eq!(within("R { a: 1, b: [], c: [2] }"), due);
    let due = "(|f\"|x |{|a|}| y|\"|==| |\"s\"|)";
    assert_eq!(within("(f\"x {a} y\" == \"s\")"), due);
    let due =
        "match |a| |{|B|(|c|,|d|^)| if |e| => |f|,|G| => |{|h|}|_| => |1|,|}";
    assert_eq!(
        within("match a { B(c, d) if e => f, G => { h } _ => 1, }"),
        due
    );
}

/// The texts of rows that are no comments, those aside of which an `IfWrap`
/// chooses one; and before which of them an `IfWrap` stands.
fn laid(
    run: &Run,
    source: &[u8],
    image: &[u8],
) -> (Vec<Vec<u8>>, Vec<usize>) {
    let words = rows::fixed_words();
    let bytes = |row: &Row| {
        let from = match row.origin {
            rows::SOURCE => source,
            rows::IMAGE => image,
            _ => words.as_bytes(),
        };
        from[row.start as usize..][..row.length as usize].to_vec()
    };
    let (mut texts, mut commas) = (Vec::new(), Vec::new());
    let mut place = 0;
    while let Some(row) = run.rows.get(place) {
        match row.kind {
            rows::STR | rows::ASCII => texts.push(bytes(row)),
            rows::IF_WRAP => commas.push(texts.len()),
            _ => {}
        }
        let whole = row.kind == rows::IF_WRAP;
        place = if whole { row.after as usize } else { place + 1 };
    }
    (texts, commas)
}

/// Says whether the frame was accepted.
fn tokens_are_those_laid(bytes: &[u8]) -> bool {
    let Ok(Frame { source, image }) = frame::split_any_size(bytes) else {
        return false;
    };
    let earlier = Reading::Earlier;
    let Ok(accepted) = reader::read_by(source, image, earlier) else {
        return false;
    };
    let input = Input::new(&accepted, image);
    let _held = input.supply_widths();
    let run = driver::run_as(&input, Choice::REFERENCE);
    let contents = Contents::of(&accepted);
    let (texts, commas) = laid(&run, source, image);
    let tokens = &contents.tokens.all;
    let due: Vec<Vec<u8>> =
        tokens.iter().map(|token| token.text.into()).collect();
    assert_eq!(due, texts);
    let ends = (0..).zip(tokens).filter(|(_, token)| token.ends_list);
    let ends: Vec<usize> = ends.map(|(place, _)| place).collect();
    assert_eq!(ends, commas);
    true
}

#[test]
fn rows_have_the_tokens() {
    for (class, name) in Class::ALL {
        let frames = generate::frames(class, 3, 400);
        let accepted = frames.filter(|f| tokens_are_those_laid(f)).count();
        assert!(accepted > 9, "{accepted} of {name}");
    }
    let feet = (0..200).map(|index| generate::foot_frame(3, index));
    assert_eq!(feet.filter(|f| tokens_are_those_laid(f)).count(), 200);
}
