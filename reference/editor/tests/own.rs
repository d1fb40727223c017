//! Files of one's own, as `reference/fmt` formats them.

use std::{fs, path::PathBuf};

use editor::{
    common::target::{Put, Target},
    own::text_of,
};
use judge::{
    frame,
    generate::{self, Class},
    script,
};
use rrufthim::{Formatter, Options};

fn text(source: &str) -> Result<String, String> {
    let own = text_of(&mut Formatter::new(), source.as_bytes());
    own.map(|own| own.text)
}

/// The comments of a source stand in a text, one behind the other.
fn assert_holds_comments(source: &str, text: &str) {
    let (comments, _) = script::read(source).expect("it was read");
    let mut rest = text;
    for comment in comments {
        let comment = source[comment].trim_end();
        let at = rest.find(&format!("{comment}\n"));
        let at = at.unwrap_or_else(|| panic!("{comment} in\n{text}"));
        rest = &rest[at + comment.len()..];
    }
}

/// Sources with comments in nearly every gap.
#[test]
fn generated_files() {
    let mut formatter = Formatter::new();
    let (mut formatted, mut otherwise) = (0, 0);
    for bytes in generate::frames(Class::Realistic, 5, 1000) {
        let frame = frame::split_any_size(&bytes).expect("a frame");
        let source = str::from_utf8(frame.source).expect("a text");
        match text_of(&mut formatter, frame.source) {
            Ok(own) => {
                formatted += 1;
                assert_holds_comments(source, &own.text);
                let again = text_of(&mut formatter, own.text.as_bytes());
                assert_holds_comments(source, &again.expect("read").text);
            }
            Err(why) if script::read(source).is_err() => {
                assert!(why.contains("the parser doesn't know"), "{why}");
            }
            Err(why) => {
                otherwise += 1;
                assert!(why.contains("read as something else"), "{why}");
            }
        }
    }
    assert!(formatted > 700, "{formatted} formatted");
    assert!(otherwise < 10, "{otherwise} would be read otherwise");
}

/// What the formatter may change.
#[test]
fn the_same_file() {
    let all = [
        ("import a.{b};", "import a.b;\n"),
        ("import {a.{b.{c}}};", "import a.b.c;\n"),
        ("fn f() { if a {}; }", "fn f() {\n    if a {}\n}\n"),
        ("fn f() { {}; a }", "fn f() {\n    {}\n    a\n}\n"),
        ("record R[] {}", "record R {}\n"),
        ("enum E { A() }", "enum E {\n    A,\n}\n"),
        ("filter f() {}", "filtermap f() {}\n"),
        (
            "fn f() { if a {} else if b {} }",
            "fn f() {\n    if a {} else {\n        if b {}\n    }\n}\n",
        ),
        ("#!/x \t\n// c", "#!/x\n\n// c\n"),
        ("const A: T = g(1,);\r\n", "const A: T = g(1);\n"),
        ("const A: f64 = 1e-5;", "const A: f64 = 1e-5;\n"),
        ("", ""),
    ];
    for (source, due) in all {
        assert_eq!(text(source).as_deref(), Ok(due), "{source}");
    }
}

/// What it would change besides, or can't read.
#[test]
fn refused_with_a_place() {
    let other = "from here on its text would be read as something else";
    let all = [
        ("fn f() {\n    {};\n    -a\n}", "line 2, column 5", other),
        ("fn f() {\n    {};\n    (a)\n}", "line 2, column 5", other),
        ("const A: T = f\"{ {a: 1} }\";", "line 1, column 16", other),
        (
            "const A: T = 1;\n\nconst B",
            "line 3, column 8",
            "the parser doesn't know what stands here",
        ),
    ];
    for (source, place, why) in all {
        assert_eq!(text(source), Err(format!("{place}: {why}")), "{source}");
    }
    let twice = text("const A: i32 = - -1;").expect_err("no text");
    assert!(twice.ends_with("not be read again: const A: i32 = --1;"));
    let many = "//\n".repeat(8193);
    let why = "it has 8193 comments, over 8192";
    assert_eq!(text(&many), Err(why.to_owned()));
}

#[test]
fn no_text_lacks_a_comment() {
    let mut formatter = Formatter::new().with_options(Options::AS_ROTO);
    let mut as_roto = |source: &str| {
        text_of(&mut formatter, source.as_bytes()).map(|own| own.text)
    };
    let kept = "// c\nconst A: u32 = 1;\n";
    assert_eq!(as_roto(kept).as_deref(), Ok(kept));
    let foot = "const A: u32 = 1;\n\n// c\n// d\n";
    let why = "Roto's own formatter would drop 2 comments from here on";
    assert_eq!(as_roto(foot), Err(format!("line 3, column 1: {why}")));
    assert_eq!(text(foot).as_deref(), Ok(foot));
}

#[test]
fn a_file_that_changed_meanwhile_stays() {
    let folder = PathBuf::from(env!("CARGO_TARGET_TMPDIR")).join("own");
    fs::create_dir_all(&folder).expect("a folder");
    let path = folder.join("a.roto");
    fs::write(&path, "older").expect("a file");
    let target = Target::read(&path).expect("it is there");
    fs::write(&path, "newer").expect("a file");
    let put = target.replace(b"text").expect("nothing fails");
    assert_eq!(put, Put::LeftAlone);
    assert_eq!(fs::read(&path).expect("it is there"), b"newer");
    let target = Target::read(&path).expect("it is there");
    let put = target.replace(b"text").expect("nothing fails");
    assert_eq!(put, Put::Replaced);
    assert_eq!(fs::read(&path).expect("it is there"), b"text");
    assert_eq!(fs::read_dir(&folder).expect("a folder").count(), 1);
}
