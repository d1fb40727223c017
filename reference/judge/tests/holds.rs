//! Which texts are made of comments and tokens, and which are not.

use judge::{
    contents::Contents,
    frame,
    generate::{self, Class},
    holds::{Pieces, is_filler},
    program::{self, Widths},
    reader, script,
    tokens::Token,
};

/// Tokens of a line, those with a `^` before them ending a list.
fn tokens(line: &'static str) -> Vec<Token<'static>> {
    let words = line.split('|');
    words
        .map(|word| Token {
            text: word.strip_prefix('^').unwrap_or(word),
            ends_list: word.starts_with('^'),
        })
        .collect()
}

fn made(comments: &[&str], line: &'static str, text: &str) -> bool {
    let tokens = &tokens(line)[..];
    let pieces = Pieces { comments, tokens };
    pieces.make(text.as_bytes()).is_ok()
}

const COMMENTS: [&str; 2] = ["// a", "// b"];
const CALL: &str = "f|(|x|,|y|^)|;";

fn is_call(text: &str) -> bool {
    made(&COMMENTS, CALL, text)
}

#[test]
fn comments_may_stand_anywhere() {
    assert!(is_call("// a\n// b\nf(x, y);\n"));
    assert!(is_call("f(x, y);// a\n// b\n"));
    assert!(is_call("f( // a\n    x,\n    y, // b\n);\n\n"));
    assert!(is_call("f( // a\n    x,\n    y // b\n,\n);\n\n"));
}

#[test]
fn a_comment_is_there_once_in_order_and_whole() {
    assert!(!is_call("// a\nf(x, y);\n"));
    assert!(!is_call("f(x, y);\n"));
    assert!(!is_call("// b\n// a\nf(x, y);\n"));
    assert!(!is_call("// a\n// b\n// b\nf(x, y);\n"));
    assert!(!is_call("// a\n// a\n// b\nf(x, y);\n"));
    assert!(!is_call("// a\n// bf(x, y);\n"));
    assert!(!is_call("// a\n// f(x, y);\nb\n"));
    assert!(!is_call("// a\nf(x, y); // b"));
    assert!(!is_call("// a\nf(x, y); // b \n"));
}

#[test]
fn a_token_is_there_once_and_in_order() {
    assert!(!is_call("// a\n// b\nf(x, y)\n"));
    assert!(!is_call("// a\n// b\nf(, y);\n"));
    assert!(!is_call("// a\n// b\nf(y, x);\n"));
    assert!(!is_call("// a\n// b\nf(x, x, y);\n"));
    assert!(!is_call("// a\n// b\nf(x y);\n"));
    assert!(!is_call("// a\n// b\n(x, y)f;\n"));
    assert!(!made(&[], "a|-| |b", "b - a"));
    assert!(made(&[], "a|-| |b", "a\n    - b"));
    // A word is written whole, with the blanks that it has.
    assert!(!made(&[], "a| = |b", "a =\nb"));
    assert!(!made(&[], "match |a", "mat ch a"));
}

#[test]
fn nothing_else_is_there() {
    assert!(!is_call("// a\n// b\nf(x, y); z\n"));
    assert!(!is_call("//\n// a\n// b\nf(x, y);\n"));
    assert!(!is_call("// a\n// b\n# c\nf(x, y);\n"));
    assert!(!is_call("// a\n// b\nf(x,\ty);\n"));
    assert!(!is_call("// a\n// b\nf(x,\r\ny);\n"));
    assert!(!is_call("// a\n// b\nf(x, y);\0"));
}

#[test]
fn a_comma_more_stands_where_a_list_ends() {
    assert!(is_call("// a\n// b\nf(x, y,);\n"));
    assert!(!is_call("// a\n// b\nf(x, y,,);\n"));
    assert!(!is_call("// a\n// b\nf(x, y, ,);\n"));
    assert!(!is_call("// a\n// b\nf(,x, y);\n"));
    assert!(!is_call("// a\n// b\nf(x,, y);\n"));
    assert!(!is_call("// a\n// b\nf(x, y),;\n"));
    assert!(!is_call(",// a\n// b\nf(x, y);\n"));
    assert!(!is_call("// a\n// b\nf(x, y);,\n"));
    // An empty list has none.
    assert!(!made(&[], "f|(|)", "f(,)"));
    // Each list has its own.
    assert!(made(&[], "[|[|x|^]|^]", "[[x,],]"));
    assert!(!made(&[], "[|[|x|^]|^]", "[[x,,]]"));
}

#[test]
fn no_comment_starts_in_what_is_around() {
    assert!(!is_filler(b'#') && !is_filler(b'/') && !is_filler(b','));
}

/// A comment may be any part of the source, and a name any text.
#[test]
fn every_way_of_reading_is_tried() {
    // Empty pieces, and a comment that was white space.
    assert!(made(&[], "|a||", "a"));
    assert!(made(&[], "", ""));
    assert!(made(&["", ""], "a", "\na\n"));
    assert!(made(&["", ""], "a", "\n\na"));
    assert!(!made(&["", ""], "a", "a\n"));
    // A comment that looks like a token, and one that is the start of it.
    assert!(made(&["a"], "a|b", "a\nab"));
    assert!(made(&["a"], "a|b", "aa\nb"));
    assert!(!made(&["a"], "a|b", "aab"));
    assert!(made(&["x = 1;"], "x| = |1|;", "x = 1;\nx = 1;"));
    assert!(made(&["x = 1;"], "x| = |1|;|y", "x = 1; x = 1;\ny"));
    // A comment with newlines in it, and blanks before it.
    assert!(made(&["  a\n\n b"], "b", "   a\n\n b\nb"));
    assert!(!made(&["  a\n\n b"], "b", " a\n\n b\nb"));
    // Commas as comments and as names.
    assert!(made(&[","], "x|^]", "x,\n]"));
    assert!(made(&[","], "x|^]", "x,,\n]"));
    assert!(!made(&[","], "x|^]", "x,]"));
    assert!(made(&[], ",|,|^]", ",,,]"));
    assert!(!made(&[], ",|,|^]", ",]"));
    // Blank names and literals, which may be filler too.
    assert!(made(&[" x"], "  | |a", "   x\n a"));
    assert!(made(&[" x"], "   |a", "  x\n   a"));
    assert!(!made(&[], "   |a", "  a"));
    assert!(made(&[], "a|\n|b", "a\nb"));
    assert!(!made(&[], "a|\n|b", "a b"));
}

#[test]
fn a_text_that_is_begun() {
    let tokens = &tokens(CALL)[..];
    let comments = &COMMENTS[..];
    let pieces = Pieces { comments, tokens };
    let begun = |text: &str| pieces.begin(text.as_bytes()).is_ok();
    for text in [
        "",
        "// a\n",
        "f(",
        "f(x, y,",
        "// a\nf(x // b\n,",
        "f( // a\n",
    ] {
        assert!(begun(text), "{text}");
    }
    for text in ["// b\n", "// a", "x", "f(x,,", "f(y", "// a\n// b\n// a\n"]
    {
        assert!(!begun(text), "{text}");
    }
}

#[test]
fn the_fault_is_where_no_way_goes_on() {
    let tokens = &tokens(CALL)[..];
    let comments = &COMMENTS[..];
    let pieces = Pieces { comments, tokens };
    let fault = pieces.make(b"// a\nf(x, z);").unwrap_err();
    assert_eq!(fault.at, "// a\nf(x, ".len());
    assert_eq!((fault.before.comments, fault.before.tokens), (1, 4));
    let fault = pieces.make(b"// a\nf(x, y);\n").unwrap_err();
    assert_eq!(fault.at, "// a\nf(x, y);\n".len());
}

/// Holds a file's pieces against its text, then hands both on.
fn with_text(bytes: &[u8], check: impl Fn(Pieces, &str)) {
    let run = program::answer(bytes, Widths::Supplied).unwrap();
    let frame = frame::split(bytes).unwrap();
    let accepted = reader::read(frame.source, frame.image).unwrap();
    let contents = Contents::of(&accepted);
    let placed = contents.comments.len() - run.comments_left;
    let end = contents.end(placed);
    let pieces = contents.between(Default::default(), end).unwrap();
    assert_eq!(pieces.make(run.text.as_bytes()), Ok(()));
    check(pieces, &run.text);
}

/// With a byte less or a letter more there aren't as many as the pieces have.
#[test]
fn each_byte_counts() {
    let frames = generate::frames(Class::Realistic, 4, 20);
    let accepted =
        frames.filter(|f| program::answer(f, Widths::Supplied).is_ok());
    for bytes in accepted.take(12) {
        with_text(&bytes, |pieces, text| {
            for (at, byte) in text.bytes().enumerate().step_by(7) {
                let mut less = text.as_bytes().to_vec();
                less.remove(at);
                if !is_filler(byte) && byte != b',' {
                    assert!(pieces.make(&less).is_err(), "{at} of {text}");
                }
                let mut more = text.as_bytes().to_vec();
                more.insert(at, b'x');
                assert!(pieces.make(&more).is_err(), "{at} of {text}");
            }
        });
    }
}

#[test]
fn a_comma_more_is_found_at_every_other_place() {
    let bytes = script::frame(
        "// one\nfn f(a: A, b: B) { g(1, [2, 3]); R { c: 1 } } // two\n\
         import a.{b, c};\n",
    );
    with_text(&bytes.unwrap(), |pieces, text| {
        let closing = [" b: B", "3", "3]", " 1", ", c"];
        let ends: Vec<usize> = closing
            .iter()
            .map(|last| text.find(last).unwrap() + last.len())
            .collect();
        for at in 0..=text.len() {
            let mut more = text.as_bytes().to_vec();
            more.insert(at, b',');
            // Before the brace of `{ c: 1 }` a blank stands.
            let blank = at.checked_sub(1).filter(|at| ends.contains(at));
            let blank = blank.is_some_and(|at| &text[at..at + 1] == " ");
            let due = ends.contains(&at) || blank;
            assert_eq!(pieces.make(&more).is_ok(), due, "{at} of {text}");
        }
    });
}
