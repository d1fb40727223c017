//! What would change, as `--diff` shows it.

use super::{
    example::common::diff::unified,
    folder::{Folder, LINE, WIDE},
    support::constants,
};
use rrufthim::encode;

fn shown(old: &str, new: &str) -> String {
    let bytes = unified("a", Some(old.as_bytes()), new.as_bytes());
    String::from_utf8(bytes).expect("of texts")
}

/// Lines `a`, `b`, .. but for some, which have another text.
fn lines(letters: &str, but: &[(char, &str)]) -> String {
    let one = |letter: char| {
        let other = but.iter().find(|(of, _)| *of == letter);
        other.map_or(format!("{letter}\n"), |(_, text)| text.to_string())
    };
    letters.chars().map(one).collect()
}

#[test]
fn what_changes_stands_between_what_stays() {
    assert_eq!(shown("", ""), "");
    assert_eq!(shown(LINE, LINE), "");
    let old = lines("abcdefghij", &[]);
    let new = lines("abcdefghij", &[('e', "E\nE\n")]);
    let due = "--- a\n+++ a\n@@ -2,7 +2,8 @@\n b\n c\n d\n-e\n+E\n+E\n f\n g\n \
        h\n";
    assert_eq!(shown(&old, &new), due);
    // Three lines between two changes, and seven.
    let new = lines("abcdefghij", &[('a', ""), ('h', "")]);
    let due = "--- a\n+++ a\n@@ -1,10 +1,8 @@\n-a\n b\n c\n d\n e\n f\n g\n-h\n \
        i\n j\n";
    assert_eq!(shown(&old, &new), due);
    let new = lines("abcdefghij", &[('a', ""), ('i', "I\n")]);
    let due = "--- a\n+++ a\n@@ -1,4 +1,3 @@\n-a\n b\n c\n d\n@@ -6,5 +5,5 \
        @@\n f\n g\n h\n-i\n+I\n j\n";
    assert_eq!(shown(&old, &new), due);
}

#[test]
fn ends_without_a_newline_are_said() {
    let due = "--- a\n+++ a\n@@ -1 +1 @@\n-x\n\\ No newline at end of file\n\
        +x\n";
    assert_eq!(shown("x", "x\n"), due);
    assert_eq!(
        shown("x", ""),
        "--- a\n+++ a\n@@ -1 +0,0 @@\n-x\n\\ No \
        newline at end of file\n"
    );
    let new = String::from_utf8(unified("a", None, b"x\n"));
    let due = "--- /dev/null\n+++ a\n@@ -0,0 +1 @@\n+x\n";
    assert_eq!(new.as_deref(), Ok(due));
}

/// What a difference makes of the old text is the new one.
fn applied(old: &str, diff: &str) -> String {
    let old: Vec<_> = old.split_inclusive('\n').collect();
    let (mut at, mut new) = (0, String::new());
    for line in diff.split_inclusive('\n').skip(2) {
        let (sign, text) = line.split_at(1);
        match sign {
            "@" => {
                let number = text.split(['-', ',', ' ']).nth(2);
                let number = number.expect("-").parse::<usize>();
                let none = text.contains(",0 +");
                let start = number.expect("a line") - usize::from(!none);
                new.extend(old[at..start].iter().copied());
                at = start;
            }
            "\\" => drop(new.pop()),
            "+" => new += text,
            _ => {
                assert_eq!(old[at].trim_end(), text.trim_end());
                at += 1;
                if sign == " " {
                    new += text;
                }
            }
        }
    }
    new.extend(old[at..].iter().copied());
    new
}

/// All pairs of texts of up to four lines of three sorts, and long ones.
#[test]
fn the_new_text_comes_of_the_old_one() {
    let mut texts = vec![String::new()];
    let mut from = 0;
    for _ in 0..4 {
        let last = texts[from..].to_vec();
        from = texts.len();
        for text in last {
            texts.extend(
                ["a\n", "b\n", "c\n"].map(|line| text.clone() + line),
            );
        }
    }
    for old in &texts {
        for new in &texts {
            let diff = shown(old, new);
            assert_eq!(diff.is_empty(), old == new);
            assert_eq!(&applied(old, &diff), new, "{diff}");
        }
    }
    // So many that they are exchanged whole.
    let old: String = (0..5_000).map(|n| format!("old {n}\n")).collect();
    let new: String = (0..5_000).map(|n| format!("new {n}\n")).collect();
    let (old, new) = (format!("x\n{old}y\n"), format!("x\n{new}y\n"));
    assert_eq!(applied(&old, &shown(&old, &new)), new);
}

#[test]
fn the_hook_shows_it_and_writes_nothing() {
    let folder = Folder::new("diff");
    folder.put_pair("a", WIDE);
    folder.put_lines("b c.frame", WIDE);
    for words in [&["--check", "--diff"][..], &["--diff"]] {
        let said = folder.run(words);
        assert_eq!((said.status, said.err.len()), (1, 0), "{said:?}");
        let (a, b) = (folder.path("a.roto"), folder.path("b c.roto"));
        let (a, b) = (a.display(), b.display());
        let due = [
            &format!("{a}: would change"),
            &format!("--- {a}"),
            &format!("+++ {a}"),
            "@@ -1 +1 @@",
            "- const A: u32 = 1;",
            "\\ No newline at end of file",
            "+const A: u32 = 1;",
            &format!("{b}: would change"),
            "--- /dev/null",
            &format!("+++ {b}"),
            "@@ -0,0 +1 @@",
            "+const A: u32 = 1;",
            "2 frames: 2 would change",
        ];
        assert_eq!(said.out, due);
        assert_eq!(folder.text("a.roto").as_deref(), Some(WIDE));
        assert!(!folder.path("b c.roto").exists());
    }
}

/// What isn't to be written isn't shown.
#[test]
fn what_is_left_alone_is_not_shown() {
    let folder = Folder::new("diff-alone");
    let image = encode(&constants(WIDE), &[]).expect("an image");
    folder.put_frame("a.frame", WIDE, &image);
    folder.put("a.roto", b"const B: u32 = 2;\n");
    folder.put_pair("b", LINE);
    let said = folder.run(&["--check", "--diff"]);
    assert_eq!((said.status, said.out.len()), (2, 1), "{said:?}");
    let said = folder.run(&["--diff", "--force"]);
    assert_eq!(said.out.iter().filter(|it| it.starts_with("@@")).count(), 1);
}
