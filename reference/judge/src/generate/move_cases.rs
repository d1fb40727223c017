//! A fixed list of images to move: sizes, the shebang's blanks, and each order
//! of causes.

use std::sync::LazyLock;

use super::{MoveCase, sizes};
use crate::{
    image::{self, Tree, node},
    reader::{HEADER, MOST_BODY, MOST_COMMENTS, MOST_DEPTH, Version},
};

/// An image with what it shows.
#[derive(Clone, Debug)]
pub struct Case {
    pub name: String,
    pub of: MoveCase,
}

/// All of the list.
pub fn cases() -> &'static [Case] {
    static CASES: LazyLock<Vec<Case>> = LazyLock::new(|| {
        let mut cases = Cases(Vec::new());
        cases.shebangs();
        cases.widths();
        cases.bodies();
        cases.sizes();
        cases.versions();
        cases.orders();
        cases.0
    });
    &CASES
}

struct Cases(Vec<Case>);

/// A text with its width.
type Text<'t> = (u16, &'t str);

impl Cases {
    fn put(&mut self, name: &str, source: &[u8], image: Vec<u8>) {
        let source = source.to_vec();
        self.0.push(Case {
            name: name.into(),
            of: MoveCase { source, image },
        });
    }

    /// A file without a source, in both versions.
    fn put_both(
        &mut self,
        name: &str,
        shebang: Option<Text>,
        names: &[Text],
    ) {
        for version in [Version::One, Version::Two] {
            let name = format!("{name}, version {}", version as u8);
            let tree = tree(version, shebang, names);
            self.put(&name, b"", image::write_as(version, &[], &tree));
        }
    }

    fn shebangs(&mut self) {
        for (name, width, text) in [
            ("a shebang", 4, "#!/x"),
            ("none of its characters", 0, ""),
            ("a newline behind it", 4, "#!/x\n"),
            ("measured with its newline", 5, "#!/x\n"),
            ("blanks behind it", 4, "#!/x \t\u{85}\u{2003}\u{2028}\r\n"),
            ("ideographic spaces behind it", 4, "#!/x\u{3000}\u{3000}"),
            ("measured with them", 8, "#!/x\u{3000}\u{3000}"),
            ("an ideographic space inside", 6, "#!\u{3000}/x\u{A0}\n"),
            ("a space of no width behind it", 5, "#!/x\u{200B}"),
            ("blanks alone", 0, " \u{3000}\n"),
            ("blanks alone, measured", 4, " \u{3000}\n"),
            ("blanks before it", 5, "\u{3000}#!x"),
        ] {
            self.put_both(name, Some((width, text)), &[(1, "a")]);
        }
        // A name is measured whole, the first of a file too.
        for width in [2, 6] {
            let name = format!("a name with blanks, {width}");
            self.put_both(&name, None, &[(width, "ab\u{3000}\u{3000}")]);
        }
    }

    /// Widths off by one, the first of two, and those that no two bytes hold.
    fn widths(&mut self) {
        let names = [(2, "ab"), (4, "料率"), (1, "e\u{301}"), (0, "")];
        self.put_both("all right", Some((4, "#!/x")), &names);
        for place in 0..names.len() {
            for more in [1, u16::MAX] {
                let mut names = names;
                names[place].0 = names[place].0.wrapping_add(more);
                let name = format!("the name {place} off by {more}");
                self.put_both(&name, Some((4, "#!/x")), &names);
            }
        }
        let wrong = [(3, "ab"), (5, "料率")];
        self.put_both("two wrong ones", None, &wrong);
        self.put_both("and the shebang", Some((3, "#!/x")), &wrong);
        self.put_both("by Unicode 15.1", None, &[(1, "\u{4DC0}")]);
        self.put_both("by Unicode 16.0", None, &[(2, "\u{4DC0}")]);
        for columns in [65_535, 65_536, 65_537] {
            let wide = wide(columns);
            let width = columns as u16;
            let name = format!("a name of {columns} columns");
            self.put_both(&name, None, &[(1, "a"), (width, &wide)]);
            let name = format!("a shebang of {columns} columns");
            self.put_both(&name, Some((width, &wide)), &[(1, "a")]);
            let blank = format!("{wide}\u{3000}");
            let name = format!("the same of {columns}, a blank behind");
            self.put_both(&name, Some((width, &blank)), &[]);
            self.put_both("as a name", None, &[(width, &blank), (3, "ab")]);
        }
    }

    /// Bodies about document 01's size, of marks that have no columns: going
    /// back, two bytes are added for each text.
    fn bodies(&mut self) {
        let empty = image::write_as(
            Version::Two,
            &[],
            &tree(Version::Two, Some((0, "")), &[(0, "")]),
        );
        let empty = empty.len() - HEADER;
        for more in [0, 2, 4, 5, 6] {
            // As a body of version 1, the largest and so much more.
            let size = MOST_BODY - 4 + more - empty;
            let mut marks = "\u{301}".repeat(size / 2);
            let odd = size % 2;
            if odd == 1 {
                marks.push('a');
            }
            let texts = (Some((odd as u16, &marks[..])), [(0, "")]);
            let name = format!("a body of {} bytes", MOST_BODY + more);
            self.put_both(&name, texts.0, &texts.1);
        }
    }

    /// The other sizes of document 01, and one more.
    fn sizes(&mut self) {
        for more in [0, 1] {
            let count = MOST_COMMENTS + more;
            let name = format!("{count} comments");
            for version in [Version::One, Version::Two] {
                let tree = tree(version, None, &[(1, "a")]);
                let comments = vec![0..2; count];
                let image = image::write_as(version, &comments, &tree);
                self.put(&name, b"//", image);
            }
            let depth = MOST_DEPTH + more;
            for kind in [70, 40, 16] {
                let mut tree = sizes::deep_tree(kind, depth);
                let name = format!("{depth} deep, by kind {kind}");
                self.put(&name, b"", image::write(&[], &tree));
                without_widths(&mut tree);
                let image = image::write_as(Version::Two, &[], &tree);
                self.put(&name, b"", image);
            }
        }
    }

    fn versions(&mut self) {
        let names = [(1, "a")];
        for version in [Version::One, Version::Two] {
            let tree = tree(version, Some((4, "#!/x")), &names);
            let image = image::write_as(version, &[], &tree);
            for first in [0, 1, 2, 3, 255] {
                let name =
                    format!("first byte {first} on version {version:?}");
                let image = [&[first], &image[1..]].concat();
                self.put(&name, b"", image);
            }
            let end = image.len() - 1;
            self.put("cut off", b"", image[..end].to_vec());
            self.put("a byte behind", b"", [&image[..], b"x"].concat());
            let spare = [&image[HEADER..], b"\0"].concat();
            let spare = image::with_version(version, &spare);
            self.put("a byte behind the tree", b"", spare);
            self.put("a head alone", b"", image[..HEADER].to_vec());
        }
        for image in [&b""[..], b"\x01", b"\x02", b"\x03", b"\0"] {
            let name = format!("an image of {image:?}");
            self.put(&name, b"", image.to_vec());
        }
        for version in [Version::One, Version::Two] {
            let body = image::with_version(version, &[]);
            self.put("no body", b"", body);
        }
    }

    /// Several causes at once: 1, 2, 3, 7, 4, 5, 6, 21.
    fn orders(&mut self) {
        let long = vec![b' '; 65_537];
        let bad = [&long[..65_535], b"\xFF"].concat();
        for version in [Version::One, Version::Two] {
            // A wrong width, or too many columns, before all else.
            let wide = wide(65_536);
            let first = Some((7, &wide[..]));
            let right = tree(version, first, &[(9, "a")]);
            let mut late = right.clone();
            late.span = 0..9;
            let mut payload = right.clone();
            let last = payload.children.last_mut().and_then(Option::as_mut);
            last.expect("an import").children.push(None);
            let both = |comments: &[std::ops::Range<usize>], tree| {
                image::write_as(version, comments, tree)
            };
            let cases: [(&str, &[u8], Vec<u8>); 8] = [
                ("21 alone", b"x", both(&[], &right)),
                ("1 and 21", &long, both(&[], &right)),
                ("2 and 21", &bad, both(&[], &right)),
                ("1 and 3", &long, b"\x03".to_vec()),
                ("2 and 3", &bad, b"\x03".to_vec()),
                ("7 and 21", b"x", both(&[1..1], &right)),
                ("6 and 21", b"x", both(&[], &late)),
                ("4 and 21", b"x", both(&[], &payload)),
            ];
            for (name, source, image) in cases {
                self.put(name, source, image);
            }
            // Comments that run backwards, overlap and are there twice.
            let right = tree(version, None, &[(1, "a")]);
            let image = both(&[1..2, 0..2, 0..2], &right);
            self.put("comments backwards", b"xy", image);
        }
    }
}

/// A shebang, and an import for each name.
fn tree(version: Version, shebang: Option<Text>, names: &[Text]) -> Tree {
    let shebang = shebang.map(|one| text(version, one));
    let imports = names.iter().map(|name| {
        let path = node(4, 0..0, [Some(text(version, *name))]);
        Some(node(16, 0..0, [Some(path), None]))
    });
    node(1, 0..0, std::iter::once(shebang).chain(imports))
}

fn text(version: Version, (width, text): Text) -> Tree {
    let payload = match version {
        Version::One => [&width.to_be_bytes(), text.as_bytes()].concat(),
        Version::Two => text.into(),
    };
    Tree {
        payload,
        ..node(2, 0..0, [])
    }
}

/// So many columns by Unicode 16.0, in fewer characters.
fn wide(columns: usize) -> String {
    let odd = if columns % 2 == 1 { "n" } else { "" };
    "語".repeat(columns / 2) + odd
}

pub(super) fn without_widths(tree: &mut Tree) {
    if tree.kind == 2 {
        tree.payload.drain(..2);
    }
    let children = tree.children.iter_mut().flatten();
    children.for_each(without_widths);
}
