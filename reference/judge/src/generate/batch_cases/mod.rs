//! A fixed list of batches: each order of accepted and refused files, each
//! cause of 18, and what can't be chosen.

mod files;

use std::sync::LazyLock;

use super::{batches, rules::ILLEGAL};
use crate::{
    batch::MOST_FILES,
    choice::Choice,
    mode::{NEW, OLD},
    rule::{LEGAL, SUPPLIED},
    width::REFERENCE,
};
use files::{
    File, NO_BYTES, backwards, in_two, japanese, known, names, of_image,
    of_size, refused,
};

/// A batch with what it shows.
#[derive(Clone, Debug)]
pub struct Case {
    pub name: String,
    pub batch: batches::Case,
}

/// All of the list.
pub fn cases() -> &'static [Case] {
    static CASES: LazyLock<Vec<Case>> = LazyLock::new(|| {
        let mut cases = Cases(Vec::new());
        cases.single_files();
        cases.orders();
        cases.choices();
        cases.rules();
        cases.versions();
        cases.cut_off();
        cases.lengths();
        cases.many();
        cases.0
    });
    &CASES
}

/// A width and a mode, with supplied widths.
fn wide(width: usize, mode: usize) -> Choice {
    let rule = SUPPLIED;
    Choice { width, mode, rule }
}

/// A mode, and else as the original does it.
fn in_mode(mode: usize) -> Choice {
    wide(REFERENCE, mode)
}

struct Cases(Vec<Case>);

impl Cases {
    fn put(&mut self, name: &str, files: &[File], choice: Choice) {
        let buffer = files.concat();
        self.0.push(Case {
            name: name.into(),
            batch: batches::Case { buffer, choice },
        });
    }

    /// As the original does it.
    fn put_plain(&mut self, name: &str, files: &[File]) {
        self.put(name, files, Choice::REFERENCE);
    }

    fn single_files(&mut self) {
        for (name, modes) in [
            ("nothing", &[OLD][..]),
            ("shebang", &[OLD]),
            ("const", &[OLD]),
            ("import-nothing", &[NEW]),
            ("comment-alone", &[OLD, NEW]),
            ("const-comment", &[OLD, NEW]),
            ("two-consts", &[OLD, NEW]),
        ] {
            for mode in modes {
                let choice = in_mode(*mode);
                let shown = format!("{name}, mode {mode}");
                self.put(&shown, &[known(name)], choice);
            }
        }
        for number in 1..=8 {
            let name = format!("a file refused by {number}");
            self.put_plain(&name, &[refused(number)]);
        }
        let neighbour = known("const-comment");
        let files = [neighbour.clone(), backwards(), neighbour];
        self.put_plain("a later comment first, between others", &files);
        for name in [
            "1800 rows",
            "1801 rows",
            "output of 65536 bytes",
            "output of 65537 bytes",
        ] {
            self.put_plain(name, &[of_size(name), known("const")]);
        }
    }

    fn orders(&mut self) {
        let [a, b] = ["const-comment", "two-consts"].map(known);
        let [x, y, z] = [4, 6, 2].map(refused);
        let empty = known("nothing");
        let all = [2, 3, 4, 6, 7].map(refused);
        let orders: [(&str, &[&File]); 8] = [
            ("none refused", &[&a, &b, &a]),
            ("refused first", &[&x, &a, &b]),
            ("refused between", &[&a, &y, &b]),
            ("refused last", &[&a, &b, &z]),
            ("two refused in a row", &[&a, &x, &y, &b]),
            ("refused first and last", &[&z, &b, &x]),
            ("a file without text between", &[&a, &empty, &b]),
            ("the same file twice", &[&b, &b]),
        ];
        for (name, files) in orders {
            let files: Vec<File> =
                files.iter().map(|f| (*f).clone()).collect();
            self.put(name, &files, in_mode(NEW));
        }
        self.put_plain("all refused", &all);
        self.put_plain("no file", &[]);
    }

    fn choices(&mut self) {
        let files = [names(4), names(9), known("const-comment")];
        for width in [40, 80, 100, 200] {
            let name = format!("width {width}");
            self.put(&name, &files, wide(width, NEW));
        }
        // A file's own refusals come before those of the choice, 8 after.
        let files = [known("const"), refused(4), known("nothing")];
        let far = 1 << 32;
        for (width, mode) in [
            (0, OLD),
            (39, NEW),
            (201, OLD),
            (far + REFERENCE, OLD),
            (usize::MAX, NEW),
            (REFERENCE, 2),
            (REFERENCE, far),
            (REFERENCE, usize::MAX),
            (39, 2),
        ] {
            let name = format!("width {width}, mode {mode}");
            self.put(&name, &files, wide(width, mode));
        }
        let files = [refused(8), known("const")];
        for (width, mode) in [(39, OLD), (REFERENCE, 2)] {
            let name = format!("8 and width {width}, mode {mode}");
            self.put(&name, &files, wide(width, mode));
        }
    }

    /// Files that turn by one rule and not by another, and rules that can't
    /// be chosen: 20 in each row, whatever else refuses a file.
    fn rules(&mut self) {
        let with = |rule, choice: Choice| Choice { rule, ..choice };
        let files = [japanese(4), japanese(5), known("const-comment")];
        for rule in LEGAL {
            for mode in [OLD, NEW] {
                let name = format!("rule {rule}, mode {mode}");
                self.put(&name, &files, with(rule, in_mode(mode)));
            }
        }
        let files = [known("const"), refused(2), NO_BYTES.into(), refused(4)];
        for rule in ILLEGAL {
            let name = format!("rule {rule}");
            self.put(&name, &files, with(rule, Choice::REFERENCE));
            let name = format!("rule {rule}, width 39, mode 2");
            self.put(&name, &files, with(rule, wide(39, 2)));
        }
        for rule in LEGAL {
            let name = format!("rule {rule}, width 39, mode 2");
            self.put(&name, &files, with(rule, wide(39, 2)));
        }
        self.put("no file, rule 4", &[], with(4, Choice::REFERENCE));
        let cut = vec![1, 2];
        self.put("18 and rule 0", &[cut], with(0, Choice::REFERENCE));
    }

    /// A first byte 2: 20 but by Unicode 16.0, before the file's own refusals
    /// and those of the choice.
    fn versions(&mut self) {
        let files = [
            known("two-consts"),
            in_two(&known("two-consts")),
            in_two(&japanese(4)),
            known("version-2"),
            known("version-3"),
            of_image(b"\xFF", b"\x02"),
            of_image(b"", b"\x02"),
        ];
        for rule in LEGAL {
            for (width, mode) in [(REFERENCE, NEW), (39, 2)] {
                let choice = Choice { width, mode, rule };
                let name = format!("versions, rule {rule}, width {width}");
                self.put(&name, &files, choice);
            }
        }
    }

    /// Buffers that end in a frame, the first one or a later one.
    fn cut_off(&mut self) {
        let one = known("const-comment");
        let source = 8 + "const A: u32 = 1; # ok\n".len();
        let places = [
            ("head", 1),
            ("head", 4),
            ("head", 7),
            ("source", 8),
            ("source", source - 1),
            ("image", source),
            ("image", one.len() - 1),
        ];
        for (what, length) in places {
            let name = format!("cut off in the {what}, after {length} bytes");
            let cut = one[..length].to_vec();
            self.put_plain(&name, std::slice::from_ref(&cut));
            self.put_plain(
                &format!("the third {name}"),
                &[one.clone(), refused(3), cut],
            );
        }
        let behind = vec![0];
        self.put_plain("a byte behind", &[one, behind]);
    }

    /// Lengths that run past the buffer.
    fn lengths(&mut self) {
        let one = known("const");
        let (both, body) = one.split_first_chunk::<8>().expect("a head");
        let both = u64::from_be_bytes(*both);
        let [source, image] = [both >> 32, both % (1 << 32)];
        let with = |[source, image]: [u64; 2]| -> File {
            let both = source << 32 | image;
            [&both.to_be_bytes(), body].concat()
        };
        let most = u64::from(u32::MAX);
        let wrong = [
            ("a source of one byte more", [source + image + 1, 0]),
            ("an image of one byte more", [source, image + 1]),
            ("the longest source", [most, image]),
            ("the longest image", [source, most]),
            ("both the longest", [most, most]),
            ("a sum right in four bytes", [most, source + image + 1]),
            (
                "a sum of nothing in four bytes",
                [source, most + 1 - source],
            ),
        ];
        for (name, lengths) in wrong {
            let wrong = with(lengths);
            self.put_plain(name, std::slice::from_ref(&wrong));
            let name = format!("{name}, the second of three");
            // What stands behind it is at fault too.
            self.put_plain(&name, &[one.clone(), wrong, vec![255; 9]]);
        }
        // All of the bytes are in the source.
        let source = with([source + image, 0]);
        self.put_plain("a source of all bytes", &[source]);
    }

    fn many(&mut self) {
        let one = known("const");
        let mut files = vec![NO_BYTES.to_vec(); MOST_FILES];
        self.put_plain("256 refused files", &files);
        files.push(NO_BYTES.to_vec());
        self.put_plain("257 refused files", &files);
        files[MOST_FILES] = vec![7];
        self.put_plain("256 files and a byte", &files);
        files[99] = [255; 8].to_vec();
        self.put_plain("a 100th at fault before the 257th", &files);
        files[99].clone_from(&one);
        files[0].clone_from(&one);
        files[MOST_FILES - 1].clone_from(&one);
        files.truncate(MOST_FILES);
        self.put_plain("256 files, three with a text", &files);
        files.push(one);
        self.put_plain("a 257th that would have a text", &files);
    }
}
