//! The document's worked frames, and those of its edges that are frames.

use std::ops::Range;

use crate::{
    frame,
    image::{self, Tree, chosen, node, text},
};

/// The names that [`frame`] knows, each with what it shows.
pub const NAMES: [(&str, &str); 9] = [
    ("shebang", "the worked frame: `#!/x` and two newlines"),
    ("version-3", "the same with first byte 3: refused 3 at 0"),
    ("version-2", "the same with first byte 2: refused 20 at 0"),
    ("nothing", "no shebang, no declarations: one row, no text"),
    ("comment-alone", "nothing but a comment: 1 left"),
    ("const", "10 rows, 1 group number, 18 bytes"),
    (
        "const-comment",
        "a comment after the last declaration: 1 left",
    ),
    (
        "two-consts",
        "the comment returns on the first line: 41 bytes",
    ),
    (
        "import-nothing",
        "an import without path and group: `import ;`",
    ),
];

/// A frame by its name.
pub fn frame(name: &str) -> Option<Vec<u8>> {
    let comment = |at| vec![at..at + 5];
    let frame = match name {
        "shebang" => worked(1),
        "version-3" => worked(3),
        "version-2" => worked(2),
        "nothing" => of_source("", vec![], vec![]),
        "comment-alone" => of_source("# ok\n", comment(0), vec![]),
        "const" => of_consts("const A: u32 = 1;", vec![]),
        "const-comment" => of_consts("const A: u32 = 1; # ok\n", comment(18)),
        "two-consts" => of_consts(
            "const A: u32 = 1; # ok\nconst B: u32 = 2;",
            comment(18),
        ),
        "import-nothing" => {
            let import = node(16, 0..0, [None, None]);
            of_source("import ;", vec![], vec![import])
        }
        _ => return None,
    };
    Some(frame)
}

fn worked(version: u8) -> Vec<u8> {
    let mut bytes = vec![0, 0, 0, 0, version, 0, 0, 0, 0x22, 0, 0];
    bytes.extend([0, 0, 0, 0x1C, 1, 0, 0, 0, 0, 0, 0, 0, 0]);
    bytes.extend([0, 0, 0, 0x0F, 2, 0, 0, 0, 0, 0, 0, 0, 0]);
    bytes.extend([0, 4, 0x23, 0x21, 0x2F, 0x78]);
    bytes
}

/// A frame without a shebang.
pub fn of_source(
    source: &str,
    comments: Vec<Range<usize>>,
    declarations: Vec<Tree>,
) -> Vec<u8> {
    let children =
        std::iter::once(None).chain(declarations.into_iter().map(Some));
    let tree = node(1, 0..0, children);
    frame::join(source.as_bytes(), &image::write(&comments, &tree))
}

/// A frame of `const NAME: TYPE = LITERAL;` lines.
pub fn of_consts(source: &str, comments: Vec<Range<usize>>) -> Vec<u8> {
    let starts = source.match_indices("const ");
    let declarations = starts.map(|(at, _)| constant(source, at)).collect();
    of_source(source, comments, declarations)
}

fn constant(source: &str, at: usize) -> Tree {
    let until = |from: usize, stop: &str| {
        let length = source[from..].find(stop).expect("a whole constant");
        from..from + length
    };
    let name = until(at + "const ".len(), ":");
    let ty = until(name.end + 2, " =");
    let value = until(ty.end + 3, ";");
    let named = |span: &Range<usize>| {
        text(span.clone(), span.len(), &source[span.clone()])
    };
    let path = node(4, ty.clone(), [Some(named(&ty))]);
    let literal = chosen(87, value.clone(), 0, []);
    let children = [
        named(&name),
        node(41, ty, [Some(path), None]),
        node(51, value, [Some(literal)]),
    ];
    node(11, 0..0, children.map(Some))
}
