//! Rows of nine numbers, and the fixed words they point into.

/// Kind, number, second number, first row of the second part, row after,
/// text origin, text start, text length, width.
#[derive(Clone, Copy, Debug, Default, PartialEq, Eq)]
pub struct Row {
    pub kind: u32,
    pub number: u32,
    pub second_number: u32,
    pub second_part: u32,
    pub after: u32,
    pub origin: u32,
    pub start: u32,
    pub length: u32,
    pub width: u32,
}

/// Row kinds, in `Node`'s order.
pub const GROUP: u32 = 0;
pub const INDENT: u32 = 1;
pub const INDENT_NEXT: u32 = 2;
pub const WRAP_PARENT: u32 = 3;
pub const COMMENT: u32 = 4;
pub const STR: u32 = 5;
pub const ASCII: u32 = 6;
pub const LINE: u32 = 7;
pub const EMPTY_LINE: u32 = 8;
pub const LINE_OR_SPACE: u32 = 9;
pub const IF_WRAP: u32 = 10;
pub const CALL: u32 = 11;

pub const KIND_NAMES: [&str; 12] = [
    "Group",
    "Indent",
    "IndentNext",
    "WrapParent",
    "Comment",
    "Str",
    "Ascii",
    "Line",
    "EmptyLine",
    "LineOrSpace",
    "IfWrap",
    "Call",
];

/// Text origins.
pub const SOURCE: u32 = 0;
pub const IMAGE: u32 = 1;
pub const WORDS: u32 = 2;

impl Row {
    pub const CELLS: usize = 9;

    pub fn cells(&self) -> [u32; Row::CELLS] {
        [
            self.kind,
            self.number,
            self.second_number,
            self.second_part,
            self.after,
            self.origin,
            self.start,
            self.length,
            self.width,
        ]
    }

    pub fn from_cells(cells: [u32; Row::CELLS]) -> Row {
        let [kind, number, second_number, second_part, after, ..] = cells;
        let [.., origin, start, length, width] = cells;
        Row {
            kind,
            number,
            second_number,
            second_part,
            after,
            origin,
            start,
            length,
            width,
        }
    }

    /// The largest group number that the row holds, if its kind has one.
    pub fn largest_number(&self) -> Option<u32> {
        match self.kind {
            GROUP | IF_WRAP => Some(self.number),
            CALL => Some(self.number.max(self.second_number)),
            _ => None,
        }
    }
}

/// How many marks some rows need: the largest number plus 1, or 0.
pub fn marks_needed(rows: &[Row]) -> u64 {
    let largest = rows.iter().filter_map(Row::largest_number).max();
    largest.map_or(0, |number| u64::from(number) + 1)
}

/// The words that the formatter writes of its own accord.
pub const WORD_LIST: [&str; 59] = [
    "filtermap ",
    "const ",
    "record ",
    "enum ",
    "fn ",
    "test ",
    "import ",
    "-> ",
    "let ",
    "return",
    "accept",
    "reject",
    "match ",
    "if ",
    "while ",
    "for ",
    " else ",
    " in ",
    " if ",
    " => ",
    " = ",
    " += ",
    " -= ",
    " *= ",
    " /= ",
    " %= ",
    ": ",
    " ",
    ";",
    ",",
    ".",
    "?",
    "!",
    "-",
    "_",
    "(",
    ")",
    "[",
    "]",
    "{",
    "}",
    "()",
    "f\"",
    "\"",
    "true",
    "false",
    "&&",
    "||",
    "==",
    "!=",
    "<",
    "<=",
    ">",
    ">=",
    "+",
    "*",
    "/",
    "%",
    "**",
];

/// The fixed words: the list with nothing between.
pub fn fixed_words() -> String {
    WORD_LIST.concat()
}

/// Where a word starts in the fixed words: at its own place in the list.
pub fn word_start(word: &str) -> Option<usize> {
    if word.is_empty() {
        return Some(0);
    }
    let place = WORD_LIST.iter().position(|listed| *listed == word)?;
    Some(WORD_LIST[..place].iter().map(|listed| listed.len()).sum())
}
