//! Programs as a parser would give them.
//!
//! Source and tree are made in one go: what writes a token also knows its
//! span. Spans are those of the parser; a comment's span ends after its
//! newline, as the lexer has it, or before it in some files.

mod broad;
mod declarations;
mod expressions;

use std::ops::Range;

use super::Draft;
use crate::{
    image::{Tree, node, text},
    random::Random,
};

const NAMES: [&str; 16] = [
    "a",
    "b",
    "x1",
    "rate",
    "tariff",
    "route_origin",
    "community",
    "a_name_of_some_length",
    "prefix_list_for_customers_and_peers",
    "naïve",
    "größe",
    "данные",
    "変数",
    "番号の一覧",
    "e\u{301}tat",
    "ﾊﾝｶｸ",
];

const REMARKS: [&str; 10] = [
    "",
    " a remark",
    " ends in é",
    " 日本語",
    " crab \u{1F980}",
    " trailing blanks   ",
    " ideographic space\u{3000}",
    " next line\u{85}\u{a0}",
    " a remark that is so long that it reaches far beyond the eightieth column of its line",
    "/ doc",
];

const SHEBANGS: [&str; 4] =
    ["#!/usr/bin/env roto", "#!/x", "#!/é \u{2003}", "#!変数\t "];

/// What a program is made of besides its grammar.
struct Words {
    names: &'static [&'static str],
    remarks: &'static [&'static str],
    literals: &'static [&'static str],
    parts: &'static [&'static str],
}

/// Mostly of ASCII.
static WORDS: Words = Words {
    names: &NAMES,
    remarks: &REMARKS,
    literals: &expressions::LITERALS,
    parts: &expressions::PARTS,
};

/// A program of up to five declarations.
pub fn draft(random: &mut Random) -> Draft {
    printed(random, &WORDS, 0, FUELS)
}

/// A program of three to five short declarations.
pub fn short_draft(random: &mut Random) -> Draft {
    printed(random, &WORDS, 3, SHORT_FUELS)
}

/// A program mostly of characters that take two columns, or none.
pub fn broad_draft(random: &mut Random) -> Draft {
    printed(random, &broad::WORDS, 0, FUELS)
}

/// The same of three to five short declarations.
pub fn short_broad_draft(random: &mut Random) -> Draft {
    printed(random, &broad::WORDS, 3, SHORT_FUELS)
}

const FUELS: &[usize] = &[5, 20, 60, 150];
const SHORT_FUELS: &[usize] = &[0, 1, 3];

fn printed(
    random: &mut Random,
    words: &'static Words,
    least: usize,
    fuels: &[usize],
) -> Draft {
    let mut printer = Printer {
        words,
        newline: if random.once_in(4) { "\r\n" } else { "\n" },
        keeps_newline: !random.once_in(4),
        mess: *random.pick(&[0, 1, 1, 2, 4]),
        fuel: *random.pick(fuels),
        levels: 0,
        out: String::new(),
        comments: Vec::new(),
        random,
    };
    let tree = printer.file(least);
    Draft {
        source: printer.out,
        comments: printer.comments,
        tree,
    }
}

struct Printer<'r> {
    random: &'r mut Random,
    words: &'static Words,
    out: String,
    comments: Vec<Range<usize>>,
    newline: &'static str,
    /// Whether a comment's span ends after its newline.
    keeps_newline: bool,
    /// How much stands in gaps that could be empty.
    mess: usize,
    /// About how many more expressions there may be.
    fuel: usize,
    /// How many expressions and types stand around this place.
    levels: usize,
}

impl Printer<'_> {
    fn file(&mut self, least: usize) -> Tree {
        let shebang = self.random.once_in(4).then(|| self.shebang());
        let mut children = vec![shebang];
        for _ in 0..least + self.random.below(6 - least) {
            self.lines();
            children.push(Some(self.declaration()));
        }
        self.gap();
        if self.mess > 0 && self.random.once_in(3) {
            self.comment_at_the_end();
        }
        node(1, 0..0, children)
    }

    /// The lexer keeps the shebang's newline in its text.
    fn shebang(&mut self) -> Tree {
        let content = *self.random.pick(&SHEBANGS);
        let content = format!("{content}{}", self.newline);
        self.out.push_str(&content);
        let width = unicode_width::true_width(content.trim_end());
        text(0..0, width, &content)
    }

    /// Makes something one level down.
    fn deeper(&mut self, make: fn(&mut Self) -> Tree) -> Tree {
        self.fuel = self.fuel.saturating_sub(1);
        self.levels += 1;
        let made = make(self);
        self.levels -= 1;
        made
    }

    /// Whether to end with something small; a level is up to five records.
    fn spent(&self) -> bool {
        self.fuel == 0 || self.levels > 10
    }

    /// Writes a token and gives its span.
    fn token(&mut self, token: &str) -> Range<usize> {
        let start = self.here();
        self.out.push_str(token);
        start..self.here()
    }

    fn here(&self) -> usize {
        self.out.len()
    }

    /// A keyword, with the gap behind it.
    fn keyword(&mut self, word: &str) -> Range<usize> {
        let span = self.token(word);
        self.space();
        span
    }

    /// A token with gaps around it.
    fn spaced(&mut self, token: &str) -> Range<usize> {
        self.space();
        let span = self.token(token);
        self.space();
        span
    }

    fn name(&mut self) -> Tree {
        let content = *self.random.pick(self.words.names);
        let span = self.token(content);
        text(span, unicode_width::true_width(content), content)
    }

    /// A gap that may be empty.
    fn gap(&mut self) {
        if self.mess > 0 && self.random.once_in(12 / self.mess) {
            self.filling();
        }
    }

    /// A gap that holds a blank at least.
    fn space(&mut self) {
        self.out.push(' ');
        self.gap();
    }

    /// A gap that holds a newline at least.
    fn lines(&mut self) {
        for _ in 0..*self.random.pick(&[1, 1, 1, 2, 3]) {
            self.out.push_str(self.newline);
        }
        self.gap();
    }

    /// Blanks, newlines and comments.
    fn filling(&mut self) {
        for _ in 0..self.random.between(1, 3) {
            match self.random.below(6) {
                0 => self.out.push_str("  "),
                1 => self.out.push('\t'),
                2 => self.out.push('\u{3000}'),
                3 => self.out.push_str(self.newline),
                _ => self.comment(),
            }
        }
    }

    /// A comment to the end of its line.
    fn comment(&mut self) {
        let start = self.here();
        let remark = *self.random.pick(self.words.remarks);
        self.out.push_str("//");
        self.out.push_str(remark);
        let end = self.here();
        self.out.push_str(self.newline);
        let end = if self.keeps_newline { self.here() } else { end };
        self.comments.push(start..end);
    }

    /// The source's last character may be the comment's.
    fn comment_at_the_end(&mut self) {
        let start = self.here();
        self.out.push_str("// the end é");
        self.comments.push(start..self.here());
    }

    /// A list in its delimiters, with its span.
    fn list(
        &mut self,
        delimiters: [&str; 2],
        separator: &str,
        counts: &[usize],
        mut element: impl FnMut(&mut Self) -> Tree,
    ) -> Tree {
        let start = self.token(delimiters[0]).start;
        let mut elements = Vec::new();
        for place in 0..*self.random.pick(counts) {
            if place > 0 {
                self.gap();
                self.token(separator);
                self.space();
            } else {
                self.gap();
            }
            elements.push(Some(element(self)));
        }
        self.gap();
        if !elements.is_empty() && self.random.once_in(4) {
            self.token(separator);
            self.gap();
        }
        let end = self.token(delimiters[1]).end;
        node(3, start..end, elements)
    }

    fn path(&mut self, counts: &[usize]) -> Tree {
        let first = self.name();
        let start = first.span.start;
        let mut names = vec![Some(first)];
        for _ in 1..*self.random.pick(counts) {
            self.gap();
            self.token(".");
            self.gap();
            names.push(Some(self.name()));
        }
        node(4, start..self.here(), names)
    }
}
