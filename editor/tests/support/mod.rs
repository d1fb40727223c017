//! Files and buffers for the tests.
#![allow(dead_code, unused_imports)]

#[path = "../../examples/format.rs"]
mod example;

use rrufthim::{
    File, Options, Refusal,
    ast::*,
    calls::{
        FileWritten, LayoutArgs, LayoutState, ROW, RenderArgs, RenderState,
        Written, layout, render,
    },
    encode,
};

pub use example::{SOURCE, tariff};

/// What stands in buffers before a call.
pub const JUNK_NUMBER: u32 = 0xABAD_1DEA;
pub const JUNK: u8 = 0xA5;

/// The image of the tariff script.
pub fn tariff_image() -> Vec<u8> {
    let (tree, extras) = tariff();
    encode(&tree, &extras.comments).expect("within the limits")
}

/// How many declarations the tariff script has.
pub const DECLARATIONS: usize = 2;

/// All of a file with so many declarations.
pub fn all(declarations: usize) -> LayoutArgs {
    LayoutArgs::up_to(declarations).with_close(true)
}

/// `const NAME: u32 = 1;` lines, without their comments.
pub fn constants(source: &str) -> SyntaxTree {
    let starts = source.match_indices("const ");
    let declarations = starts.map(|(at, _)| constant(source, at)).collect();
    SyntaxTree {
        shebang: None,
        declarations,
    }
}

fn constant(source: &str, at: usize) -> Declaration {
    let until = |from: usize, stop: &str| {
        let length = source[from..].find(stop).expect("a whole constant");
        from..from + length
    };
    let name = until(at + "const ".len(), ":");
    let ty = until(name.end + 2, " =");
    let value = until(ty.end + 3, ";");
    let literal = Literal::Integer(1, None);
    let literal = Meta::new(literal, value.clone());
    Declaration::Const(ConstantDeclaration {
        ident: named(source, &name),
        ty: Meta::new(TypeExpr::Path(path(source, &ty), None), ty),
        expr: Meta::new(Expr::Literal(literal), value),
    })
}

pub fn path(source: &str, span: &Span) -> Meta<Path> {
    let idents = vec![named(source, span)];
    Meta::new(Path { idents }, span.clone())
}

fn named(source: &str, span: &Span) -> Meta<Identifier> {
    Meta::new(source[span.clone()].into(), span.clone())
}

/// `const 地域: List[String] = ["東京都", …];`
pub fn list(towns: &[String]) -> String {
    format!(
        "const 地域: List[String] = [\"{}\"];\n",
        towns.join("\", \"")
    )
}

/// Six towns, the last with letters behind it.
pub fn towns(letters: usize) -> Vec<String> {
    let names = ["東京", "大阪", "名古屋", "札幌", "福岡", "仙台"];
    let mut towns: Vec<_> = names.map(str::to_owned).into();
    towns[5] += &"x".repeat(letters);
    towns
}

/// The tree of such a line.
pub fn list_tree(source: &str) -> SyntaxTree {
    let place = |word: &str| {
        let at = source.find(word).expect("the word");
        at..at + word.len()
    };
    let open = source.find("= [").expect("a list") + 3;
    let close = source.find("];").expect("its end");
    let mut at = open;
    let literals = source[open..close].split(", ").map(|literal| {
        let span = at..at + literal.len();
        at = span.end + 2;
        let text = Literal::String(literal.trim_matches('"').into());
        Meta::new(Expr::Literal(Meta::new(text, span.clone())), span)
    });
    let values = Expr::List(literals.collect());
    let element = place("String");
    let element = Meta::new(
        TypeExpr::Path(path(source, &element), None),
        element.clone(),
    );
    let name = place("地域");
    let (of, ty) = (place("[String]"), place("List[String]"));
    let parameters = Some(Meta::new(vec![element], of));
    let ty = Meta::new(
        TypeExpr::Path(path(source, &place("List")), parameters),
        ty,
    );
    let declaration = Declaration::Const(ConstantDeclaration {
        ident: Meta::new(source[name.clone()].into(), name),
        ty,
        expr: Meta::new(values, open - 1..close + 1),
    });
    SyntaxTree {
        shebang: None,
        declarations: vec![declaration],
    }
}

/// What a whole file takes, by whatever calls.
#[derive(Clone, Copy, Debug, PartialEq, Eq)]
pub struct Whole {
    pub bytes: usize,
    pub comments_left: usize,
    pub rows: usize,
    pub numbers: usize,
}

impl From<FileWritten> for Whole {
    fn from(written: FileWritten) -> Self {
        Whole {
            bytes: written.bytes,
            comments_left: written.comments_left,
            rows: written.rows,
            numbers: written.numbers,
        }
    }
}

/// Buffers of exact sizes, full of junk.
#[derive(Clone, Debug, PartialEq, Eq)]
pub struct Buffers {
    pub store: Vec<u32>,
    pub marks: Vec<u8>,
    pub output: Vec<u8>,
}

impl Buffers {
    pub fn new(rows: usize, marks: usize, output: usize) -> Self {
        Buffers {
            store: vec![JUNK_NUMBER; rows * ROW],
            marks: vec![JUNK; marks],
            output: vec![JUNK; output],
        }
    }

    /// More than any file of the tests needs.
    pub fn ample() -> Self {
        Buffers::new(300, 300, 4_000)
    }

    /// A whole file by the two calls.
    pub fn format(&mut self, file: File<'_>) -> Result<Whole, Refusal> {
        self.format_as(file, &Options::default())
    }

    /// The same with what is chosen.
    pub fn format_as(
        &mut self,
        file: File<'_>,
        options: &Options,
    ) -> Result<Whole, Refusal> {
        let (fresh, all) = (LayoutState::default(), all(file.declarations()));
        let laid = layout(file, &mut self.store, &fresh, &all, options)?;
        let (fresh, rows) = (RenderState::default(), laid.state.next_row);
        let written = self.render(file, &fresh, rows, options)?;
        Ok(Whole {
            bytes: written.bytes,
            comments_left: laid.comments_left,
            rows,
            numbers: written.state.marks_in_use,
        })
    }

    /// A rendering call up to a row.
    pub fn render(
        &mut self,
        file: File<'_>,
        state: &RenderState,
        stop: usize,
        options: &Options,
    ) -> Result<Written, Refusal> {
        let Buffers {
            store,
            marks,
            output,
        } = self;
        let args = RenderArgs::up_to(stop);
        render(file, store, marks, output, state, &args, options)
    }
}

/// Random numbers by xorshift.
pub struct Random(pub u64);

impl Random {
    pub fn next(&mut self) -> u64 {
        self.0 ^= self.0 << 13;
        self.0 ^= self.0 >> 7;
        self.0 ^= self.0 << 17;
        self.0
    }

    pub fn below(&mut self, bound: usize) -> usize {
        (self.next() % bound as u64) as usize
    }

    /// A number that is small, near a limit of document 01, or anything.
    pub fn wild(&mut self) -> usize {
        const LIMITS: [u64; 8] = [
            0,
            64,
            65_536,
            1_048_576,
            2_097_152,
            u32::MAX as u64,
            72_057_594_037_927_936,
            u64::MAX,
        ];
        let number = match self.below(4) {
            0 => self.next() % 4,
            1 => self.next() % 100,
            2 => {
                let limit = LIMITS[self.below(LIMITS.len())];
                limit.wrapping_add(self.next() % 3).wrapping_sub(1)
            }
            _ => self.next() >> self.below(64),
        };
        number as usize
    }
}
