//! Builds the tree of a small tariff script, formats it, and prints the text
//! with all its comments; then what Roto's own formatter would drop.

use std::error::Error;

use rrufthim::{Formatter, Options, ast::*, fmt_parsed};

pub const SOURCE: &str = "\
// Tariff 2026, members only.
const BASE :u32=5; // per cent

fn discount( years:u32 )->u32{
  if years>10 {BASE*3} else {BASE}
}
// Filing reference 44-B.
";

fn main() -> Result<(), Box<dyn Error>> {
    let (tree, extras) = tariff();
    let formatted = fmt_parsed(&tree, SOURCE, &extras)?;
    print!("{}", formatted.text);
    let mut roto = Formatter::new().with_options(Options::AS_ROTO);
    let formatted = roto.format_tree(&tree, SOURCE, &extras)?;
    for comment in formatted.comments_left {
        let text = SOURCE[comment.span.clone()].trim_end();
        eprintln!("{comment}: Roto would drop {text}");
    }
    Ok(())
}

/// The tree and the comments that a parser would give for [`SOURCE`].
pub fn tariff() -> (SyntaxTree, Extras) {
    let mut at = Finder(0);
    let first = at.line("//");
    let constant = constant(&mut at);
    let second = at.line("//");
    let function = function(&mut at);
    let third = at.line("//");
    let tree = SyntaxTree {
        shebang: None,
        declarations: vec![
            Declaration::Const(constant),
            Declaration::Function(function),
        ],
    };
    let comments = vec![first, second, third];
    (tree, Extras { comments })
}

fn constant(at: &mut Finder) -> ConstantDeclaration {
    ConstantDeclaration {
        ident: at.name("BASE"),
        ty: at.type_name("u32"),
        expr: at.integer("5"),
    }
}

fn function(at: &mut Finder) -> FunctionDeclaration {
    let ident = at.name("discount");
    let open = at.next("(");
    let (name, ty) = (at.name("years"), at.type_name("u32"));
    let span = name.span.start..ty.span.end;
    let param = Meta::new(Param { name, ty }, span);
    let close = at.next(")");
    FunctionDeclaration {
        ident,
        params: Meta::new(Params(vec![param]), open.start..close.end),
        ret: Some(at.type_name("u32")),
        body: at.block(choice),
    }
}

/// `if years>10 {BASE*3} else {BASE}`
fn choice(at: &mut Finder) -> Meta<Expr> {
    let start = at.next("if").start;
    let (years, op, ten) = (at.path("years"), at.next(">"), at.integer("10"));
    let condition = binary(years, Meta::new(BinOp::Gt, op), ten);
    let then = at.block(|at| {
        let (base, op) = (at.path("BASE"), at.next("*"));
        binary(base, Meta::new(BinOp::Mul, op), at.integer("3"))
    });
    let otherwise = at.block(|at| at.path("BASE"));
    let span = start..otherwise.span.end;
    let condition = Box::new(condition);
    Meta::new(Expr::IfElse(condition, then, Some(otherwise)), span)
}

fn binary(
    left: Meta<Expr>,
    op: Meta<BinOp>,
    right: Meta<Expr>,
) -> Meta<Expr> {
    let span = left.span.start..right.span.end;
    Meta::new(Expr::BinOp(Box::new(left), op, Box::new(right)), span)
}

/// Goes through [`SOURCE`] and gives spans; a parser has them at hand.
struct Finder(usize);

impl Finder {
    /// The next place of a word.
    fn next(&mut self, word: &str) -> Span {
        let found = SOURCE[self.0..].find(word).expect("it is there");
        let start = self.0 + found;
        self.0 = start + word.len();
        start..self.0
    }

    /// From a word to the line's end, newline included.
    fn line(&mut self, word: &str) -> Span {
        self.next(word).start..self.next("\n").end
    }

    fn name(&mut self, name: &str) -> Meta<Identifier> {
        Meta::new(name.into(), self.next(name))
    }

    fn names(&mut self, name: &str) -> Meta<Path> {
        let ident = self.name(name);
        let span = ident.span.clone();
        Meta::new(
            Path {
                idents: vec![ident],
            },
            span,
        )
    }

    fn path(&mut self, name: &str) -> Meta<Expr> {
        let path = self.names(name);
        let span = path.span.clone();
        Meta::new(Expr::Path(path), span)
    }

    fn type_name(&mut self, name: &str) -> Meta<TypeExpr> {
        let path = self.names(name);
        let span = path.span.clone();
        Meta::new(TypeExpr::Path(path, None), span)
    }

    fn integer(&mut self, digits: &str) -> Meta<Expr> {
        let span = self.next(digits);
        let value = digits.parse().expect("digits");
        let literal = Literal::Integer(value, None);
        let literal = Meta::new(literal, span.clone());
        Meta::new(Expr::Literal(literal), span)
    }

    /// A block of one expression.
    fn block(
        &mut self,
        inner: impl FnOnce(&mut Self) -> Meta<Expr>,
    ) -> Meta<Block> {
        let start = self.next("{").start;
        let last = Some(Box::new(inner(self)));
        let end = self.next("}").end;
        let stmts = Vec::new();
        Meta::new(Block { stmts, last }, start..end)
    }
}
