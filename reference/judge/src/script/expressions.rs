//! Blocks, statements and expressions.

use super::{Read, Reader, tokens};
use crate::image::{Tree, chosen, node};

/// The operators in `BinOp`'s order, each with how tightly it binds.
const OPERATORS: [(&str, usize); 14] = [
    ("&&", 0),
    ("||", 0),
    ("==", 1),
    ("!=", 1),
    ("<", 1),
    ("<=", 1),
    (">", 1),
    (">=", 1),
    ("+", 2),
    ("-", 2),
    ("*", 3),
    ("/", 3),
    ("%", 3),
    ("**", 4),
];
const ASSIGNMENTS: [&str; 5] = ["+=", "-=", "*=", "/=", "%="];

fn place<T>(items: &[T], wanted: impl Fn(&T) -> bool) -> Option<u8> {
    items.iter().position(wanted).map(|place| place as u8)
}

impl Reader<'_> {
    pub(super) fn block(&mut self) -> Read<Tree> {
        let start = self.take("{")?.start;
        let records = std::mem::replace(&mut self.records, true);
        let mut statements = Vec::new();
        let mut last = None;
        while last.is_none() && self.peek() != "}" {
            match self.statement()? {
                made @ Tree { kind: 30..=32, .. } => {
                    statements.push(Some(made));
                }
                value => last = Some(value),
            }
        }
        self.records = records;
        self.take("}")?;
        let list = node(3, 0..0, statements);
        Ok(node(23, start..self.at, [Some(list), last]))
    }

    /// A statement, or the block's last expression.
    fn statement(&mut self) -> Read<Tree> {
        let start = self.ahead();
        let (kind, children) = match self.peek() {
            "let" => (30, self.binding()?),
            "import" => (31, vec![Some(self.import_statement()?)]),
            _ => {
                let expr = self.expr()?;
                let ends_itself = matches!(expr.kind, 52 | 53 | 65..=67);
                if self.peek() == "}" {
                    return Ok(expr);
                }
                if !self.next_is(";") && !ends_itself {
                    return Err(self.ahead());
                }
                (32, vec![Some(expr)])
            }
        };
        Ok(node(kind, start..self.at, children))
    }

    fn binding(&mut self) -> Read<Vec<Option<Tree>>> {
        self.take("let")?;
        let name = self.name()?;
        let ty = match self.next_is(":") {
            true => Some(self.type_expr()?),
            false => None,
        };
        self.take("=")?;
        let value = self.expr()?;
        self.take(";")?;
        Ok(vec![Some(name), ty, Some(value)])
    }

    pub(super) fn expr(&mut self) -> Read<Tree> {
        let start = self.ahead();
        let left = self.binary(0)?;
        if left.kind != 56 {
            return Ok(left);
        }
        let path = left.children[0].clone();
        if self.next_is("=") {
            let value = self.expr()?;
            return Ok(node(61, start..self.at, [path, Some(value)]));
        }
        match place(&ASSIGNMENTS, |token| *token == self.peek()) {
            None => Ok(left),
            Some(place) => {
                let operator = chosen(86, self.next(), place, []);
                let value = self.expr()?;
                let children = [path, Some(operator), Some(value)];
                Ok(node(62, start..self.at, children))
            }
        }
    }

    /// Operators that bind at least so tightly.
    fn binary(&mut self, least: usize) -> Read<Tree> {
        let start = self.ahead();
        let mut left = self.prefixed()?;
        while let Some(place) =
            place(&OPERATORS, |(token, _)| *token == self.peek())
        {
            let (token, level) = OPERATORS[usize::from(place)];
            if level < least {
                break;
            }
            let operator = chosen(86, self.next(), place, []);
            let from = if token == "**" { level } else { level + 1 };
            let right = self.binary(from)?;
            let children = [left, operator, right].map(Some);
            left = node(63, start..self.at, children);
        }
        Ok(left)
    }

    fn prefixed(&mut self) -> Read<Tree> {
        let start = self.ahead();
        let kind = match self.peek() {
            "!" => 60,
            "-" => 64,
            _ => return self.postfixed(),
        };
        self.next();
        let operand = self.prefixed()?;
        Ok(node(kind, start..self.at, [Some(operand)]))
    }

    fn postfixed(&mut self) -> Read<Tree> {
        let start = self.ahead();
        let mut expr = self.atom()?;
        loop {
            let (kind, second) = match self.peek() {
                "?" => {
                    self.next();
                    (68, None)
                }
                "." => {
                    self.next();
                    (55, Some(self.name()?))
                }
                "(" => {
                    let arguments = self.list(["(", ")"], Self::expr)?;
                    (54, Some(arguments))
                }
                _ => return Ok(expr),
            };
            let mut children = vec![Some(expr)];
            children.extend(second.map(Some));
            expr = node(kind, start..self.at, children);
        }
    }

    fn atom(&mut self) -> Read<Tree> {
        let start = self.ahead();
        let (kind, children) = match self.peek() {
            "return" | "accept" | "reject" => return self.returned(),
            "if" | "while" | "for" => return self.branching(),
            "match" => (53, self.matched()?),
            "{" if self.record_follows() => (57, vec![Some(self.record()?)]),
            "{" => (52, vec![Some(self.block()?)]),
            "[" => (59, vec![Some(self.list(["[", "]"], Self::expr)?)]),
            "f\"" => (69, vec![Some(self.f_string()?)]),
            "(" => return self.parentheses(),
            token if tokens::is_literal(token) => {
                (51, vec![Some(self.literal())])
            }
            _ => {
                let path = self.path()?;
                match self.records && self.record_follows() {
                    true => (58, vec![Some(path), Some(self.record()?)]),
                    false => (56, vec![Some(path)]),
                }
            }
        };
        Ok(node(kind, start..self.at, children))
    }

    /// Whether `{ name :` follows.
    fn record_follows(&self) -> bool {
        let mut at = self.at;
        let mut tokens = std::iter::from_fn(|| {
            at = tokens::gap(self.source, at).0;
            let token = tokens::token(&self.source[at..]);
            at += token.len();
            Some(token)
        });
        tokens.next() == Some("{")
            && tokens.next().unwrap().starts_with(tokens::is_word)
            && tokens.next() == Some(":")
    }

    fn record(&mut self) -> Read<Tree> {
        let list = self.list(["{", "}"], |this| {
            let start = this.ahead();
            let name = this.name()?;
            this.take(":")?;
            let value = this.expr()?;
            Ok(node(22, start..this.at, [Some(name), Some(value)]))
        })?;
        Ok(node(80, list.span, list.children))
    }

    fn literal(&mut self) -> Tree {
        let payload = match self.peek() {
            "true" => 1,
            "false" => 2,
            _ => 0,
        };
        chosen(87, self.next(), payload, [])
    }

    /// `()`, or an expression in parentheses.
    fn parentheses(&mut self) -> Read<Tree> {
        let start = self.take("(")?.start;
        if self.next_is(")") {
            let unit = chosen(87, start..self.at, 3, []);
            return Ok(node(51, start..self.at, [Some(unit)]));
        }
        let records = std::mem::replace(&mut self.records, true);
        let inner = self.expr()?;
        self.records = records;
        self.take(")")?;
        Ok(node(70, start..self.at, [Some(inner)]))
    }

    fn returned(&mut self) -> Read<Tree> {
        let words = ["return", "accept", "reject"];
        let payload = place(&words, |word| *word == self.peek());
        let start = self.next().start;
        let value = match self.peek() {
            ";" | "}" | "," | ")" => None,
            _ => Some(self.expr()?),
        };
        Ok(chosen(50, start..self.at, payload.unwrap_or(0), [value]))
    }

    /// An expression before a block: `a {` is no record there.
    fn condition(&mut self) -> Read<Tree> {
        let records = std::mem::replace(&mut self.records, false);
        let expr = self.expr();
        self.records = records;
        expr
    }

    fn branching(&mut self) -> Read<Tree> {
        let start = self.ahead();
        let word = self.peek();
        self.next();
        let (kind, children) = match word {
            "if" => {
                let condition = self.condition()?;
                let then = self.block()?;
                (65, vec![Some(condition), Some(then), self.otherwise()?])
            }
            "while" => {
                let condition = self.condition()?;
                (66, vec![Some(condition), Some(self.block()?)])
            }
            _ => {
                let name = self.name()?;
                self.take("in")?;
                let values = self.condition()?;
                (67, vec![Some(name), Some(values), Some(self.block()?)])
            }
        };
        Ok(node(kind, start..self.at, children))
    }

    /// The tree has no `else if`: the `if` is all of a block.
    fn otherwise(&mut self) -> Read<Option<Tree>> {
        if !self.next_is("else") {
            return Ok(None);
        }
        if self.peek() != "if" {
            return self.block().map(Some);
        }
        let inner = self.branching()?;
        let span = inner.span.clone();
        Ok(Some(node(23, span, [Some(node(3, 0..0, [])), Some(inner)])))
    }

    fn matched(&mut self) -> Read<Vec<Option<Tree>>> {
        self.take("match")?;
        let value = self.condition()?;
        let start = self.take("{")?.start;
        let mut arms = Vec::new();
        while self.peek() != "}" {
            arms.push(Some(self.arm()?));
            self.next_is(",");
        }
        self.take("}")?;
        Ok(vec![Some(value), Some(node(3, start..self.at, arms))])
    }

    fn arm(&mut self) -> Read<Tree> {
        let start = self.ahead();
        let pattern = self.pattern()?;
        let guard = match self.next_is("if") {
            true => Some(self.expr()?),
            false => None,
        };
        self.take("=>")?;
        let body = self.expr()?;
        Ok(node(81, start..self.at, [Some(pattern), guard, Some(body)]))
    }

    fn pattern(&mut self) -> Read<Tree> {
        if self.peek() == "_" {
            return Ok(node(82, self.next(), []));
        }
        let start = self.ahead();
        let variant = self.name()?;
        let fields = match self.peek() {
            "(" => Some(self.list(["(", ")"], Self::name)?),
            _ => None,
        };
        Ok(node(83, start..self.at, [Some(variant), fields]))
    }

    fn f_string(&mut self) -> Read<Tree> {
        self.take("f\"")?;
        let mut parts = Vec::new();
        loop {
            let start = self.at;
            self.at += tokens::f_string_text(&self.source[start..]);
            if self.at > start {
                parts.push(Some(node(84, start..self.at, [])));
            }
            let brace = self.at;
            if self.source[brace..].starts_with('"') {
                self.at += 1;
                return Ok(node(3, 0..0, parts));
            }
            self.take("{")?;
            let inner = self.expr()?;
            self.take("}")?;
            parts.push(Some(node(85, brace..self.at, [Some(inner)])));
        }
    }
}
