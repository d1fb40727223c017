//! Blocks, statements and expressions.

use super::Printer;
use crate::image::{Tree, chosen, node};

const OPERATORS: [&str; 14] = [
    "&&", "||", "==", "!=", "<", "<=", ">", ">=", "+", "-", "*", "/", "%",
    "**",
];
const ASSIGNMENTS: [&str; 5] = ["+=", "-=", "*=", "/=", "%="];
pub(super) const LITERALS: [&str; 12] = [
    "0",
    "1",
    "42u32",
    "0x1F",
    "3.14",
    "\"text\"",
    "\"größer als 日本\"",
    "\"a text that takes a good part of a line\"",
    "'é'",
    "AS65000",
    "192.0.2.1",
    "2001:db8::1",
];
pub(super) const PARTS: [&str; 4] = ["text ", "é", "日本 = ", " "];
const FEW: [usize; 6] = [0, 1, 1, 2, 3, 6];

impl Printer<'_> {
    pub(super) fn block(&mut self) -> Tree {
        let start = self.token("{").start;
        let mut statements = Vec::new();
        let count = *self.random.pick(&[0, 1, 2, 4]);
        for _ in 0..if self.spent() { 0 } else { count } {
            self.lines();
            statements.push(Some(self.statement()));
        }
        let last = self.random.once_in(2).then(|| {
            self.lines();
            self.expr()
        });
        self.gap();
        let end = self.token("}").end;
        let list = node(3, 0..0, statements);
        node(23, start..end, [Some(list), last])
    }

    fn statement(&mut self) -> Tree {
        let start = self.here();
        let (kind, children) = match self.random.below(5) {
            0 => (31, vec![Some(self.import_statement())]),
            1 | 2 => (30, self.binding()),
            _ => {
                let expr = self.expr();
                if !matches!(expr.kind, 52 | 53 | 65..=67) {
                    self.gap();
                    self.token(";");
                }
                (32, vec![Some(expr)])
            }
        };
        node(kind, start..self.here(), children)
    }

    fn binding(&mut self) -> Vec<Option<Tree>> {
        self.keyword("let");
        let name = self.name();
        let ty = self.random.once_in(3).then(|| {
            self.gap();
            self.token(":");
            self.space();
            self.type_expr()
        });
        self.spaced("=");
        let value = self.expr();
        self.gap();
        self.token(";");
        vec![Some(name), ty, Some(value)]
    }

    pub(super) fn expr(&mut self) -> Tree {
        self.deeper(Self::expr_here)
    }

    fn expr_here(&mut self) -> Tree {
        let start = self.here();
        let kind = if self.spent() {
            *self.random.pick(&[51, 56, 56])
        } else {
            self.random.between(50, 70) as u8
        };
        let children = match kind {
            50 => return self.returned(),
            51 => vec![Some(self.literal())],
            52 => vec![Some(self.block())],
            53 => self.matched(),
            54 => self.call(),
            55 => self.access(),
            56 => vec![Some(self.path(&[1, 1, 2, 4]))],
            57 => vec![Some(self.record())],
            58 => {
                let path = self.path(&[1, 2]);
                self.space();
                vec![Some(path), Some(self.record())]
            }
            59 => vec![Some(self.list(["[", "]"], ",", &FEW, Self::expr))],
            61..=63 => self.operation(kind),
            65..=67 => self.branching(kind),
            69 => vec![Some(self.f_string())],
            _ => self.around_one(kind),
        };
        node(kind, start..self.here(), children)
    }

    fn returned(&mut self) -> Tree {
        let words = ["return", "accept", "reject"];
        let payload = self.random.below(3);
        let start = self.token(words[payload]).start;
        let value = self.random.once_in(2).then(|| {
            self.space();
            self.expr()
        });
        chosen(50, start..self.here(), payload as u8, [value])
    }

    fn literal(&mut self) -> Tree {
        let fixed = ["true", "false", "()"];
        let payload = *self.random.pick(&[0, 0, 0, 1, 2, 3]);
        let token = match payload {
            0 => *self.random.pick(self.words.literals),
            fixed_one => fixed[fixed_one - 1],
        };
        let span = self.token(token);
        chosen(87, span, payload as u8, [])
    }

    fn record(&mut self) -> Tree {
        let list = self.list(["{", "}"], ",", &FEW, |this| {
            let start = this.here();
            let name = this.name();
            this.gap();
            this.token(":");
            this.space();
            let value = this.expr();
            node(22, start..this.here(), [Some(name), Some(value)])
        });
        node(80, list.span, list.children)
    }

    fn call(&mut self) -> Vec<Option<Tree>> {
        let callee = self.operand();
        self.gap();
        let arguments = self.list(["(", ")"], ",", &FEW, Self::expr);
        vec![Some(callee), Some(arguments)]
    }

    fn access(&mut self) -> Vec<Option<Tree>> {
        let operand = self.operand();
        self.gap();
        self.token(".");
        self.gap();
        vec![Some(operand), Some(self.name())]
    }

    /// What may stand before a dot, a question mark or arguments.
    fn operand(&mut self) -> Tree {
        self.deeper(Self::operand_here)
    }

    fn operand_here(&mut self) -> Tree {
        let start = self.here();
        let kinds: &[u8] = if self.spent() {
            &[56]
        } else {
            &[54, 55, 55, 56, 68, 70]
        };
        let kind = *self.random.pick(kinds);
        let children = match kind {
            54 => self.call(),
            55 => self.access(),
            56 => vec![Some(self.path(&[1, 1, 2]))],
            _ => self.around_one(kind),
        };
        node(kind, start..self.here(), children)
    }

    /// 60, 64, 68 and 70: one operand and a token or two.
    fn around_one(&mut self, kind: u8) -> Vec<Option<Tree>> {
        let inner = match kind {
            60 | 64 => {
                self.token(if kind == 60 { "!" } else { "-" });
                self.gap();
                self.operand()
            }
            68 => {
                let operand = self.operand();
                self.gap();
                self.token("?");
                operand
            }
            _ => {
                self.token("(");
                self.gap();
                let inner = self.expr();
                self.gap();
                self.token(")");
                inner
            }
        };
        vec![Some(inner)]
    }

    fn operation(&mut self, kind: u8) -> Vec<Option<Tree>> {
        match kind {
            61 => {
                let path = self.path(&[1, 2]);
                self.spaced("=");
                vec![Some(path), Some(self.expr())]
            }
            62 => {
                let path = self.path(&[1, 2]);
                let operator = self.operator(&ASSIGNMENTS);
                vec![Some(path), Some(operator), Some(self.expr())]
            }
            _ => self.binary(),
        }
    }

    /// A chain that leans to the left, as most operators do.
    fn binary(&mut self) -> Vec<Option<Tree>> {
        let start = self.here();
        let mut left = self.operand();
        for _ in 0..*self.random.pick(&[0, 0, 1, 3, 7]) {
            let operator = self.operator(&OPERATORS);
            let right = self.operand();
            let parts = [left, operator, right].map(Some);
            left = node(63, start..self.here(), parts);
        }
        let operator = self.operator(&OPERATORS);
        let right = self.operand();
        [left, operator, right].map(Some).into()
    }

    fn operator(&mut self, tokens: &[&str]) -> Tree {
        let place = self.random.below(tokens.len());
        let span = self.spaced(tokens[place]);
        chosen(86, span, place as u8, [])
    }

    fn branching(&mut self, kind: u8) -> Vec<Option<Tree>> {
        match kind {
            65 => {
                self.keyword("if");
                let condition = self.expr();
                self.space();
                let then = self.block();
                let otherwise = self.random.once_in(2).then(|| {
                    self.spaced("else");
                    self.block()
                });
                vec![Some(condition), Some(then), otherwise]
            }
            66 => {
                self.keyword("while");
                let condition = self.expr();
                self.space();
                vec![Some(condition), Some(self.block())]
            }
            _ => {
                self.keyword("for");
                let name = self.name();
                self.spaced("in");
                let values = self.expr();
                self.space();
                vec![Some(name), Some(values), Some(self.block())]
            }
        }
    }

    fn matched(&mut self) -> Vec<Option<Tree>> {
        self.keyword("match");
        let value = self.expr();
        self.space();
        let arms = self.list(["{", "}"], ",", &[0, 1, 2, 4], Self::arm);
        vec![Some(value), Some(arms)]
    }

    fn arm(&mut self) -> Tree {
        let start = self.here();
        let pattern = self.pattern();
        let guard = self.random.once_in(3).then(|| {
            self.spaced("if");
            self.expr()
        });
        self.spaced("=>");
        let body = self.expr();
        node(81, start..self.here(), [Some(pattern), guard, Some(body)])
    }

    fn pattern(&mut self) -> Tree {
        if self.random.once_in(3) {
            return node(82, self.token("_"), []);
        }
        let start = self.here();
        let variant = self.name();
        let wanted = self.random.once_in(2);
        let fields = wanted.then(|| {
            self.gap();
            self.list(["(", ")"], ",", &FEW, Self::name)
        });
        node(83, start..self.here(), [Some(variant), fields])
    }

    fn f_string(&mut self) -> Tree {
        self.token("f\"");
        let mut parts = Vec::new();
        for place in 0..*self.random.pick(&[0, 1, 2, 4]) {
            let part = if place % 2 == 0 {
                let content = *self.random.pick(self.words.parts);
                node(84, self.token(content), [])
            } else {
                let start = self.token("{").start;
                let inner = self.expr();
                let end = self.token("}").end;
                node(85, start..end, [Some(inner)])
            };
            parts.push(Some(part));
        }
        self.token("\"");
        node(3, 0..0, parts)
    }
}
