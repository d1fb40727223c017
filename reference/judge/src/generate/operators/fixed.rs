//! A fixed list of trees of operators: all pairs, what stands around them, two
//! operands that break a rule, and sizes.

use std::sync::LazyLock;

use super::{
    Case as Given,
    pieces::{constant, file, operation, over, truth, value},
};
use crate::{
    generate::{
        move_cases::without_widths,
        shape::{Fill, Shapes},
    },
    grammar::{self, Child, Place},
    image::{self, Tree, node},
    random::Random,
    reader::{HEADER, MOST_BODY, MOST_DEPTH, Version},
};

/// An image with what it shows.
#[derive(Clone, Debug)]
pub struct Case {
    pub name: String,
    /// Whether it is among the stored ones: all pairs, and a few of the rest.
    pub stored: bool,
    pub of: Given,
}

/// All of the list, each tree in both versions.
pub fn cases() -> &'static [Case] {
    static CASES: LazyLock<Vec<Case>> = LazyLock::new(|| {
        let mut cases = Cases {
            list: Vec::new(),
            stored: None,
        };
        cases.pairs();
        cases.alone();
        cases.kinds();
        cases.two();
        cases.two_about_unary();
        cases.deep();
        cases.large();
        cases.comments();
        cases.list
    });
    &CASES
}

/// The operators, in `BinOp`'s order.
const OPERATORS: [&str; 14] = [
    "&&", "||", "==", "!=", "<", "<=", ">", ">=", "+", "-", "*", "/", "%",
    "**",
];
const ADD: u8 = 8;
const MUL: u8 = 10;
/// Kinds over one expression: not, negation, parentheses.
const UNARY: [u8; 3] = [60, 64, 70];

/// The parts of the list.
struct Cases {
    list: Vec<Case>,
    /// The version in which what is put is among the stored ones.
    stored: Option<Version>,
}

impl Cases {
    /// What is put is among the stored ones in this version alone.
    fn store(&mut self, version: Version) -> &mut Self {
        self.stored = Some(version);
        self
    }

    fn put(&mut self, name: &str, value: Tree) {
        self.put_file(name, b"", &[], file([constant("c", value)]));
    }

    fn put_file(
        &mut self,
        name: &str,
        source: &[u8],
        comments: &[std::ops::Range<usize>],
        mut tree: Tree,
    ) {
        for version in [Version::One, Version::Two] {
            if version == Version::Two {
                without_widths(&mut tree);
            }
            self.list.push(Case {
                name: format!("{name}, version {}", version as u8),
                stored: self.stored == Some(version),
                of: Given {
                    source: source.to_vec(),
                    image: image::write_as(version, comments, &tree),
                },
            });
        }
        self.stored = None;
    }

    /// Each operator under each on either side: alone, under 60, 64 and 70,
    /// and with one of these between.
    fn pairs(&mut self) {
        for (outer, over_it) in OPERATORS.iter().enumerate() {
            for (inner, its) in OPERATORS.iter().enumerate() {
                for side in ["left", "right"] {
                    let name = format!("`{its}` as {side} of `{over_it}`");
                    self.pair(&name, [outer, inner], side == "left");
                }
            }
        }
    }

    fn pair(&mut self, name: &str, operators: [usize; 2], left: bool) {
        let [outer, inner] = operators.map(|place| place as u8);
        let inner = operation(truth(), inner, truth());
        let with = |inner: Tree| match left {
            true => operation(inner, outer, truth()),
            false => operation(truth(), outer, inner),
        };
        self.store(Version::One).put(name, with(inner.clone()));
        for kind in UNARY {
            let whole = over(kind, with(inner.clone()));
            self.put(&format!("{name}, under {kind}"), whole);
            let between = with(over(kind, inner.clone()));
            self.put(&format!("{name}, {kind} between"), between);
        }
    }

    /// One operator under each unary kind, and under two of them.
    fn alone(&mut self) {
        for (place, its) in OPERATORS.iter().enumerate() {
            let one = || operation(truth(), place as u8, truth());
            self.put(&format!("`{its}`"), one());
            for kind in UNARY {
                let name = format!("`{its}` under {kind}");
                self.store(Version::Two).put(&name, over(kind, one()));
                for outer in UNARY {
                    let under = over(outer, over(kind, one()));
                    self.put(&format!("{name} under {outer}"), under);
                }
                let left = operation(over(kind, truth()), MUL, truth());
                self.put(&format!("{kind} as left of `*`"), left);
            }
        }
    }

    /// A sum directly under each kind of expression, alone and as either
    /// operand of a product.
    fn kinds(&mut self) {
        let random = &mut Random::new(117, 0, 0);
        for kind in grammar::kinds(Place::Expr) {
            for place in 0..grammar::children(kind, Place::Expr).len() {
                let Some(whole) = with_sum(random, kind, place) else {
                    continue;
                };
                let name = format!("a sum as child {place} of {kind}");
                self.store(Version::One).put(&name, whole.clone());
                let left = operation(whole.clone(), MUL, truth());
                self.put(&format!("{name}, left of `*`"), left);
                let right = operation(truth(), MUL, whole);
                self.put(&format!("{name}, right of `*`"), right);
            }
        }
    }

    /// Two operands that break a rule: the first in reading order is the one
    /// inside the left operand, whatever the right operand is.
    fn two(&mut self) {
        let sum = || operation(truth(), ADD, truth());
        let product = || operation(truth(), MUL, sum());
        let inner_left = operation(product(), ADD, sum());
        self.store(Version::One)
            .put("inside the left operand and the right one", inner_left);
        let deeper = operation(over(70, product()), ADD, sum());
        self.store(Version::One)
            .put("inside parentheses at the left", deeper);
        let call = node(3, 0..0, [Some(product())]);
        let call = node(54, 0..0, [value("f"), call].map(Some));
        self.store(Version::One)
            .put("inside a call at the left", operation(call, ADD, sum()));
        let both = operation(product(), MUL, sum());
        self.store(Version::One)
            .put("the left operand and inside it", both);
        let right = operation(truth(), MUL, operation(sum(), ADD, product()));
        self.store(Version::One)
            .put("the right operand and inside it", right);
        let second = [constant("c", truth()), constant("d", product())];
        self.store(Version::Two).put_file(
            "in a second constant",
            b"",
            &[],
            file(second),
        );
        let each = [constant("c", product()), constant("d", product())];
        self.store(Version::Two).put_file(
            "in each of two constants",
            b"",
            &[],
            file(each),
        );
    }

    /// The same about a 60 and a 64.
    fn two_about_unary(&mut self) {
        let sum = || operation(truth(), ADD, truth());
        let product = || operation(truth(), MUL, sum());
        for kind in [60, 64] {
            let unary = operation(over(kind, sum()), MUL, sum());
            self.store(Version::One)
                .put(&format!("under {kind} and the right operand"), unary);
            let whole = over(kind, operation(sum(), MUL, sum()));
            self.store(Version::One)
                .put(&format!("the whole under {kind} and both"), whole);
            let right = operation(truth(), ADD, over(kind, product()));
            self.store(Version::One)
                .put(&format!("at the right under {kind}"), right);
        }
    }

    /// Chains down to the last level, with a faulty operand at the bottom, at
    /// the top, or nowhere.
    fn deep(&mut self) {
        // The tree, the constant, a 63 at each level, a literal and its value.
        let levels = MOST_DEPTH - 4;
        for left in [true, false] {
            for (name, bottom, top) in [
                ("right all along", 0, 0),
                ("wrong at the bottom", 1, 0),
                ("wrong at the top", 0, 1),
            ] {
                let side = if left { "left" } else { "right" };
                let name = format!("{levels} to the {side}, {name}");
                self.put(&name, chain(levels, left, [bottom, top]));
            }
        }
        // In parentheses, of which the last is the 64th record.
        let sum = operation(truth(), ADD, truth());
        let inside = (2..MOST_DEPTH).fold(sum, |inner, _| over(70, inner));
        self.store(Version::One).put("a sum 65 deep", inside);
        let too_deep = chain(levels + 1, true, [1, 0]);
        self.put("a level too many", too_deep);
    }

    /// Bodies of nearly a megabyte: a list of sums, with a faulty operand in
    /// the first, the last, or none.
    fn large(&mut self) {
        let sum = || operation(truth(), ADD, truth());
        let wrong = || operation(sum(), MUL, truth());
        let size = |count: usize| {
            let tree = file([constant("c", list_of(count, &sum))]);
            image::write(&[], &tree).len()
        };
        let each = size(2) - size(1);
        let more = size(1) + 2 * each;
        let count = (HEADER + MOST_BODY - more) / each;
        let with = |place: Option<usize>| {
            let element = |at| match Some(at) == place {
                true => wrong(),
                false => sum(),
            };
            let elements = (0..count).map(|at| Some(element(at)));
            over(59, node(3, 0..0, elements))
        };
        self.put("many sums", with(None));
        self.put("the first of many", with(Some(0)));
        self.put("the last of many", with(Some(count - 1)));
    }

    /// Comments in order and not, before a faulty operand.
    fn comments(&mut self) {
        let sum = operation(truth(), ADD, truth());
        let product = operation(truth(), MUL, sum);
        let tree = || file([constant("c", product.clone())]);
        let lists: [(&str, &[std::ops::Range<usize>]); 4] = [
            ("comments in order", &[0..2, 2..4]),
            ("comments backwards", &[2..4, 0..2]),
            ("comments that overlap", &[0..3, 2..4]),
            ("an empty comment", &[0..2, 2..2]),
        ];
        for (name, comments) in lists {
            let two = self.store(Version::Two);
            two.put_file(name, b"////", comments, tree());
        }
        let two = self.store(Version::Two);
        two.put_file("a source that isn't UTF-8", b"\xFF", &[], tree());
        let long = vec![b' '; 65_537];
        self.put_file("a source too long", &long, &[], tree());
        let mut late = tree();
        late.span = 0..9;
        self.put_file("a span past the source", b"", &[], late);
    }
}

fn list_of(count: usize, element: &impl Fn() -> Tree) -> Tree {
    over(59, node(3, 0..0, (0..count).map(|_| Some(element()))))
}

/// So many operators in each other on one side, the outermost and the innermost
/// operand wrong where that is asked for.
fn chain(levels: usize, left: bool, [bottom, top]: [u8; 2]) -> Tree {
    // To the left `-`, to the right `**`, which associate so.
    let (own, wrong) = if left { (9, 2) } else { (13, 9) };
    let mut value = truth();
    for level in 0..levels {
        let at_bottom = level == 0 && bottom == 1;
        let at_top = level + 2 == levels && top == 1;
        let operator = if at_bottom || at_top { wrong } else { own };
        value = match left {
            true => operation(value, operator, truth()),
            false => operation(truth(), operator, value),
        };
    }
    value
}

/// The least record of a kind, with a sum in a child's place, if an expression
/// may stand there.
fn with_sum(random: &mut Random, kind: u8, place: usize) -> Option<Tree> {
    let child = grammar::children(kind, Place::Expr).get(place)?;
    let (Child::One(Place::Expr) | Child::Maybe(Place::Expr)) = child else {
        return None;
    };
    let mut shapes = Shapes {
        random,
        fill: Letters,
        left: 0,
    };
    let mut whole = shapes.of_kind(kind, Place::Expr, 3);
    // What else the record holds is no operator.
    for child in whole.children.iter_mut().flatten() {
        if (50..=70).contains(&child.kind) {
            *child = truth();
        }
    }
    let sum = operation(truth(), ADD, truth());
    whole.children[place] = Some(sum);
    Some(whole)
}

/// Texts of one letter, and no spans.
struct Letters;

impl Fill for Letters {
    fn span(&mut self, _: &mut Random, _: u8) -> std::ops::Range<usize> {
        0..0
    }

    fn text(&mut self, _: &mut Random) -> (String, usize) {
        ("a".into(), 1)
    }
}
