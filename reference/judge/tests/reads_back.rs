//! Request 11: whether a tree's text would be read back as another tree. What
//! is printed is read again by the small parser of `script`, which has a table
//! of precedences of its own and none of precedence.rs.

use std::collections::BTreeMap;

use judge::{
    examples, frame,
    generate::{self, FixedOperators, OperatorCase},
    image::{self, Tree, chosen, node, text},
    moves,
    program::{self, Widths},
    random::Random,
    reader::{self, Record, Version},
    reads_back::{Operand, Rule, Verdict, operands, reads_back},
    refusal::refusal,
    script,
};

/// The operators in `BinOp`'s order, with what they must not stand under: of
/// one set, any under another is `Not`.
const NONE: [&[usize]; 2] = [&[2, 3, 4, 5, 6, 7], &[0, 1]];
const OPERATORS: usize = 14;

fn value(name: &str) -> Tree {
    let name = text(0..0, name.len(), name);
    node(56, 0..0, [Some(node(4, 0..0, [Some(name)]))])
}

fn operation(left: Tree, operator: usize, right: Tree) -> Tree {
    let operator = chosen(86, 0..0, operator as u8, []);
    node(63, 0..0, [left, operator, right].map(Some))
}

fn over(kind: u8, inner: Tree) -> Tree {
    node(kind, 0..0, [Some(inner)])
}

/// `const c: () = ` and a value.
fn constant(value: Tree) -> Vec<u8> {
    let name = text(0..0, 1, "c");
    let ty = node(43, 0..0, []);
    let constant = node(11, 0..0, [name, ty, value].map(Some));
    image::write(&[], &node(1, 0..0, [None, Some(constant)]))
}

fn verdict(value: Tree) -> Verdict {
    reads_back(b"", &constant(value)).expect("a legal image")
}

const A: &str = "a";

fn add(left: Tree, right: Tree) -> Tree {
    operation(left, 8, right)
}

fn multiply(left: Tree, right: Tree) -> Tree {
    operation(left, 10, right)
}

fn sum() -> Tree {
    add(value(A), value(A))
}

fn product() -> Tree {
    multiply(value(A), sum())
}

/// Offsets in `constant`: header and count 7, the tree's head 13, no shebang
/// 4, the constant's head 13, its name 16, its type 13.
const VALUE: usize = 66;
/// The bytes of a head, of a name as an expression, and of an operator.
const HEAD: usize = 13;
const PATH: usize = 42;
const SIGN: usize = 14;

/// "The generator builds a sum under a product with no parentheses record"
#[test]
fn the_sum_under_a_product() {
    let at = VALUE + HEAD + PATH + SIGN;
    assert_eq!(verdict(product()), Verdict::Differs(at));
    let left = multiply(sum(), value(A));
    assert_eq!(verdict(left), Verdict::Differs(VALUE + HEAD));
    let right = multiply(value(A), over(70, sum()));
    assert_eq!(verdict(right), Verdict::Same);
    let lower = add(value(A), multiply(value(A), value(A)));
    assert_eq!(verdict(lower), Verdict::Same);
    for kind in [60, 64] {
        let under = over(kind, sum());
        assert_eq!(verdict(under), Verdict::Differs(VALUE + HEAD));
        let beside = multiply(over(kind, value(A)), value(A));
        assert_eq!(verdict(beside), Verdict::Same);
    }
}

/// "otherwise the first that does in reading order"
#[test]
fn the_first_of_two() {
    // Inside the left operand, which is right itself, and the right operand.
    let inner = VALUE + HEAD + HEAD + PATH + SIGN;
    let both = add(product(), sum());
    assert_eq!(verdict(both), Verdict::Differs(inner));
    let call = node(
        54,
        0..0,
        [Some(value("f")), Some(node(3, 0..0, [Some(product())]))],
    );
    let inner = VALUE + HEAD + HEAD + PATH + HEAD + HEAD + PATH + SIGN;
    assert_eq!(verdict(add(call, sum())), Verdict::Differs(inner));
    // The left operand itself before what is in it.
    let both = multiply(add(product(), value(A)), sum());
    assert_eq!(verdict(both), Verdict::Differs(VALUE + HEAD));
    // The whole under a negation before both.
    let both = over(64, multiply(sum(), sum()));
    assert_eq!(verdict(both), Verdict::Differs(VALUE + HEAD));
}

/// Records but for where they stand.
fn same(left: &Record, right: &Record) -> bool {
    let children = |record: &Record| record.children.len();
    let pairs = left.children.iter().zip(&right.children);
    left.kind == right.kind
        && left.payload == right.payload
        && children(left) == children(right)
        && { pairs }.all(|pair| match pair {
            (None, None) => true,
            (Some(left), Some(right)) => same(left, right),
            _ => false,
        })
}

/// Whether the original's text of an image is read as the same tree.
fn comes_back(image: &[u8]) -> bool {
    let printed = program::output(&frame::join(b"", image), Widths::Supplied);
    let Ok(again) = script::frame(&printed) else {
        return false;
    };
    let again = frame::split(&again).expect("a frame");
    let again = reader::read(again.source, again.image).expect("legal");
    let read = reader::read(b"", image).expect("legal");
    same(&read.tree, &again.tree)
}

/// Whether somewhere two operators stand in each other of which neither comes
/// first. What these print the original's parser doesn't read.
fn mixes(tree: &Tree) -> bool {
    let place = |tree: &Tree| -> Option<usize> {
        let operator = tree.children.get(1)?.as_ref()?;
        (tree.kind == 63).then(|| usize::from(operator.payload[0]))
    };
    let under = |child: &Tree| {
        let (Some(over), Some(own)) = (place(tree), place(child)) else {
            return false;
        };
        let [comparisons, logical] = NONE;
        [over, own].iter().all(|one| comparisons.contains(one))
            || over != own
                && [over, own].iter().all(|one| logical.contains(one))
    };
    let mut children = tree.children.iter().flatten();
    children.any(|child| under(child) || mixes(child))
}

/// The verdict is yes where the text comes back as the same tree.
fn expect(tree: Tree) -> Verdict {
    let image = constant(tree.clone());
    let due = !mixes(&tree) && comes_back(&image);
    let got = reads_back(b"", &image).expect("legal");
    assert_eq!(got == Verdict::Same, due, "{tree:?}");
    got
}

#[test]
fn all_pairs_come_back_or_not() {
    let mut counts = [0; 2];
    for outer in 0..OPERATORS {
        for inner in 0..OPERATORS {
            let one = || operation(value(A), inner, value("b"));
            let left = |inner| operation(inner, outer, value("c"));
            let right = |inner| operation(value("c"), outer, inner);
            for tree in [left(one()), right(one())] {
                let got = expect(tree.clone());
                counts[usize::from(got == Verdict::Same)] += 1;
                for kind in [60, 64, 70] {
                    expect(over(kind, tree.clone()));
                }
            }
            for kind in [60, 64, 70] {
                expect(left(over(kind, one())));
                expect(right(over(kind, one())));
            }
        }
    }
    // By the levels 2, 6, 2, 3 and 1: of operators of two levels the higher may
    // stand on either side of the lower; of one level those that associate, on
    // one side: 2 (not mixed), 0, 4, 9 and 1.
    let higher = 2 * 12 + 6 * 6 + 2 * 4 + 3;
    assert_eq!(counts, [392 - (2 * higher + 16), 2 * higher + 16]);
}

/// Any tree of names, 60, 63, 64 and 70 of so many operators, in which no 64
/// stands directly over a 64: `--` is one token.
fn any(random: &mut Random, most: usize) -> Tree {
    if most == 0 {
        return value(random.pick::<&str>(&["a", "b", "rate"]));
    }
    let unary = |random: &mut Random, kind| {
        let inner = any(random, most - 1);
        match inner.kind == 64 && kind == 64 {
            true => inner,
            false => over(kind, inner),
        }
    };
    match random.below(10) {
        0 => unary(random, 60),
        1 => unary(random, 64),
        2 | 3 => unary(random, 70),
        _ => {
            let left = random.below(most);
            let operator = match random.below(3) {
                0 => *random.pick(&[8, 10]),
                _ => random.below(OPERATORS),
            };
            let first = any(random, left);
            operation(first, operator, any(random, most - 1 - left))
        }
    }
}

#[test]
fn any_trees_come_back_or_not() {
    let random = &mut Random::new(11, 1, 0);
    let mut counts = [0; 2];
    for _ in 0..6_000 {
        let most = random.between(1, 7);
        let got = expect(any(random, most));
        counts[usize::from(got == Verdict::Same)] += 1;
    }
    assert!(counts.iter().all(|count| *count > 900), "{counts:?}");
}

/// Only a 60, a 64 and a 63 are asked about, and only directly: what a 63
/// under another kind becomes is on the page of differences.
#[test]
fn other_kinds_are_not_asked() {
    let mut tried = 0;
    for FixedOperators { name, of, .. } in generate::operator_cases() {
        let Some(kind) = name.strip_prefix("a sum as child ") else {
            continue;
        };
        let (_, kind) = kind.split_once(" of ").expect("a kind");
        let kind = kind.split([',', ' ']).next().expect("a number");
        if matches!(kind, "60" | "63" | "64") {
            continue;
        }
        let got = reads_back(&of.source, &of.image);
        assert_eq!(got, Ok(Verdict::Same), "{name}");
        tried += 1;
    }
    // 50, 53, 54, 55, 61, 62, 65, 66, 67, 68, 70: three trees of each, in two
    // versions.
    assert_eq!(tried, 11 * 3 * 2);
}

fn fixed(name: &str) -> &'static OperatorCase {
    let name = format!("{name}, version 1");
    let mut all = generate::operator_cases().iter();
    let found = all.find(|case| case.name == name);
    &found.unwrap_or_else(|| panic!("{name}")).of
}

fn found(case: &OperatorCase) -> Vec<Operand> {
    let read = reader::read(&case.source, &case.image);
    operands(&read.expect("a legal image"))
}

/// A chain of 60, its last 62 deep: below that a literal and its value.
#[test]
fn deep_chains() {
    for (side, rule) in [("left", Rule::Left), ("right", Rule::Right)] {
        for (name, due) in [
            ("right all along", None),
            ("wrong at the bottom", Some(62)),
            ("wrong at the top", Some(4)),
        ] {
            let name = format!("60 to the {side}, {name}");
            let found = found(fixed(&name));
            let depths: Vec<_> =
                found.iter().map(|one| (one.depth, one.rule)).collect();
            let due = due.map(|depth| (depth, rule));
            assert_eq!(depths, Vec::from_iter(due), "{name}");
        }
    }
    let OperatorCase { source, image } = fixed("a level too many");
    let answer = reads_back(source, image).map_err(|late| late.number);
    assert_eq!(answer, Err(5));
}

#[test]
fn large_bodies() {
    let first = found(fixed("the first of many"));
    let last = found(fixed("the last of many"));
    assert!(found(fixed("many sums")).is_empty());
    assert_eq!([first.len(), last.len()], [1, 1]);
    assert!(first[0].at < 200);
    let image = &fixed("the last of many").image;
    assert!(image.len() > 1_048_000 && last[0].at > image.len() - 300);
}

/// "Refused: 1 to 7, as the image reader": comments strictly, both versions,
/// and no rule of widths.
#[test]
fn refused_as_by_the_reader() {
    let mut numbers = BTreeMap::<u8, usize>::new();
    let made = (0..3_000).map(|index| generate::operator_case(3, index));
    let listed = generate::operator_cases().iter();
    let listed = listed.map(|one| one.of.clone());
    for OperatorCase { source, image } in made.chain(listed) {
        let due = reader::read(&source, &image).err();
        let got = reads_back(&source, &image);
        assert_eq!(got.err(), due);
        let number = due.map_or(0, |refusal| refusal.number);
        *numbers.entry(number).or_default() += 1;
    }
    let each = (0..=7).all(|number| numbers.contains_key(&number));
    assert!(each, "{numbers:?}");
    let OperatorCase { source, image } = fixed("comments backwards");
    assert_eq!(reads_back(source, image), Err(refusal(7, 15)));
}

/// Each rule is the first one that is broken in some generated tree, and in
/// many none is.
#[test]
fn what_is_generated() {
    let mut firsts = BTreeMap::<Option<Rule>, [usize; 2]>::new();
    let mut later = 0;
    for index in 0..3_000 {
        let case = generate::operator_case(4, index);
        let read = reader::read(&case.source, &case.image);
        let Ok(read) = read else { continue };
        let found = operands(&read);
        let first = found.first().map(|one| one.rule);
        let version = usize::from(case.image[0] - 1);
        firsts.entry(first).or_default()[version] += 1;
        // The outermost isn't the first.
        let outermost = found.iter().min_by_key(|one| one.depth);
        later += usize::from(
            outermost.map(|one| one.at) != found.first().map(|one| one.at),
        );
    }
    let rules = Rule::ALL.map(|(rule, _)| Some(rule));
    for first in rules.into_iter().chain([None]) {
        let counts = firsts.get(&first).copied().unwrap_or_default();
        let least = if first.is_none() { 300 } else { 40 };
        assert!(
            counts.iter().all(|count| *count > least),
            "{firsts:?}, {later}"
        );
    }
    assert!(later > 100, "{later}");
}

/// The same record in both versions.
#[test]
fn versions_agree() {
    let number = |source: &[u8], image: &[u8]| {
        let read = reader::read(source, image).expect("legal");
        let first = operands(&read).first().map(|one| one.at);
        let mut before = 0;
        read.tree.walk(&mut |record| {
            before += usize::from(Some(record.at) > first);
        });
        (first.is_some(), before)
    };
    let mut tried = 0;
    for index in 0..600 {
        let OperatorCase { source, image } =
            generate::operator_case(5, index);
        let two = moves::forward(&source, &image, usize::MAX);
        let (Ok(two), Ok(_)) = (two, reader::read(&source, &image)) else {
            continue;
        };
        assert_eq!(two[0], Version::Two as u8);
        assert_eq!(number(&source, &image), number(&source, &two));
        tried += 1;
    }
    assert!(tried > 100, "{tried}");
}

/// The frames of document 01 have no operators.
#[test]
fn worked_frames() {
    for (name, _) in examples::NAMES {
        let bytes = examples::frame(name).expect("known");
        let Ok(split) = frame::split(&bytes) else {
            continue;
        };
        if reader::read(split.source, split.image).is_ok() {
            let got = reads_back(split.source, split.image);
            assert_eq!(got, Ok(Verdict::Same), "{name}");
        }
    }
}
