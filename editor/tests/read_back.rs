//! Whether trees would be read back differently (docs/02-change-requests.md,
//! 11): the verdict, and its words.

mod support;

#[allow(dead_code)]
#[path = "../examples/formulas.rs"]
mod formulas;

use std::error::Error;

use rrufthim::{
    Cause, File, FormatError, Formatter, Parent, ReadBackError, Refusal,
    Version, archive,
    ast::*,
    calls::{self, Verdict, check},
    encode, encode_as,
    generator::{Builder, Step, steps},
    kind, reads_back,
};
use support::tariff_image;

fn name(at: usize) -> Meta<Expr> {
    let ident = Meta::new("a".into(), at..at + 1);
    let path = Path {
        idents: vec![ident],
    };
    Meta::new(Expr::Path(Meta::new(path, at..at + 1)), at..at + 1)
}

/// `left SIGN right` with the span of all of it.
fn operation(left: Meta<Expr>, op: BinOp, right: Meta<Expr>) -> Meta<Expr> {
    let span = left.span.start..right.span.end;
    let sign = left.span.end + 1..right.span.start - 1;
    let op = Meta::new(op, sign);
    let op = Expr::BinOp(Box::new(left), op, Box::new(right));
    Meta::new(op, span)
}

fn over(kind: fn(Box<Meta<Expr>>) -> Expr, inner: Meta<Expr>) -> Meta<Expr> {
    let span = inner.span.clone();
    Meta::new(kind(Box::new(inner)), span)
}

/// Constants without a type to speak of, `A` the first.
fn constants(values: Vec<Meta<Expr>>) -> SyntaxTree {
    let named = values.into_iter().zip(["A", "B"]);
    let constant = |(expr, name): (Meta<Expr>, &str)| {
        Declaration::Const(ConstantDeclaration {
            ident: Meta::new(name.into(), 0..0),
            ty: Meta::new(TypeExpr::Unit, 0..0),
            expr,
        })
    };
    SyntaxTree {
        shebang: None,
        declarations: named.map(constant).collect(),
    }
}

const SOURCE: &str = "\n  a + a * a + a + a";

/// Of the values of constants, over `SOURCE`.
fn answer(values: Vec<Meta<Expr>>) -> Result<(), ReadBackError> {
    let image = encode(&constants(values), &[]).expect("a small tree");
    reads_back(File::new(SOURCE, &image))
}

fn words(value: Meta<Expr>) -> String {
    answer(vec![value]).expect_err("it differs").to_string()
}

use BinOp::{Add, And, Eq, Lt, Mul, Or, Sub};

fn sum(at: usize) -> Meta<Expr> {
    operation(name(at), Add, name(at + 4))
}

#[test]
fn an_operand_is_named_with_its_place() {
    let right = operation(name(3), Mul, sum(7));
    let said = words(right);
    let due = "line 2, column 7: `+` stands as the right operand of `*` \
        without parentheses, in `A`";
    assert_eq!(said, due);
    let left = operation(sum(3), Mul, name(11));
    let due = "line 2, column 3: `+` stands as the left operand of `*` \
        without parentheses, in `A`";
    assert_eq!(words(left), due);
    let grouped = operation(name(3), Mul, over(Expr::Parentheses, sum(7)));
    assert_eq!(answer(vec![grouped]), Ok(()));
}

#[test]
fn each_parent_has_its_words() {
    for (value, due) in [
        (over(Expr::Not, sum(3)), "`+` stands under `!`"),
        (
            over(Expr::Negate, sum(3)),
            "`+` stands under the `-` of a negation",
        ),
        (
            operation(name(3), Sub, operation(name(7), Sub, name(11))),
            "`-` stands as the right operand of `-`",
        ),
        (
            operation(operation(name(3), Eq, name(7)), Lt, name(11)),
            "`==` stands as the left operand of `<`",
        ),
        (
            operation(operation(name(3), And, name(7)), Or, name(11)),
            "`&&` stands as the left operand of `||`",
        ),
    ] {
        let said = words(value);
        let without_place = said.split_once(": ").expect("a place").1;
        let due = format!("{due} without parentheses, in `A`");
        assert_eq!(without_place, due);
    }
}

/// Each operator has its place in the image, and the sign that a text has.
#[test]
fn operators_are_those_of_the_image() {
    for (place, operator) in BinOp::ALL.into_iter().enumerate() {
        assert_eq!(operator as usize, place);
        let value = over(Expr::Not, operation(name(3), operator, name(7)));
        let Err(ReadBackError::Differs(operand)) =
            answer(vec![value.clone()])
        else {
            panic!("{operator:?}");
        };
        assert_eq!(operand.operator, operator);
        assert_eq!(operand.parent, Parent::Not);
        // The text has the sign.
        let image = encode(&constants(vec![value]), &[]).expect("small");
        let mut formatter = Formatter::new();
        let text = formatter.format_file(File::new(SOURCE, &image));
        let text = text.expect("a text").text.to_owned();
        let sign = operator.sign();
        assert_eq!(text, format!("const A: () = !a {sign} a;\n"));
    }
}

/// The first in reading order, and the declaration that holds it.
#[test]
fn the_first_is_named() {
    let product = |at| operation(name(at), Mul, sum(at + 4));
    // In the left operand, before the right one.
    let both = operation(product(3), Add, sum(15));
    let Err(ReadBackError::Differs(inner)) = answer(vec![both]) else {
        panic!("it differs");
    };
    assert_eq!(inner.parent, Parent::RightOf(Mul));
    assert_eq!(inner.place.expect("a place").span, 7..12);
    let second = answer(vec![sum(3), product(3)]);
    let Err(ReadBackError::Differs(second)) = second else {
        panic!("it differs");
    };
    assert_eq!(second.declaration, "B");
    let first = answer(vec![product(3), product(3)]);
    assert!(matches!(
        first,
        Err(ReadBackError::Differs(one)) if one.declaration == "A"
    ));
}

/// A function whose last expression returns a call, with a faulty operand in
/// the call's arguments, behind a literal.
fn deep_inside() -> SyntaxTree {
    let literal = Literal::Bool(true);
    let literal = Expr::Literal(Meta::new(literal, 0..0));
    let literal = Meta::new(literal, 0..0);
    let product = operation(name(3), Mul, sum(7));
    let arguments = Meta::new(vec![literal.clone(), product], 0..0);
    let call = Expr::FunctionCall(Box::new(literal.clone()), arguments);
    let call = Box::new(Meta::new(call, 0..0));
    let returned = Expr::Return(ReturnKind::Accept, Some(call));
    let block = Block {
        stmts: vec![Meta::new(Stmt::Expr(literal), 0..0)],
        last: Some(Box::new(Meta::new(returned, 0..0))),
    };
    let function = FunctionDeclaration {
        ident: Meta::new("über\n".into(), 0..0),
        params: Meta::new(Params(vec![]), 0..0),
        ret: None,
        body: Meta::new(block, 0..0),
    };
    SyntaxTree {
        shebang: Some("#!/x\n".into()),
        declarations: vec![Declaration::Function(function)],
    }
}

/// Its parent and its declaration are found there too.
#[test]
fn an_operand_deep_inside() {
    for version in [Version::One, Version::Two] {
        let image = encode_as(version, &deep_inside(), &[0..1]);
        let image = image.expect("small");
        let file = File::new(SOURCE, &image);
        let due = "line 2, column 7: `+` stands as the right operand of `*` \
            without parentheses, in `über\\n`";
        let error = reads_back(file).expect_err("it differs");
        assert_eq!(error.to_string(), due);
        assert!(error.source().is_none());
        let Ok(Verdict::Differs { at }) = calls::reads_back(file) else {
            panic!("it differs");
        };
        assert!(matches!(
            error,
            ReadBackError::Differs(operand) if operand.at == at
        ));
        assert_eq!(image[at + 4], kind::BIN_OP);
    }
}

/// Both versions, and no rule of widths that refuses the second.
#[test]
fn both_versions_are_read() {
    let tree = constants(vec![operation(name(3), Mul, sum(7))]);
    let one = encode(&tree, &[]).expect("small");
    let two = archive::forward(File::new(SOURCE, &one)).expect("moved");
    let said = [&one, &two].map(|image| {
        let error = reads_back(File::new(SOURCE, image));
        error.expect_err("it differs").to_string()
    });
    assert_eq!(said[0], said[1]);
    // `years>10` and `BASE*3`, in a parser's tree.
    let tariff = tariff_image();
    assert_eq!(reads_back(File::new(support::SOURCE, &tariff)), Ok(()));
}

/// What the reader refuses is said as for a text.
#[test]
fn refused_as_by_the_check() {
    let tree = constants(vec![operation(name(3), Mul, sum(7))]);
    let image = encode(&tree, &[0..1, 1..2]).expect("small");
    let mut backwards = image.clone();
    backwards[7..23].rotate_left(8);
    let mut other = image.clone();
    other[0] = 3;
    for (source, image) in [
        (&b""[..], &image),
        (b"ab\xFF", &image),
        (SOURCE.as_bytes(), &other),
        (SOURCE.as_bytes(), &backwards),
        (SOURCE.as_bytes(), &image[..40].to_vec()),
    ] {
        let file = File::new(source, image);
        let refusal = check(file).expect_err("refused");
        assert_eq!(calls::reads_back(file), Err(refusal));
        let error = reads_back(file).expect_err("refused");
        let due: FormatError = file.error(refusal);
        assert_eq!(due.cause, Cause::Refused(refusal));
        assert_eq!(error.to_string(), due.to_string());
        assert_eq!(error, ReadBackError::Refused(due));
    }
    let empty = calls::reads_back(File::new("", &[]));
    assert_eq!(empty, Err(Refusal::NoImage));
}

/// A generator's records have no spans: the declaration says where it is.
#[test]
fn a_generators_tree_has_no_place() {
    let report = formulas::report().expect("two texts");
    let due = "\
const plain: u32 = base * rate + surcharge;
  is read back differently: `+` stands as the right operand of `*` without parentheses, in `plain`
const grouped: u32 = base * (rate + surcharge);
  is read back the same
";
    assert_eq!(report, due);
}

/// The offset is that of a record of the list of steps.
#[test]
fn the_step_is_found() {
    let tree = constants(vec![operation(name(3), Mul, sum(7))]);
    let image = encode(&tree, &[]).expect("small");
    let file = File::new(SOURCE, &image);
    let Err(ReadBackError::Differs(operand)) = reads_back(file) else {
        panic!("it differs");
    };
    let list = steps(file).expect("its steps");
    let sums = list.iter().filter(|step| {
        matches!(step, Step::Open { kind: kind::BIN_OP, span } if *span == (7..12))
    });
    assert_eq!(sums.count(), 1);
    let mut builder = Builder::new();
    for step in &list {
        builder.step(step).expect("the same steps");
    }
    let built = builder.finish().expect("the same image");
    assert_eq!(built, image);
    assert_eq!(
        built[operand.at + 5..operand.at + 13],
        [0, 0, 0, 7, 0, 0, 0, 12]
    );
}
