//! Files counted: their figures, tallies and refusals.

mod support;

use rrufthim::{
    File, Options, Refusal,
    ast::*,
    calls::format_file,
    encode,
    figures::{Figures, Fraction, Report, Tallies, count},
    limits::{MAX_FILES, MAX_TALLY},
};
use support::{Random, SOURCE, constants, tariff_image};

const LINE: &str = "const A: u32 = 1; # ok\n";

/// One constant with a comment that is left.
fn line_image() -> Vec<u8> {
    encode(&constants(LINE), &[18..23]).expect("within the limits")
}

/// What the constant gives, so many times.
fn of_lines(count: usize) -> Figures {
    let mut figures = Figures::default();
    figures.bytes = 18 * count;
    figures.newlines = count;
    figures.column = 17;
    figures.given = count;
    figures.left = count;
    figures
}

/// The constant on top of these tallies.
fn line_on(tallies: &mut Tallies) -> Result<Figures, Refusal> {
    let counted = count(File::new(LINE, &line_image()), tallies);
    counted.map(|counted| counted.figures)
}

#[test]
fn figures_are_those_of_the_formatted_file() {
    let image = tariff_image();
    let file = File::new(SOURCE, &image);
    let mut tallies = Tallies::default();
    let counted = count(file, &mut tallies).expect("counted");
    let mut output = [0; 1_000];
    let written = format_file(file, &Options::AS_ROTO, &mut output);
    let written = written.expect("a text");
    let text = &output[..written.bytes];
    let lines: Vec<&[u8]> = text.split(|byte| *byte == b'\n').collect();
    let figures = counted.figures;
    assert_eq!(figures.bytes, text.len());
    assert_eq!(figures.newlines, lines.len() - 1);
    assert_eq!(figures.given, written.numbers);
    assert_eq!((figures.placed, figures.left), (2, written.comments_left));
    // Its longest line without a comment.
    let longest = "fn discount(years: u32) -> u32 {";
    assert!(lines.contains(&longest.as_bytes()));
    assert_eq!(figures.column, longest.len());
    assert_eq!((figures.given, figures.wrapped), (13, 3));
    let (over, under) = (3, 13);
    assert_eq!(counted.fraction, Fraction { over, under });
    assert_eq!(counted.fraction.to_string(), "3 over 13");
    assert_eq!((tallies.files, tallies.all), (1, figures));
}

#[test]
fn sums_and_the_greatest_column() {
    let mut tallies = Tallies::default();
    assert_eq!(line_on(&mut tallies), Ok(of_lines(1)));
    assert_eq!(line_on(&mut tallies), Ok(of_lines(1)));
    assert_eq!((tallies.files, tallies.all), (2, of_lines(2)));
}

/// Tallies that are fine, with a change.
fn changed(change: impl Fn(&mut Tallies)) -> Tallies {
    let mut tallies = Tallies::default();
    tallies.all.given = 8;
    tallies.all.wrapped = 3;
    change(&mut tallies);
    tallies
}

/// Each bound at its value, and one over.
#[test]
fn tallies_are_refused() {
    type Set = fn(&mut Tallies, usize);
    let bounds: [(Set, usize); 9] = [
        (|t, n| t.files = n, MAX_FILES - 1),
        (|t, n| t.all.bytes = n, MAX_TALLY),
        (|t, n| t.all.newlines = n, MAX_TALLY),
        (|t, n| t.all.column = n, MAX_TALLY),
        (|t, n| t.all.given = n, MAX_TALLY),
        (
            |t, n| [t.all.given, t.all.wrapped] = [MAX_TALLY, n],
            MAX_TALLY,
        ),
        (|t, n| t.all.placed = n, MAX_TALLY),
        (|t, n| t.all.left = n, MAX_TALLY),
        (|t, n| t.all.wrapped = n, 8),
    ];
    for (place, (set, bound)) in bounds.into_iter().enumerate() {
        let mut most = changed(|tallies| set(tallies, bound));
        let files = most.files;
        assert_eq!(line_on(&mut most), Ok(of_lines(1)), "{place}");
        assert_eq!(most.files, files + 1);
        for over in [bound + 1, usize::MAX] {
            let before = changed(|tallies| set(tallies, over));
            let mut tallies = before.clone();
            let refused = line_on(&mut tallies);
            assert_eq!(refused, Err(Refusal::BadTallies), "{place}");
            assert_eq!(tallies, before);
        }
    }
}

/// A file's own refusals come before 14.
#[test]
fn the_file_is_refused_first() {
    let mut full = changed(|tallies| tallies.files = MAX_FILES);
    let refused = count(File::new("", ""), &mut full);
    assert_eq!(refused, Err(Refusal::NoImage));
    let source = " ".repeat(40_000);
    let literal = Meta::new(Literal::Integer(0, None), 0..source.len());
    let literal = Meta::new(Expr::Literal(literal), 0..0);
    let mut tree = constants(LINE);
    let [Declaration::Const(constant)] = &mut tree.declarations[..] else {
        panic!("one constant");
    };
    constant.expr = Meta::new(Expr::List(vec![literal; 2]), 0..0);
    let image = encode(&tree, &[]).expect("within the limits");
    let refused = count(File::new(&source, &image), &mut full);
    assert!(matches!(refused, Err(Refusal::MoreOutput { .. })));
    assert_eq!(line_on(&mut full), Err(Refusal::BadTallies));
}

#[test]
fn a_report_counts_in_any_order() {
    let files = [
        (SOURCE, tariff_image()),
        (LINE, line_image()),
        (LINE, line_image()),
        // Spans past their source.
        ("", line_image()),
        ("", encode(&SyntaxTree::default(), &[]).expect("an image")),
    ];
    let mut due = None;
    for first in 0..files.len() {
        let mut turned = files.clone();
        turned.rotate_left(first);
        let mut report = Report::new();
        let counted = turned.iter().map(|(source, image)| {
            report.count(File::new(*source, image)).is_ok()
        });
        assert_eq!(counted.filter(|counted| !counted).count(), 1);
        assert_eq!(report.tallies().files, 4);
        let totals = (report.tallies().clone(), report.fraction());
        assert_eq!(*due.get_or_insert(totals.clone()), totals);
    }
    let (tallies, fraction) = due.expect("reports");
    assert_eq!((tallies.all.given, tallies.all.wrapped), (15, 3));
    assert_eq!(fraction, Fraction { over: 1, under: 5 });
}

#[test]
fn a_report_of_no_file() {
    let mut report = Report::new();
    let nothing = Fraction { over: 0, under: 1 };
    assert_eq!(report.fraction(), nothing);
    let file = File::new("", "");
    let refused = report.count(file);
    assert_eq!(refused, Err(file.error(Refusal::NoImage)));
    assert_eq!(*report.tallies(), Tallies::default());
    assert_eq!(report.fraction(), nothing);
}

#[test]
fn no_file_past_the_last_is_counted() {
    let image = line_image();
    let file = File::new(LINE, &image);
    let mut report = Report::new();
    for _ in 0..MAX_FILES {
        assert_eq!(report.count(file), Ok(of_lines(1)));
    }
    let full = report.tallies().clone();
    assert_eq!((full.files, &full.all), (MAX_FILES, &of_lines(MAX_FILES)));
    for _ in 0..2 {
        let due = file.error(Refusal::BadTallies);
        assert_eq!(report.count(file), Err(due));
        assert_eq!(*report.tallies(), full);
    }
}

/// Tallies that no call left are refused or added to, and a refusal leaves
/// them as they were.
#[test]
fn foreign_tallies() {
    let mut random = Random(6);
    let image = line_image();
    let [mut counted, mut refused] = [0, 0];
    for _ in 0..2_000 {
        let mut tallies = Tallies::default();
        let Figures { given, wrapped, .. } = &mut tallies.all;
        [*given, *wrapped] = [random.wild(), random.wild()];
        tallies.files = random.wild();
        tallies.all.bytes = random.wild();
        let before = tallies.clone();
        let answer = count(File::new(LINE, &image), &mut tallies);
        if answer.is_ok() {
            counted += 1;
            assert_eq!(tallies.files, before.files + 1);
            assert_eq!(tallies.all.bytes, before.all.bytes + 18);
        } else {
            refused += 1;
            assert_eq!(answer, Err(Refusal::BadTallies));
            assert_eq!(tallies, before);
        }
    }
    assert!(counted > 100 && refused > 100, "{counted}, {refused}");
}
