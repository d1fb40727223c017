//! Request 2 of document 02: figures, tallies, refusal 14 and the report.

mod support;

use judge::{
    answers, examples,
    figures::{
        Counted, Figures, Fraction, MOST_FILES, MOST_TALLY, Tallies, count,
        reduced, report::output,
    },
    frame::{Frame, framed, split_any_size},
    generate::{self, Class},
    refusal::{Refusal, refusal},
};
use support::{N, N::*, pen, render};

fn parts(frame: &[u8]) -> Frame<'_> {
    split_any_size(frame).expect("a frame")
}

/// A file of document 01 on top of tallies.
fn counted(name: &str, tallies: &Tallies) -> Result<Counted, Refusal> {
    let frame = examples::frame(name).expect("known");
    count(parts(&frame), tallies)
}

fn tallies(files: u64, all: [u64; 7]) -> Tallies {
    let all = Figures::from_numbers(all);
    Tallies { files, all }
}

const FULL: Refusal = Refusal {
    number: 14,
    place: 0,
};

#[test]
fn the_figures_of_the_worked_files() {
    let figures = |name| {
        let counted = counted(name, &Tallies::default());
        counted.expect("counted").figures.numbers()
    };
    // Bytes, newlines, column, given, wrapped, placed, left.
    assert_eq!(figures("shebang"), [6, 2, 4, 0, 0, 0, 0]);
    assert_eq!(figures("nothing"), [0; 7]);
    assert_eq!(figures("comment-alone"), [0, 0, 0, 0, 0, 0, 1]);
    assert_eq!(figures("const"), [18, 1, 17, 1, 0, 0, 0]);
    assert_eq!(figures("const-comment"), [18, 1, 17, 1, 0, 0, 1]);
    assert_eq!(figures("two-consts"), [41, 2, 17, 2, 0, 1, 0]);
}

/// Newlines inside literals and comments are counted as well.
#[test]
fn all_newlines_of_the_text_count() {
    let frame = examples::of_consts("const A: u32 = 1\n\n2;", vec![]);
    let counted = count(parts(&frame), &Tallies::default());
    assert_eq!(counted.expect("counted").figures.newlines, 3);
}

fn greatest(nodes: &[N], indent: usize, column: usize) -> usize {
    render(nodes, pen(indent, column)).greatest_column
}

#[test]
fn the_column_is_the_greatest_that_it_was_set_to() {
    assert_eq!(greatest(&[], 0, 0), 0);
    assert_eq!(greatest(&[Wide(30), Line, Wide(7)], 0, 0), 30);
    assert_eq!(greatest(&[Wide(7), Line, Wide(30)], 2, 0), 38);
    // What was carried in doesn't count, and a line sets 0.
    assert_eq!(greatest(&[Line, EmptyLine, LineOrSpace], 3, 9), 0);
    assert_eq!(greatest(&[Wide(1)], 3, 9), 10);
    // An empty text sets the indent.
    assert_eq!(greatest(&[Ascii("")], 3, 0), 12);
}

/// `comment` sets the indent and leaves 0, in one call.
#[test]
fn the_indent_of_a_comment_counts() {
    assert_eq!(greatest(&[Comment("# a long comment")], 3, 0), 12);
    assert_eq!(render(&[Comment("# c")], pen(3, 0)).pen.column, 0);
    // Behind a text it sets 0 alone.
    assert_eq!(greatest(&[Comment("# c")], 3, 5), 0);
    let deep = vec![Wide(2), Line, Indent(vec![Comment("# c")])];
    assert_eq!(greatest(&[Indent(deep)], 0, 0), 8);
}

#[test]
fn sums_and_the_greatest_column() {
    let before = tallies(3, [100, 10, 16, 5, 2, 3, 4]);
    let after = counted("two-consts", &before).expect("counted");
    assert_eq!(after.tallies, tallies(4, [141, 12, 17, 7, 2, 4, 4]));
    assert_eq!(after.fraction, Fraction { over: 2, under: 7 });
    let before = tallies(3, [100, 10, 18, 6, 2, 3, 4]);
    let after = counted("two-consts", &before).expect("counted");
    assert_eq!(after.tallies.all.column, 18);
    assert_eq!(after.fraction, Fraction { over: 1, under: 4 });
}

#[test]
fn fractions_are_reduced() {
    let none = Fraction { over: 0, under: 1 };
    assert_eq!(Tallies::default().fraction(), none);
    assert_eq!(
        counted("nothing", &Tallies::default()).unwrap().fraction,
        none
    );
    assert_eq!(reduced(0, 9), none);
    assert_eq!(reduced(9, 9), Fraction { over: 1, under: 1 });
    assert_eq!(
        reduced(12, 301),
        Fraction {
            over: 12,
            under: 301
        }
    );
    assert_eq!(
        reduced(84, 301),
        Fraction {
            over: 12,
            under: 43
        }
    );
    // A large prime in both, and one in the upper alone.
    let prime = 4_294_967_291;
    assert_eq!(reduced(prime, prime), Fraction { over: 1, under: 1 });
    assert_eq!(
        reduced(46_337 * 6, 46_337 * 9),
        Fraction { over: 2, under: 3 }
    );
    for under in 1..=60 {
        for over in 0..=under {
            let Fraction { over: o, under: u } = reduced(over, under);
            assert_eq!(o * under, over * u);
            assert!((2..=u).all(|n| o % n != 0 || u % n != 0));
        }
    }
}

/// Each tally at its bound is fine, and one over it is 14.
#[test]
fn tallies_over_their_bound_are_refused() {
    for place in 0..7 {
        let mut all = [0; 7];
        // More wrapped than given would be refused for that.
        all[3] = MOST_TALLY;
        all[place] = MOST_TALLY;
        let after = counted("const", &tallies(0, all)).expect("counted");
        let sum = [18, 1, 0, 1, 0, 0, 0][place];
        assert_eq!(after.tallies.all.numbers()[place], MOST_TALLY + sum);
        for over in [MOST_TALLY + 1, u64::MAX] {
            all[place] = over;
            let refused = counted("const", &tallies(0, all));
            assert_eq!(refused, Err(FULL), "{place}");
        }
    }
}

/// A sum that passes the bound is answered, and refused the next time.
#[test]
fn a_sum_over_the_bound_refuses_the_next_file() {
    let before = tallies(0, [MOST_TALLY - 17, 0, 0, 0, 0, 0, 0]);
    let after = counted("const", &before).expect("counted").tallies;
    assert_eq!(after.all.bytes, MOST_TALLY + 1);
    assert_eq!(counted("const", &after), Err(FULL));
}

#[test]
fn more_wrapped_than_given_is_refused() {
    let wrapped = |wrapped, given| {
        let before = tallies(1, [0, 0, 0, given, wrapped, 0, 0]);
        counted("nothing", &before).map(|counted| counted.fraction)
    };
    assert_eq!(wrapped(5, 5), Ok(Fraction { over: 1, under: 1 }));
    assert_eq!(wrapped(6, 5), Err(FULL));
    assert_eq!(wrapped(1, 0), Err(FULL));
    let most = wrapped(MOST_TALLY, MOST_TALLY);
    assert_eq!(most, Ok(Fraction { over: 1, under: 1 }));
}

#[test]
fn no_file_past_the_last_is_counted() {
    let mut before = Tallies::default();
    for _ in 0..MOST_FILES {
        before = counted("const", &before).expect("counted").tallies;
    }
    assert_eq!(before.files, MOST_FILES);
    assert_eq!(before.all.bytes, MOST_FILES * 18);
    assert_eq!(counted("const", &before), Err(FULL));
    let beyond = tallies(u64::MAX, [0; 7]);
    assert_eq!(counted("const", &beyond), Err(FULL));
}

/// Document 01's refusals come before 14, those of size among them.
#[test]
fn the_refusals_of_the_file_come_first() {
    let full = tallies(MOST_FILES, [0, 0, 0, 0, 1, 0, 0]);
    assert_eq!(counted("version-3", &full), Err(refusal(3, 0)));
    assert_eq!(counted("version-2", &full), Err(refusal(20, 0)));
    assert_eq!(counted("nothing", &full), Err(FULL));
    let mut numbers = Vec::new();
    for case in generate::size_cases() {
        let frame = Frame {
            source: &case.source,
            image: &case.image,
        };
        let due = if case.refusal == 0 { 14 } else { case.refusal };
        let refused = count(frame, &full).expect_err("refused");
        assert_eq!(refused.number, due, "{}", case.name);
        numbers.push(due);
    }
    assert!([1, 3, 5, 7, 8, 10, 14].iter().all(|n| numbers.contains(n)));
}

/// The frames of all classes that are files, the refused ones among them.
fn files() -> Vec<Vec<u8>> {
    let classes = [Class::Realistic, Class::Wild, Class::Damaged];
    let frames = classes
        .into_iter()
        .flat_map(|class| generate::frames(class, 9, 40));
    let whole = |frame: &Vec<u8>| split_any_size(frame).is_ok();
    frames.filter(whole).collect()
}

fn totals<'f>(files: impl Iterator<Item = &'f Vec<u8>>) -> Tallies {
    files.fold(Tallies::default(), |before, frame| {
        count(parts(frame), &before).map_or(before, |after| after.tallies)
    })
}

#[test]
fn the_order_of_files_does_not_matter() {
    let files = files();
    let due = totals(files.iter());
    assert!(due.all.numbers().iter().all(|tally| *tally > 0), "{due:?}");
    assert_eq!(totals(files.iter().rev()), due);
    let (front, back) = files.split_at(files.len() / 3);
    assert_eq!(totals(back.iter().chain(front)), due);
}

#[test]
fn a_refused_file_counts_nowhere() {
    let files = files();
    let accepted =
        |frame: &&Vec<u8>| count(parts(frame), &Tallies::default()).is_ok();
    let kept: Vec<_> = files.iter().filter(accepted).collect();
    assert!(kept.len() < files.len());
    let due = totals(files.iter());
    assert_eq!(due.files, kept.len() as u64);
    assert_eq!(totals(kept.into_iter()), due);
}

const HEADS: &str = "      file      bytes   newlines     column      \
    given    wrapped     placed       left\n";
const NO_TOTALS: &str = "     total          0          0          0          \
    0          0          0          0\nfiles counted: 0\n\
    files refused: 0\nwrapped over given, reduced: 0 over 1\n";

#[test]
fn a_report_of_nothing() {
    assert_eq!(output(b""), format!("{HEADS}{NO_TOTALS}"));
}

/// An input may end in the lengths, the source or the image.
#[test]
fn an_input_that_ends_inside_a_file() {
    let frame = examples::frame("const").expect("known");
    let first = framed(parts(&frame));
    for end in 1..first.len() {
        let cut = "the input ends inside file 1\n";
        let due = format!("{HEADS}{cut}{NO_TOTALS}");
        assert_eq!(output(&first[..end]), due);
    }
    let second = [&first[..], &first[..8]].concat();
    let lines = output(&second);
    let lines: Vec<&str> = lines.lines().collect();
    assert_eq!(lines.len(), 7);
    assert!(lines[1].starts_with("         1         18          1 "));
    assert_eq!(lines[2], "the input ends inside file 2");
    assert_eq!(lines[4], "files counted: 1");
    // The one that is cut is neither counted nor refused.
    assert_eq!(lines[5], "files refused: 0");
}

/// The sample has every sort of line, and no tally of it is 0. It stands in
/// the top folder, and its table in docs/REPORT.md.
#[test]
fn the_sample_of_the_report() {
    let table = answers::report::sample_table();
    let lines: Vec<&str> = table.lines().collect();
    assert_eq!(lines.len(), 1 + 13 + 1 + 4);
    for refused in [2, 3, 4, 6, 7, 8, 20] {
        let words = format!(" refused {refused} at ");
        assert!(table.contains(&words), "{refused}");
    }
    let numbers = lines[15].split_whitespace().skip(1);
    assert_eq!(numbers.clone().count(), 7);
    assert!(numbers.into_iter().all(|number| number != "0"));
    assert_eq!(lines[16..18], ["files counted: 6", "files refused: 7"]);
    let fraction = reduced(18, 92);
    assert!(fraction.under < 92);
    let Fraction { over, under } = fraction;
    assert!(table.ends_with(&format!(": {over} over {under}\n")));
    let stored = include_bytes!("../../../samples/quarter.files");
    assert!(answers::report::sample() == stored);
    let page = include_str!("../../../docs/REPORT.md");
    assert!(page.contains(&format!("```\n{table}```\n")));
}

/// What the program is run on: a source that is too long, a file past the
/// last that is counted, and one that document 01 refuses behind it.
#[test]
fn the_stored_run_of_the_report() {
    let table = answers::report::output();
    let lines: Vec<&str> = table.lines().collect();
    let files = 13 + 1 + 4_098 + 1;
    assert_eq!(lines.len(), 1 + files + 1 + 4);
    assert_eq!(lines[14], "        14 refused 1 at 0");
    // Six of the first thirteen are counted.
    let last = 14 + 4_096 - 6;
    assert!(!lines[last].contains("refused"));
    for line in &lines[last + 1..files] {
        assert!(line.ends_with(" refused 14 at 0"), "{line}");
    }
    assert!(lines[files].ends_with(" refused 3 at 0"));
    assert_eq!(lines[files + 1], "the input ends inside file 4114");
    let counts = ["files counted: 4096", "files refused: 17"];
    assert_eq!(lines[files + 3..files + 5], counts);
}
