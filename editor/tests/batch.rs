//! Batches: the call over frames, and lists of files on top of it.

mod support;

use rrufthim::{
    Batch, Cause, File, FormatError, Formatted, Formatter, Options, Place,
    Refusal, Widths,
    ast::*,
    calls::{TABLE_ROW, format_batch, format_file},
    encode,
    limits::{MAX_BATCH, MAX_BODY, MAX_SOURCE},
};
use support::{JUNK, JUNK_NUMBER, Random, SOURCE, constants, tariff_image};

/// A source and an image.
#[derive(Clone)]
struct Owned {
    source: Vec<u8>,
    image: Vec<u8>,
}

impl Owned {
    fn new(source: impl Into<Vec<u8>>, image: Vec<u8>) -> Self {
        let source = source.into();
        Owned { source, image }
    }

    fn file(&self) -> File<'_> {
        File::new(&self.source, &self.image)
    }
}

const LINE: &str = "const A: u32 = 1; # ok\n";

/// One constant, with a comment at the foot.
fn line() -> Owned {
    let image = encode(&constants(LINE), &[18..23]);
    Owned::new(LINE, image.expect("within the limits"))
}

/// More rows than a batch has for a file.
fn large() -> Owned {
    let source = "const A: u32 = 1;\n".repeat(200);
    let image = encode(&constants(&source), &[]);
    Owned::new(source, image.expect("within the limits"))
}

/// Accepted and refused ones: by 7, 3, 2 and 8.
fn mixed() -> Vec<Owned> {
    let empty = encode(&SyntaxTree::default(), &[]).expect("an image");
    vec![
        Owned::new(SOURCE, tariff_image()),
        Owned::new("", line().image),
        line(),
        Owned::new("", vec![]),
        Owned::new([0xFF], empty.clone()),
        large(),
        Owned::new("", empty),
        line(),
    ]
}

fn framed(files: &[Owned]) -> Vec<u8> {
    let mut frames = Vec::new();
    for Owned { source, image } in files {
        for part in [source, image] {
            frames.extend((part.len() as u32).to_be_bytes());
        }
        frames.extend(source);
        frames.extend(image);
    }
    frames
}

/// The answers of a batch.
fn answers(
    batch: &mut Batch,
    files: &[Owned],
) -> Vec<Result<Formatted, FormatError>> {
    batch.format_files(files.iter().map(Owned::file))
}

/// The table and the texts that single calls give.
fn singles(files: &[Owned], options: &Options) -> (Vec<u32>, Vec<u8>) {
    let (mut table, mut texts) = (Vec::new(), Vec::new());
    for file in files {
        let output = &mut vec![JUNK; 10_000];
        let row = match format_file(file.file(), options, output) {
            Ok(written) => {
                texts.extend(&output[..written.bytes]);
                [0, 0, written.bytes]
            }
            Err(refusal) => [refusal.number(), refusal.place(), 0],
        };
        table.extend(row.map(|number| number as u32));
    }
    (table, texts)
}

/// How many files and bytes.
type Counts = (usize, usize);

/// The call in a table and an output of these sizes, full of junk.
fn call(
    frames: &[u8],
    options: &Options,
    cells: usize,
    room: usize,
) -> (Result<Counts, Refusal>, Vec<u32>, Vec<u8>) {
    let mut table = vec![JUNK_NUMBER; cells];
    let mut output = vec![JUNK; room];
    let answer = format_batch(frames, options, &mut table, &mut output);
    let answer = answer.map(|written| (written.files, written.bytes));
    (answer, table, output)
}

/// Options of all sorts, with a width that isn't legal.
fn ways() -> [Options; 5] {
    [
        Options::default(),
        Options::default().with_widths(Widths::Unicode15_1),
        Options::AS_ROTO,
        Options::default().with_width(40),
        Options::default().with_width(39),
    ]
}

/// Row by row and text by text, and what lies behind them.
#[test]
fn a_batch_is_single_calls_in_a_row() {
    let files = mixed();
    let frames = framed(&files);
    for options in &ways() {
        let (table, texts) = singles(&files, options);
        let bytes = texts.len();
        for more in [0, 1, 7] {
            let (cells, room) = (table.len() + more, bytes + more);
            let (answer, rows, output) = call(&frames, options, cells, room);
            assert_eq!(answer, Ok((8, bytes)));
            assert_eq!(rows[..24], table);
            assert_eq!(output[..bytes], texts);
            assert!(rows[24..].iter().all(|cell| *cell == JUNK_NUMBER));
            assert!(output[bytes..].iter().all(|byte| *byte == JUNK));
        }
        let numbers = table.chunks(TABLE_ROW).map(|row| row[0]);
        let numbers: Vec<u32> = numbers.collect();
        let due = match options.width {
            39 => [15, 7, 15, 3, 2, 15, 15, 15],
            _ => [0, 7, 0, 3, 2, 8, 0, 0],
        };
        assert_eq!(numbers, due);
    }
}

/// The table first, then the output; nothing is written before.
#[test]
fn a_short_table_or_output_is_refused() {
    let files = mixed();
    let frames = framed(&files);
    let options = &Options::default();
    let (table, texts) = singles(&files, options);
    let (cells, room) = (table.len(), texts.len());
    let needed = |needed| Err(Refusal::MoreForBatch { needed });
    for (lent_cells, lent_room, due) in [
        (0, 0, needed(cells)),
        (cells - 1, room, needed(cells)),
        (cells - 1, room - 1, needed(cells)),
        (cells, room - 1, needed(room)),
        (cells, 0, needed(room)),
        (cells + 9, room - 1, needed(room)),
    ] {
        let (answer, rows, output) =
            call(&frames, options, lent_cells, lent_room);
        assert_eq!(answer, due, "{lent_cells} and {lent_room}");
        assert!(rows.iter().all(|cell| *cell == JUNK_NUMBER));
        assert!(output.iter().all(|byte| *byte == JUNK));
    }
}

fn refused_at(frames: &[u8], at: usize) {
    let (answer, rows, output) = call(frames, &Options::default(), 900, 9);
    assert_eq!(answer, Err(Refusal::BadBatch { at }));
    assert!(rows.iter().all(|cell| *cell == JUNK_NUMBER));
    assert!(output.iter().all(|byte| *byte == JUNK));
}

/// Cut off at every byte, and lengths that run past the end.
#[test]
fn frames_that_are_not_whole_are_refused() {
    let one = framed(&[line()]);
    let two = framed(&[line(), line()]);
    for length in 1..one.len() {
        refused_at(&one[..length], 0);
        refused_at(&two[..one.len() + length], one.len());
    }
    for place in [0, 4] {
        for length in [u32::MAX, u32::MAX - 7, 1 << 31] {
            let mut wrong = two.clone();
            let at = one.len() + place;
            let four = length.to_be_bytes();
            wrong[at..at + 4].copy_from_slice(&four);
            refused_at(&wrong, one.len());
            // The first at fault is named.
            wrong[place..place + 4].copy_from_slice(&four);
            refused_at(&wrong, 0);
        }
    }
}

#[test]
fn none_and_as_many_as_there_may_be() {
    let options = &Options::default();
    assert_eq!(call(&[], options, 0, 0).0, Ok((0, 0)));
    let empty = encode(&SyntaxTree::default(), &[]).expect("an image");
    let mut files = vec![Owned::new("", empty); MAX_BATCH];
    files[MAX_BATCH - 1] = line();
    let frames = framed(&files);
    let due = (MAX_BATCH, LINE.len());
    let cells = MAX_BATCH * TABLE_ROW;
    let (answer, rows, output) = call(&frames, options, cells, LINE.len());
    assert_eq!((answer, &output[..]), (Ok(due), LINE.as_bytes()));
    assert_eq!(rows[cells - 3..], [0, 0, LINE.len() as u32]);
    files.push(line());
    refused_at(&framed(&files), frames.len());
}

/// Whatever the bytes are, there is an answer, and a refusal writes nothing.
#[test]
fn any_bytes_are_answered() {
    let frames = framed(&mixed()[..4]);
    let mut random = Random(5);
    let [mut refused, mut accepted] = [0, 0];
    for _ in 0..3_000 {
        let mut frames = frames.clone();
        for _ in 0..=random.below(3) {
            let at = random.below(frames.len());
            frames[at] = random.next() as u8;
        }
        let (cells, room) = (random.below(20), random.below(600));
        let (answer, rows, output) =
            call(&frames, &Options::default(), cells, room);
        match answer {
            Ok(_) => accepted += 1,
            Err(_) => {
                refused += 1;
                assert!(rows.iter().all(|cell| *cell == JUNK_NUMBER));
                assert!(output.iter().all(|byte| *byte == JUNK));
            }
        }
    }
    assert!(refused > 500 && accepted > 500, "{refused} and {accepted}");
}

/// Lists of more files than one call takes, in order, refused and large ones
/// among them: each answer is a formatter's.
#[test]
fn lists_are_answered_as_file_by_file() {
    let mixed = mixed();
    let mut random = Random(6);
    let many: Vec<Owned> = (0..2 * MAX_BATCH + 100)
        .map(|_| mixed[random.below(mixed.len())].clone())
        .collect();
    let mut kept = Batch::new();
    for options in ways() {
        let mut formatter = Formatter::new().with_options(options.clone());
        let mut batch = Batch::new().with_options(options.clone());
        assert_eq!(batch.options(), &options);
        for files in [&many[..], &[], &mixed, &many[..MAX_BATCH]] {
            let answers = answers(&mut batch, files);
            assert_eq!(answers.len(), files.len());
            for (file, answer) in files.iter().zip(answers) {
                let alone = formatter.format_file(file.file());
                assert_eq!(answer, alone.map(Formatted::into_owned));
            }
        }
        kept = kept.with_options(options);
        assert_eq!(answers(&mut kept, &mixed), answers(&mut batch, &mixed));
    }
}

/// A file's own refusal is in words and has its place in the source.
#[test]
fn errors_are_those_of_the_file() {
    let source = "const A: u32 = 1;\nxyz\n";
    let comments = [0..1, 20..40];
    let image = encode(&constants(source), &comments).expect("an image");
    let files = [line(), Owned::new(source, image)];
    let answers = answers(&mut Batch::new(), &files);
    let error = answers[1].as_ref().expect_err("a comment past the end");
    assert_eq!(error.cause, Cause::Refused(Refusal::BadComment { at: 15 }));
    assert!(
        error.to_string().starts_with("line 2, column 3: "),
        "{error}"
    );
    assert_eq!(answers[0].as_ref().expect("a text").text, LINE);
}

/// By the original's way each answer names the comments that its text lacks.
#[test]
fn comments_at_the_foot() {
    let left = |options| -> Vec<Vec<Span>> {
        let files = [line(), Owned::new(SOURCE, tariff_image()), large()];
        let mut batch = Batch::new().with_options(options);
        let answers = answers(&mut batch, &files).into_iter();
        let texts = answers.map(|answer| answer.expect("a text"));
        let spans = |places: Vec<Place>| {
            places.into_iter().map(|place| place.span).collect()
        };
        texts.map(|text| spans(text.comments_left)).collect()
    };
    assert_eq!(left(Options::default()), vec![vec![]; 3]);
    let dropped = left(Options::AS_ROTO);
    assert_eq!(dropped[0], [18..23]);
    assert!(SOURCE[dropped[1][0].clone()].contains("44-B"));
    assert!(dropped[2].is_empty());
}

/// Sources and images of any length, and texts that have no room together,
/// or none at all.
#[test]
fn no_size_is_in_the_way() {
    let image = line().image;
    let files = [
        line(),
        Owned::new(vec![b' '; MAX_SOURCE + 1], image.clone()),
        Owned::new(vec![b' '; 3 * MAX_SOURCE], image),
        Owned::new("", vec![1; MAX_BODY + 6]),
        Owned::new("", vec![1; 3 * MAX_BODY]),
        line(),
    ];
    let numbers = |batch: &mut Batch| -> Vec<usize> {
        let answers = answers(batch, &files).into_iter();
        let number = answers.map(|answer| match answer {
            Ok(formatted) => {
                assert_eq!(formatted.text, LINE);
                0
            }
            Err(error) => match error.cause {
                Cause::Refused(refusal) => refusal.number(),
                other => panic!("{other:?}"),
            },
        });
        number.collect()
    };
    let length = LINE.len();
    for most in [usize::MAX, 2 * length, 2 * length - 1, length] {
        let mut batch = Batch::new().with_max_output(most);
        assert_eq!(numbers(&mut batch), [0, 1, 1, 3, 3, 0], "{most}");
    }
    let mut short = Batch::new().with_max_output(length - 1);
    assert_eq!(numbers(&mut short), [10, 1, 1, 3, 3, 10]);
}

/// Texts many times as long as their files: literals that all span a whole
/// source.
#[test]
fn texts_longer_than_their_files() {
    let source = format!("const A: u32 = {};\n", "1".repeat(3_000));
    let mut tree = constants(&source);
    let [Declaration::Const(constant)] = &mut tree.declarations[..] else {
        panic!("one constant");
    };
    let literal = constant.expr.clone();
    constant.expr = Meta::new(Expr::List(vec![literal; 40]), 0..0);
    let image = encode(&tree, &[]).expect("an image");
    let files = [Owned::new(source, image), line()];
    assert!(framed(&files).len() < 10_000);
    let mut batch = Batch::default();
    for _ in 0..2 {
        let answers = answers(&mut batch, &files);
        let long = answers[0].as_ref().expect("a text");
        assert!(long.outgrown && long.text.len() > 120_000);
        assert_eq!(answers[1].as_ref().expect("a text").text, LINE);
    }
}

/// Buffers are shown by their lengths.
#[test]
fn a_batch_is_shown() {
    let mut batch = Batch::default();
    let _ = answers(&mut batch, &mixed());
    let shown = format!("{batch:?}");
    assert!(shown.starts_with("Batch { frames: "), "{shown}");
    assert!(shown.len() < 400, "{shown}");
}
