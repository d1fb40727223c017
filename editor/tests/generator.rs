//! Images from steps: the builder, the calls, and images to steps and back.

mod support;

use rrufthim::{
    File, Refusal,
    calls::check,
    encode, encode_written,
    generator::{Builder, Step, read, steps, write_image, write_list},
    kind,
    limits::{MAX_BODY, MAX_COMMENTS, MAX_DEPTH, MAX_WIDTH},
};
use support::{JUNK, Random, SOURCE, constants, tariff_image};

type Built<'b> = Result<&'b mut Builder, Refusal>;

/// `const A: ! = true;` and a comment.
fn constant(builder: &mut Builder) -> Built<'_> {
    constant_up_to_its_value(builder)?.payload(1)?.close()?;
    builder.close()?.close()?.close()
}

/// The same before the byte that is `true`.
fn constant_up_to_its_value(builder: &mut Builder) -> Built<'_> {
    builder.comment(0..5)?;
    builder.open(kind::TREE, 0..0)?.absent()?;
    builder.open(kind::CONST, 0..18)?;
    builder.open(kind::TEXT, 6..7)?.text("A", 1)?.close()?;
    builder.open(kind::NEVER, 9..10)?.close()?;
    builder.open(kind::LITERAL_EXPR, 13..17)?;
    builder.open(kind::LITERAL, 13..17)
}

const CONSTANT: &[u8] = b"const A: ! = true;";

fn built() -> Builder {
    let mut builder = Builder::new();
    constant(&mut builder).expect("steps in order");
    builder
}

/// The same by the other writer.
fn encoded() -> Vec<u8> {
    let image = encode_written(|out| {
        out.comments([0..5].into_iter())?;
        let tree = out.open(kind::TREE, 0..0)?;
        out.absent();
        let constant = out.open(kind::CONST, 0..18)?;
        out.text(6..7, "A", 1)?;
        out.leaf(kind::NEVER, 9..10)?;
        let value = out.open(kind::LITERAL_EXPR, 13..17)?;
        out.choice(kind::LITERAL, 13..17, 1)?;
        let open = [value, constant, tree];
        open.into_iter().try_for_each(|record| out.close(record))
    });
    image.expect("within the limits")
}

fn constant_file(image: &[u8]) -> File<'_> {
    File::new(CONSTANT, image)
}

#[test]
fn an_image_from_steps() {
    let image = built().finish().expect("an image");
    assert_eq!(image, encoded());
    let accepted = check(constant_file(&image)).expect("accepted");
    assert_eq!((accepted.comments, accepted.declarations), (1, 1));
}

#[test]
fn steps_in_words() {
    let image = built().finish().expect("an image");
    let steps = steps(constant_file(&image)).expect("steps");
    let lines: Vec<String> = steps.iter().map(Step::to_string).collect();
    let due = [
        "comment at 0..5",
        "open 1 (TREE) at 0..0",
        "absent",
        "open 11 (CONST) at 0..18",
        "open 2 (TEXT) at 6..7",
        "text \"A\", 1 wide",
        "close",
        "open 42 (NEVER) at 9..10",
        "close",
        "open 51 (LITERAL_EXPR) at 13..17",
        "open 87 (LITERAL) at 13..17",
        "payload 1",
        "close",
        "close",
        "close",
        "close",
    ];
    assert_eq!(lines, due);
    let newline = Step::Text {
        width: 0,
        text: "\n".into(),
    };
    assert_eq!(newline.to_string(), "text \"\\n\", 0 wide");
}

#[test]
fn steps_have_their_bytes() {
    let text = Step::Text {
        width: 258,
        text: "é".into(),
    };
    let all = [
        (
            Step::Comment { span: 1..0x0203 },
            &[1, 0, 0, 0, 1, 0, 0, 2, 3][..],
        ),
        (
            Step::Open {
                kind: kind::LITERAL,
                span: 0..u32::MAX as usize,
            },
            &[2, 87, 0, 0, 0, 0, 255, 255, 255, 255],
        ),
        (text, &[3, 1, 2, 0, 0, 0, 2, 0xC3, 0xA9]),
        (Step::Payload(9), &[4, 9]),
        (Step::Absent, &[5]),
        (Step::Close, &[6]),
    ];
    for (step, due) in all {
        let mut list = vec![7];
        step.append(&mut list);
        assert_eq!((&list[1..], step.bytes()), (due, due.len()));
        assert_eq!(Step::at(&list, 1), Some(step));
        assert_eq!(Step::at(&list[..list.len() - 1], 1), None);
    }
}

/// An image's steps, given to a builder, are the same list and give the same
/// image.
fn there_and_back(file: File<'_>) {
    let steps = steps(file).expect("steps");
    let mut builder = Builder::new();
    for step in &steps {
        builder.step(step).expect("a step in order");
    }
    assert_eq!(builder.finish().as_deref(), Ok(file.image));
    assert_eq!(builder.check(), Ok(()));
    assert_eq!(read(builder.list()), Ok(steps));
    let mut list = vec![JUNK; builder.list().len()];
    let bytes = write_list(file, &mut list);
    assert_eq!((bytes, &list[..]), (Ok(list.len()), builder.list()));
}

/// What the encoder writes, to steps and back, byte for byte.
#[test]
fn encoded_images_there_and_back() {
    there_and_back(File::new(SOURCE, &tariff_image()));
    there_and_back(constant_file(&encoded()));
    for count in [0, 1, 40, 1_500] {
        let source = "const A: u32 = 1; # ok\n".repeat(count);
        let comments = (0..count).map(|place| {
            let end = 23 * (place + 1);
            end - 5..end - 1
        });
        let comments: Vec<_> = comments.collect();
        let image = encode(&constants(&source), &comments);
        let image = image.expect("an image");
        there_and_back(File::new(&source, &image));
    }
}

/// Empty names take the most steps for their bytes.
#[test]
fn steps_of_empty_texts() {
    let mut builder = Builder::new();
    builder.open(kind::TREE, 0..0).unwrap().absent().unwrap();
    builder.open(kind::RECORD, 0..0).unwrap();
    builder.open(kind::TEXT, 0..0).unwrap().text("", 0).unwrap();
    builder.close().unwrap().open(kind::LIST, 0..0).unwrap();
    for _ in 0..1_000 {
        builder.open(kind::TEXT, 0..0).unwrap().text("", 0).unwrap();
        builder.close().unwrap();
    }
    builder.close().unwrap().open(kind::LIST, 0..0).unwrap();
    for _ in 0..3 {
        builder.close().unwrap();
    }
    let image = builder.finish().expect("an image");
    there_and_back(File::new("", &image));
}

/// The next step is turned down where it stands, and isn't added.
fn turned_down(builder: &Builder, step: &Step) {
    let mut other = builder.clone();
    let at = builder.list().len();
    let bad = Refusal::BadStep { at };
    assert_eq!(other.step(step).map(|_| ()), Err(bad), "{step}");
    assert_eq!(other.list(), builder.list());
    // The proved writer says the same.
    let mut list = builder.list().to_vec();
    step.append(&mut list);
    assert_eq!(write_image(&list, &mut []), Err(bad), "{step}");
}

fn open(kind: u8) -> Step {
    Step::Open { kind, span: 0..0 }
}

fn text() -> Step {
    Step::Text {
        width: 1,
        text: "a".into(),
    }
}

const COMMENT: Step = Step::Comment { span: 0..1 };

#[test]
fn nothing_stands_outside_the_tree() {
    let fresh = Builder::new();
    for step in [text(), Step::Payload(0), Step::Absent, Step::Close] {
        turned_down(&fresh, &step);
    }
    let whole = built();
    let rest = [text(), Step::Payload(0), Step::Absent, Step::Close];
    for step in [COMMENT, open(kind::TREE)].into_iter().chain(rest) {
        turned_down(&whole, &step);
    }
}

#[test]
#[allow(clippy::reversed_empty_ranges)]
fn comments_and_spans() {
    let mut builder = Builder::new();
    let far = u32::MAX as usize;
    for span in [0..0, 5..5, 1..0, far..0] {
        turned_down(&builder, &Step::Comment { span });
    }
    for span in [1..0, far..0] {
        let kind = kind::TREE;
        turned_down(&builder, &Step::Open { kind, span });
    }
    for at in 0..MAX_COMMENTS {
        builder.comment(at..at + 1).expect("a comment");
    }
    turned_down(&builder, &COMMENT);
    builder.open(kind::TREE, 7..7).expect("the tree");
    turned_down(&builder, &COMMENT);
}

/// What a step has no bytes for is turned down as a wrong step is.
#[test]
fn numbers_over_their_bytes() {
    let mut builder = Builder::new();
    let over = u32::MAX as usize + 1;
    let bad = Some(Refusal::BadStep { at: 0 });
    for span in [0..over, over..over, usize::MAX - 1..usize::MAX] {
        assert_eq!(builder.comment(span.clone()).err(), bad);
        assert_eq!(builder.open(kind::TREE, span).err(), bad);
    }
    builder
        .open(kind::TREE, over - 1..over - 1)
        .expect("the tree");
    builder.open(kind::TEXT, 0..0).expect("the shebang");
    let bad = Some(Refusal::BadStep { at: 20 });
    for width in [MAX_WIDTH + 1, usize::MAX] {
        assert_eq!(builder.text("#!/x", width).err(), bad);
    }
    builder.text("#!/x", MAX_WIDTH).expect("as wide as may be");
    builder
        .close()
        .expect("the shebang")
        .close()
        .expect("the tree");
    assert!(builder.finish().is_ok());
}

/// A text or a payload byte comes directly after its record is opened.
#[test]
fn payloads() {
    let mut front = Builder::new();
    front.open(kind::TREE, 0..0).unwrap();
    turned_down(&front, &text());
    turned_down(&front, &Step::Payload(0));
    let mut shebang = front.clone();
    shebang.open(kind::TEXT, 0..0).unwrap();
    for step in [
        Step::Absent,
        Step::Close,
        open(kind::TEXT),
        Step::Payload(0),
    ] {
        turned_down(&shebang, &step);
    }
    shebang.text("#!/x", 1).unwrap();
    turned_down(&shebang, &text());
    let mut value = front;
    value.absent().unwrap().open(kind::CONST, 0..0).unwrap();
    value.open(kind::TEXT, 0..0).unwrap().text("A", 1).unwrap();
    value.close().unwrap().open(kind::NEVER, 0..0).unwrap();
    value.close().unwrap().open(kind::RETURN, 0..0).unwrap();
    for step in [
        Step::Absent,
        Step::Close,
        open(kind::LITERAL_EXPR),
        text(),
        COMMENT,
    ] {
        turned_down(&value, &step);
    }
    value.payload(2).unwrap();
    turned_down(&value, &Step::Payload(2));
}

#[test]
fn depth() {
    let mut builder = Builder::new();
    builder.open(kind::TREE, 0..0).unwrap().absent().unwrap();
    builder.open(kind::CONST, 0..0).unwrap();
    builder
        .open(kind::TEXT, 0..0)
        .unwrap()
        .text("A", 1)
        .unwrap();
    builder.close().unwrap().open(kind::NEVER, 0..0).unwrap();
    builder.close().unwrap();
    for _ in 2..MAX_DEPTH {
        builder.open(kind::PARENTHESES, 0..0).expect("not too deep");
    }
    turned_down(&builder, &open(kind::PARENTHESES));
}

/// What only the proved writer knows: kinds, places, payload bytes, children.
#[test]
fn the_writer_has_the_last_word() {
    let mut builder = Builder::new();
    builder.open(kind::TREE, 0..0).unwrap().absent().unwrap();
    assert_eq!(builder.check(), Ok(()));
    let at = builder.list().len();
    builder.open(kind::BIN_OP, 0..0).expect("a record");
    let bad = Refusal::BadStep { at };
    assert_eq!(builder.check(), Err(bad));
    assert_eq!(builder.finish(), Err(bad));
    let step = Step::at(builder.list(), at).expect("there");
    let line = "open 63 (BIN_OP) at 0..0";
    assert_eq!(step.to_string(), line);
    // A later step that is turned down isn't the first that is wrong.
    let later = builder.comment(0..1).map(|_| ());
    assert_eq!(later, Err(bad));
}

/// A kind and a payload byte that there are not, wherever they stand, are
/// added too.
#[test]
fn unknown_kinds_are_for_the_writer() {
    let mut builder = Builder::new();
    builder.open(99, 0..0).expect("it is added");
    let step = Step::at(builder.list(), 0).expect("there");
    assert_eq!(step.to_string(), "open 99 (no kind) at 0..0");
    assert_eq!(builder.check(), Err(Refusal::BadStep { at: 0 }));
    let mut builder = Builder::new();
    constant_up_to_its_value(&mut builder).expect("steps in order");
    let at = builder.list().len();
    builder.payload(200).expect("it is added");
    assert_eq!(builder.check(), Err(Refusal::BadStep { at }));
}

/// The list's end while something is missing.
#[test]
fn an_unfinished_list() {
    let whole = built();
    let steps = read(whole.list()).expect("steps");
    let mut builder = Builder::new();
    for step in &steps {
        let at = builder.list().len();
        assert_eq!(builder.finish(), Err(Refusal::BadStep { at }));
        assert_eq!(builder.check(), Ok(()));
        builder.step(step).expect("in order");
    }
    assert!(builder.finish().is_ok());
}

/// A body of 1,048,576 bytes, and one more.
#[test]
fn the_largest_image() {
    let with_text = |bytes: usize| {
        let mut builder = Builder::new();
        let text = "a".repeat(bytes);
        builder
            .open(kind::TREE, 0..0)?
            .open(kind::TEXT, 0..0)?
            .text(&text, 0)?;
        builder.close()?.close()?;
        Ok::<Builder, Refusal>(builder)
    };
    // Comment count, two records, the text's width.
    let room = MAX_BODY - 2 - 26 - 2;
    let image = with_text(room).and_then(|builder| builder.finish());
    let image = image.expect("an image");
    assert_eq!(image.len(), MAX_BODY + 5);
    assert!(check(File::new("", &image)).is_ok());
    let more = with_text(room + 1).expect("steps in order");
    let needed = MAX_BODY + 6;
    assert_eq!(more.finish(), Err(Refusal::MoreRoom { needed }));
    assert_eq!(more.check(), Ok(()));
}

/// Exact room, one byte short, room to spare.
#[test]
fn lent_outputs() {
    let (builder, image) = (built(), encoded());
    let needed = image.len();
    let short = Refusal::MoreRoom { needed };
    for room in [0, image.len() - 1] {
        let mut output = vec![JUNK; room];
        assert_eq!(write_image(builder.list(), &mut output), Err(short));
        assert_eq!(output, vec![JUNK; room]);
    }
    for spare in [0, 9] {
        let mut output = vec![JUNK; image.len() + spare];
        let bytes = write_image(builder.list(), &mut output);
        assert_eq!(bytes, Ok(image.len()));
        assert_eq!(output[..image.len()], image);
        assert_eq!(output[image.len()..], vec![JUNK; spare]);
    }
    let list = builder.list();
    let needed = list.len();
    let short = Refusal::MoreRoom { needed };
    let mut output = vec![JUNK; list.len() - 1];
    let written = write_list(constant_file(&image), &mut output);
    assert_eq!(written, Err(short));
    assert_eq!(output, vec![JUNK; list.len() - 1]);
    let bad = Refusal::SourceNotUtf8 { at: 0 };
    let written = write_list(File::new(b"\xFF", &image), &mut output);
    assert_eq!(written, Err(bad));
    let file = constant_file(&[1]);
    assert_eq!(steps(file), Err(file.error(Refusal::NoImage)));
}

#[test]
fn lists_that_cannot_be_read() {
    assert_eq!(read(b""), Ok(vec![]));
    let whole = built();
    for length in 0..whole.list().len() {
        match read(&whole.list()[..length]) {
            Ok(steps) => {
                let bytes: usize = steps.iter().map(Step::bytes).sum();
                assert_eq!(bytes, length);
            }
            Err(refusal) => assert!(refusal.place() < length),
        }
    }
    for number in [0, 7, 255] {
        let at = 1;
        let list = [6, number, 6];
        assert_eq!(read(&list), Err(Refusal::BadStep { at }));
    }
    let text = [3, 0, 1, 0, 0, 0, 1, 0xFF];
    assert_eq!(read(&text), Err(Refusal::BadStep { at: 0 }));
}

/// Any bytes end in an image or a refusal; what is written, the reader takes
/// apart again.
#[test]
fn foreign_lists() {
    let mut random = Random(9);
    let whole = built();
    let [mut written, mut refused] = [0, 0];
    let source = [b' '; 100];
    for _ in 0..3_000 {
        let mut list = whole.list().to_vec();
        let at = random.below(list.len());
        match random.below(3) {
            0 => list[at] = random.next() as u8,
            1 => list.truncate(at),
            _ => list.insert(at, random.next() as u8 % 8),
        }
        let mut output = [JUNK; 200];
        match write_image(&list, &mut output) {
            Ok(bytes) => {
                written += 1;
                let file = File::new(&source, &output[..bytes]);
                if let Ok(steps) = steps(file) {
                    assert_eq!(read(&list), Ok(steps));
                }
            }
            Err(refusal) => {
                refused += 1;
                assert_eq!(refusal.number(), 16);
                assert!(refusal.place() <= list.len());
                assert_eq!(output, [JUNK; 200]);
            }
        }
    }
    assert!(written > 200 && refused > 1_000, "{written}, {refused}");
}
