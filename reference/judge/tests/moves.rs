//! Request 9: image version 2, the moves between the versions, and what else
//! speaks of one of them alone.

use std::collections::BTreeMap;

use judge::{
    allotment::ALL_ROWS,
    calls::{self, Answer, Call, Given, LayoutArgs, RenderArgs, World},
    choice::Choice,
    driver::Run,
    frame::{self, Frame},
    generate::{self, Class},
    image::{self, Tree, node, text},
    mode::{NEW, OLD},
    moves::{self, Way, back, forward, moved},
    program::{self, Widths},
    reader::{self, Accepted, Reading, Version},
    refusal::{Refusal, refusal},
    rows::{self, Row},
    rule::{SUPPLIED, UNICODE_15_1, UNICODE_16_0},
    steps,
    width::REFERENCE,
};

const AMPLE: usize = usize::MAX;
const CLASSES: [Class; 4] =
    [Class::Realistic, Class::Wild, Class::Edges, Class::Damaged];

/// The worked frame's image, `#!/x`, and the same without its width.
const ONE: &[u8] = b"\x01\0\0\0\x22\0\0\
    \0\0\0\x1C\x01\0\0\0\0\0\0\0\0\
    \0\0\0\x0F\x02\0\0\0\0\0\0\0\0\0\x04#!/x";
const TWO: &[u8] = b"\x02\0\0\0\x20\0\0\
    \0\0\0\x1A\x01\0\0\0\0\0\0\0\0\
    \0\0\0\x0D\x02\0\0\0\0\0\0\0\0#!/x";

fn of_shebang(width: usize, shebang: &str) -> Vec<u8> {
    let shebang = text(0..0, width, shebang);
    image::write(&[], &node(1, 0..0, [Some(shebang)]))
}

/// Imports of one name each.
fn of_names(names: &[(usize, &str)]) -> Vec<u8> {
    let import = |(width, name): &(usize, &str)| {
        let name = text(0..0, *width, name);
        let path = node(4, 0..0, [Some(name)]);
        Some(node(16, 0..0, [Some(path), None]))
    };
    let shebang = std::iter::once(None);
    let tree = node(1, 0..0, shebang.chain(names.iter().map(import)));
    image::write(&[], &tree)
}

/// The same imports without widths.
fn two_of_names(names: &[&str]) -> Vec<u8> {
    let import = |name: &&str| {
        let name = Tree {
            payload: name.as_bytes().to_vec(),
            ..node(2, 0..0, [])
        };
        let path = node(4, 0..0, [Some(name)]);
        Some(node(16, 0..0, [Some(path), None]))
    };
    let shebang = std::iter::once(None);
    let tree = node(1, 0..0, shebang.chain(names.iter().map(import)));
    image::write_as(Version::Two, &[], &tree)
}

#[test]
fn the_worked_image_forward_and_back() {
    assert_eq!(forward(b"", ONE, AMPLE).as_deref(), Ok(TWO));
    assert_eq!(back(b"", TWO, AMPLE).as_deref(), Ok(ONE));
    let two = image::write_as(Version::Two, &[0..1], &node(1, 0..1, [None]));
    let one = image::write(&[0..1], &node(1, 0..1, [None]));
    assert_eq!(forward(b"x", &one, AMPLE), Ok(two.clone()));
    assert_eq!(back(b"x", &two, AMPLE), Ok(one));
}

#[test]
fn room() {
    let size = |way, image: &[u8], room| {
        moved(way, b"", image, room).map(|image| image.len())
    };
    for (way, from, to) in [(Way::Forward, ONE, TWO), (Way::Back, TWO, ONE)] {
        let needed = to.len();
        assert_eq!(size(way, from, needed), Ok(needed));
        for room in [0, needed - 1] {
            assert_eq!(size(way, from, room), Err(refusal(17, needed)));
        }
    }
}

/// Only the shebang is trimmed, and of White_Space, at its end alone.
#[test]
fn the_shebang_has_the_width_of_its_trimmed_text() {
    for (width, shebang) in [
        (4, "#!/x\n"),
        (4, "#!/x \t\u{85}\u{2003}\u{2028}\r\n"),
        (4, "#!/x\u{3000}\u{3000}"),
        (6, "#!\u{3000}/x\u{A0}\n"),
        (5, "#!/x\u{200B}"),
        (5, "\u{3000}#!x"),
        (0, " \u{3000}\n"),
    ] {
        let right = of_shebang(width, shebang);
        let two = forward(b"", &right, AMPLE).expect("allowed");
        assert_eq!(two.len(), right.len() - 2);
        assert_eq!(back(b"", &two, AMPLE), Ok(right), "{shebang:?}");
        for wrong in [width + 1, width.wrapping_sub(1) & 0xFFFF] {
            let wrong = of_shebang(wrong, shebang);
            let answer = forward(b"", &wrong, AMPLE);
            assert_eq!(answer, Err(refusal(21, 20)), "{shebang:?}");
        }
    }
    let name = of_names(&[(6, "ab\u{3000}\u{3000}")]);
    assert!(forward(b"", &name, AMPLE).is_ok());
    let trimmed = of_names(&[(2, "ab\u{3000}\u{3000}")]);
    assert_eq!(forward(b"", &trimmed, AMPLE), Err(refusal(21, 50)));
}

#[test]
fn widths_are_those_of_unicode_16() {
    // Wide since 16.0.
    assert!(forward(b"", &of_names(&[(2, "\u{4DC0}")]), AMPLE).is_ok());
    let before = of_names(&[(1, "\u{4DC0}")]);
    assert_eq!(forward(b"", &before, AMPLE), Err(refusal(21, 50)));
    let two = two_of_names(&["\u{4DC0}", "e\u{301}", "料率", ""]);
    let names = [(2, "\u{4DC0}"), (1, "e\u{301}"), (4, "料率"), (0, "")];
    assert_eq!(back(b"", &two, AMPLE), Ok(of_names(&names)));
}

/// The first in reading order.
#[test]
fn the_first_wrong_width() {
    let names = [(1, "a"), (3, "bb"), (9, "c"), (9, "d")];
    // Trees start at 7; an import takes 13 + 13 + 15 and its name, and 4.
    let first = 7 + 13 + 4 + (45 + 1);
    let answer = forward(b"", &of_names(&names), AMPLE);
    assert_eq!(answer, Err(refusal(21, first + 26)));
    let wide = "語".repeat(32_768);
    let two = two_of_names(&["a", &wide, "b", &wide]);
    // Two bytes less before it.
    let place = 7 + 13 + 4 + (43 + 1) + 26;
    assert_eq!(back(b"", &two, AMPLE), Err(refusal(21, place)));
}

#[test]
fn columns_that_two_bytes_hold() {
    let wide = "語".repeat(32_767);
    let most = format!("{wide}n");
    let over = format!("{wide}語");
    let one = of_names(&[(65_535, &most)]);
    let two = two_of_names(&[&most]);
    assert_eq!(forward(b"", &one, AMPLE), Ok(two.clone()));
    assert_eq!(back(b"", &two, AMPLE), Ok(one));
    let answer = back(b"", &two_of_names(&[&over]), AMPLE);
    assert_eq!(answer, Err(refusal(21, 50)));
    // Neither 65,535 nor the lower two bytes are its width.
    for width in [0, 65_535] {
        let answer = forward(b"", &of_names(&[(width, &over)]), AMPLE);
        assert_eq!(answer, Err(refusal(21, 50)));
    }
    // As the shebang's its blanks don't count.
    let blank = of_shebang(65_535, &format!("{most}\u{3000}"));
    let two = forward(b"", &blank, AMPLE).expect("allowed");
    assert_eq!(back(b"", &two, AMPLE), Ok(blank));
}

/// Going back two bytes are added for each text.
#[test]
fn the_largest_body() {
    let empty = two_of_names(&["", ""]).len() - reader::HEADER;
    let of_size = |size: usize| {
        let mut marks = "\u{301}".repeat((size - empty) / 2);
        marks.push_str(if (size - empty) % 2 == 1 { "a" } else { "" });
        two_of_names(&[&marks, ""])
    };
    let most = of_size(reader::MOST_BODY - 4);
    let one = back(b"", &most, AMPLE).expect("it fits");
    assert_eq!(one.len(), reader::HEADER + reader::MOST_BODY);
    assert_eq!(forward(b"", &one, AMPLE), Ok(most));
    for more in 1..=4 {
        let size = reader::MOST_BODY - 4 + more;
        let needed = reader::HEADER + size + 4;
        for room in [0, needed, AMPLE] {
            let answer = back(b"", &of_size(size), room);
            assert_eq!(answer, Err(refusal(17, needed)));
        }
    }
    let over = of_size(reader::MOST_BODY + 1);
    assert_eq!(back(b"", &over, AMPLE), Err(refusal(3, 0)));
}

/// 1, 2, 3, 7, 4, 5, 6, 21, 17.
#[test]
fn the_order_of_refusals() {
    let long = vec![b' '; 65_537];
    for (way, right, wrong) in
        [(Way::Forward, ONE, TWO), (Way::Back, TWO, ONE)]
    {
        let number = |source: &[u8], image: &[u8], room| {
            let answer = moved(way, source, image, room);
            answer.err().map(|refusal| refusal.number)
        };
        assert_eq!(number(&long, wrong, 0), Some(1));
        assert_eq!(number(b"\xFF", wrong, 0), Some(2));
        for image in [wrong, b"", b"\x01", b"\x02", b"\x03", &right[..9]] {
            assert_eq!(number(b"", image, 0), Some(3), "{image:?}");
        }
        for first in [0, 3, 255] {
            let image = [&[first], &right[1..]].concat();
            assert_eq!(number(b"", &image, 0), Some(3));
        }
        assert_eq!(number(b"", right, 0), Some(17));
        assert_eq!(number(b"", right, AMPLE), None);
    }
    // A name's wrong width stands before what 4 and 6 refuse.
    let bad = |span, children: &[Option<Tree>], comments: &[_]| {
        let wrong = text(0..0, 9, "a");
        let children = [&[Some(wrong)], children].concat();
        let image = image::write(comments, &node(1, span, children));
        forward(b"x", &image, 0).expect_err("refused").number
    };
    assert_eq!(bad(0..0, &[], &[]), 21);
    assert_eq!(bad(0..2, &[], &[]), 6);
    assert_eq!(bad(0..0, &[None], &[]), 4);
    assert_eq!(bad(0..2, &[None], &[1..1]), 7);
}

/// Texts of version 2 may be of no bytes and go to the record's end.
#[test]
fn the_reader_of_version_2() {
    let read = |image: &[u8]| reader::read(b"", image).map(|_| ());
    let of = |payload: &[u8]| {
        let shebang = Tree {
            payload: payload.to_vec(),
            ..node(2, 0..0, [])
        };
        let tree = node(1, 0..0, [Some(shebang)]);
        image::write_as(Version::Two, &[], &tree)
    };
    for payload in [&b""[..], b"a", b"\0\x04", "é".as_bytes()] {
        assert_eq!(read(&of(payload)), Ok(()));
    }
    for payload in [&b"\xC3"[..], b"\0\xFF", b"a\xED\xA0\x80"] {
        assert_eq!(read(&of(payload)), Err(refusal(4, 20)));
    }
    let said = |image: &[u8], version| {
        let earlier = Reading::Earlier;
        reader::read_version(b"", image, version, earlier).map(|_| ())
    };
    assert_eq!(said(ONE, Version::One), Ok(()));
    assert_eq!(said(ONE, Version::Two), Err(refusal(3, 0)));
    assert_eq!(said(TWO, Version::One), Err(refusal(3, 0)));
    assert_eq!(said(TWO, Version::Two), Ok(()));
}

/// Steps speak of version 1: 3 for the other, after 1 and 2.
#[test]
fn steps_of_version_2() {
    assert!(steps::read(b"", ONE, AMPLE).is_ok());
    assert_eq!(steps::read(b"", TWO, AMPLE), Err(refusal(3, 0)));
    assert_eq!(steps::read(b"\xFF", TWO, AMPLE), Err(refusal(2, 0)));
    let list = steps::read(b"", ONE, AMPLE).expect("steps");
    assert_eq!(steps::write(&list, AMPLE).as_deref(), Ok(ONE));
}

/// 20 for a first byte 2 under any rule but that of Unicode 16.0, whatever
/// stands behind it and in the source.
#[test]
fn a_first_byte_2_by_each_rule() {
    let long = vec![b' '; 65_537];
    for source in [&b""[..], b"\xFF", &long] {
        for image in [TWO, &TWO[..1], &TWO[..9], b"\x02\0\0\0\0"] {
            for rule in [SUPPLIED, UNICODE_15_1] {
                for answer in answers(source, image, rule) {
                    assert_eq!(answer, Some(refusal(20, 0)));
                }
            }
            for answer in answers(source, image, UNICODE_16_0) {
                assert_ne!(answer, Some(refusal(20, 0)));
            }
        }
        // No first byte is none that is 2.
        for image in [&b""[..], ONE, b"\x01", b"\x03\x02"] {
            for rule in [SUPPLIED, UNICODE_15_1, UNICODE_16_0] {
                for answer in answers(source, image, rule) {
                    assert_ne!(answer, Some(refusal(20, 0)));
                }
            }
        }
    }
    let rule = UNICODE_16_0;
    assert_eq!(answers(b"", TWO, rule), [None; 3]);
    assert_eq!(answers(b"", b"\x02", rule), [Some(refusal(3, 0)); 3]);
    // Rules that are none come in the same place.
    for rule in [0, 4, usize::MAX] {
        assert_eq!(answers(b"", TWO, rule), [Some(refusal(20, 0)); 3]);
    }
}

/// A whole file, a layout call and a rendering call of no row.
fn answers(source: &[u8], image: &[u8], rule: usize) -> [Option<Refusal>; 3] {
    let choice = Choice {
        rule,
        ..Choice::REFERENCE
    };
    let given = Given { source, image };
    let call = |one| {
        let mut world = World {
            store: vec![0; 9 * Row::CELLS],
            ..World::default()
        };
        calls::call(given, &mut world, one).err()
    };
    let layout = Call::Layout(LayoutArgs {
        stop: 0,
        close: true,
        mode: OLD,
        rule,
        archive: false,
    });
    let rendering = Call::Render(RenderArgs {
        stop: 0,
        room: 0,
        width: REFERENCE,
        rule,
        allotment: ALL_ROWS,
    });
    let frame = Frame { source, image };
    let whole = program::format_as(frame, Widths::Supplied, choice);
    [whole.err(), call(layout), call(rendering)]
}

/// What the moves read.
fn earlier<'i>(source: &'i [u8], image: &'i [u8]) -> Accepted<'i> {
    reader::read_by(source, image, Reading::Earlier).expect("accepted")
}

/// The image of a generated frame with the widths of Unicode 16.0.
fn with_widths(source: &[u8], image: &[u8]) -> Option<Vec<u8>> {
    let (one, earlier) = (Version::One, Reading::Earlier);
    let read = reader::read_version(source, image, one, earlier).ok()?;
    let mut right = image.to_vec();
    for text in moves::texts(&read) {
        let width = (text.due as u16).to_be_bytes();
        right[text.at + 13..text.at + 15].copy_from_slice(&width);
    }
    Some(right)
}

fn all_classes(count: u64) -> impl Iterator<Item = Vec<u8>> {
    let of_class = move |class| generate::frames(class, 3, count);
    let feet = (0..count).map(|index| generate::foot_frame(3, index));
    let broad = (0..count).map(|index| generate::broad_frame(3, index).0);
    CLASSES
        .into_iter()
        .flat_map(of_class)
        .chain(feet)
        .chain(broad)
}

/// Either move after the other; and what else version 2 lacks is the lengths.
#[test]
fn forward_and_back_of_all_classes() {
    let mut moved = 0;
    for bytes in all_classes(150) {
        let Ok(Frame { source, image }) = frame::split_any_size(&bytes)
        else {
            continue;
        };
        let Some(one) = with_widths(source, image) else {
            continue;
        };
        let two = forward(source, &one, AMPLE).expect("allowed");
        assert_eq!(back(source, &two, AMPLE).as_ref(), Ok(&one));
        let read = earlier(source, &one);
        let texts = moves::texts(&read);
        assert_eq!(two.len() + 2 * texts.len(), one.len());
        let again = forward(source, &one, AMPLE);
        assert_eq!(again.as_ref(), Ok(&two));
        assert_eq!(back(source, &one, AMPLE), Err(refusal(3, 0)));
        assert_eq!(forward(source, &two, AMPLE), Err(refusal(3, 0)));
        if image == one {
            continue;
        }
        // The first that differs is named.
        let supplied = earlier(source, image);
        let wrong = moves::texts(&supplied)
            .into_iter()
            .find(|text| text.stored.map(usize::from) != Some(text.due))
            .expect("one differs");
        let answer = forward(source, image, AMPLE);
        assert_eq!(answer, Err(refusal(21, wrong.at)));
        moved += 1;
    }
    assert!(moved > 100, "{moved}");
}

/// Each text in turn has one column more, or less.
#[test]
fn one_width_off() {
    let mut tried = 0;
    for bytes in all_classes(12) {
        let Ok(Frame { source, image }) = frame::split_any_size(&bytes)
        else {
            continue;
        };
        let Some(mut one) = with_widths(source, image) else {
            continue;
        };
        let read = earlier(source, image);
        for text in moves::texts(&read) {
            let place = text.at + 13..text.at + 15;
            let right = (text.due as u16).to_be_bytes();
            for more in [1, u16::MAX] {
                let off = (text.due as u16).wrapping_add(more);
                one[place.clone()].copy_from_slice(&off.to_be_bytes());
                let answer = forward(source, &one, 0);
                assert_eq!(answer, Err(refusal(21, text.at)));
                tried += 1;
            }
            one[place].copy_from_slice(&right);
        }
    }
    assert!(tried > 1_000, "{tried}");
}

fn format(source: &[u8], image: &[u8], mode: usize, rule: usize) -> Run {
    let choice = Choice {
        mode,
        rule,
        ..Choice::REFERENCE
    };
    let frame = Frame { source, image };
    let (widths, earlier) = (Widths::Supplied, Reading::Earlier);
    let run = program::format_by(frame, widths, choice, earlier);
    run.expect("accepted")
}

/// What is laid out of a moved image under rule 3 is what was laid out before,
/// but for where its texts start in the image; so the text is the same. If the
/// widths are right, supplied ones give it too, where `Ascii` texts are ASCII.
#[test]
fn a_moved_image_is_laid_out_as_before() {
    for bytes in all_classes(60) {
        let Ok(Frame { source, image }) = frame::split_any_size(&bytes)
        else {
            continue;
        };
        let Some(one) = with_widths(source, image) else {
            continue;
        };
        let two = forward(source, &one, AMPLE).expect("allowed");
        for mode in [OLD, NEW] {
            let before = format(source, &one, mode, UNICODE_16_0);
            let after = format(source, &two, mode, UNICODE_16_0);
            assert_eq!(before.text, after.text);
            assert_eq!(before.marks, after.marks);
            assert_eq!(before.closed, after.closed);
            assert_eq!(before.comments_left, after.comments_left);
            let texts = |rows: &[Row], image: &[u8]| -> Vec<(Row, Vec<u8>)> {
                rows.iter().map(|row| without_start(*row, image)).collect()
            };
            let before = texts(&before.rows, &one);
            assert_eq!(before, texts(&after.rows, &two));
        }
    }
}

/// A row of a text of the image, with that text in place of its start.
fn without_start(row: Row, image: &[u8]) -> (Row, Vec<u8>) {
    if row.kind != rows::STR || row.origin != rows::IMAGE {
        return (row, vec![]);
    }
    let text = &image[row.start as usize..][..row.length as usize];
    (Row { start: 0, ..row }, text.to_vec())
}

/// Lists of calls on images of version 2 are what the plain run has due.
#[test]
fn lists_on_version_2() {
    let mut numbers: BTreeMap<u8, usize> = BTreeMap::new();
    for index in 0..400 {
        let case = generate::two_case(4, index);
        let given = Given {
            source: &case.source,
            image: &case.image,
        };
        let World { store, marks, .. } = &case.world;
        let mut world = case.world.clone();
        let answers = calls::run(given, &mut world, &case.calls);
        for answer in &answers {
            let number = answer.err().map_or(0, |refusal| refusal.number);
            *numbers.entry(number).or_default() += 1;
        }
        let fresh = World {
            store: store.clone(),
            marks: marks.clone(),
            ..World::default()
        };
        if case.world == fresh
            && calls::reads_laid_rows_alone(given, store, marks, &case.calls)
        {
            let due = calls::plain_run(given, store, marks, &case.calls);
            assert_eq!((&answers, &world.text), (&due.0, &due.1.text));
        }
        let rules = answers.iter().filter_map(|answer| match answer {
            Ok(Answer::LaidOut { state, .. }) => Some(state.rule),
            Ok(Answer::Written { state, .. }) => Some(state.rule),
            Err(_) => None,
        });
        if case.image.first() == Some(&2) {
            assert!(rules.into_iter().all(|rule| rule == UNICODE_16_0));
        }
    }
    for number in [0, 3, 8, 10, 12, 15, 20] {
        assert!(numbers.contains_key(&number), "{number}: {numbers:?}");
    }
    assert!(numbers[&0] > 500, "{numbers:?}");
}

/// Generated images give each answer in both ways.
#[test]
fn every_answer_is_among_the_cases() {
    let mut numbers: BTreeMap<(u8, u8), usize> = BTreeMap::new();
    let made = (0..3_000).map(|index| generate::move_case(2, index));
    let fixed = generate::move_cases().iter().map(|case| case.of.clone());
    for case in made.chain(fixed) {
        for (way, name) in [(Way::Forward, 1), (Way::Back, 2)] {
            let answer = moved(way, &case.source, &case.image, AMPLE);
            let number = answer.err().map_or(0, |refusal| refusal.number);
            *numbers.entry((name, number)).or_default() += 1;
        }
    }
    for number in [0, 1, 2, 3, 4, 5, 6, 7, 21] {
        for way in [1, 2] {
            assert!(numbers.contains_key(&(way, number)), "{numbers:?}");
        }
    }
    assert!(numbers.contains_key(&(2, 17)), "{numbers:?}");
    assert!(numbers[&(1, 0)] > 300, "{numbers:?}");
    assert!(numbers[&(2, 0)] > 500, "{numbers:?}");
}

/// Five rows for each 13 bytes are enough in version 2 too. A list of one type
/// parameter of no bytes takes just as many.
#[test]
fn rows_by_bytes() {
    let rows =
        |image: &[u8]| format(b"", image, NEW, UNICODE_16_0).rows.len();
    let bare = || Some(node(2, 0..0, []));
    let list = |elements| Some(node(3, 0..0, elements));
    let image = |declaration| {
        let tree = node(1, 0..0, [None, Some(declaration)]);
        image::write_as(Version::Two, &[], &tree)
    };
    let record =
        |params| image(node(12, 0..0, [bare(), params, list(vec![])]));
    let params = |count: usize| {
        record(list((0..count).map(|_| bare()).collect::<Vec<_>>()))
    };
    let [none, few, many] = [record(None), params(1), params(401)];
    // A list of one: 26 bytes for the four of an absent one, and ten rows.
    assert_eq!(few.len() - none.len(), 26 - 4);
    assert_eq!(rows(&few) - rows(&none), 10);
    assert_eq!(rows(&many) - rows(&few), 3 * 400);
    for image in [none, few, many] {
        assert!(rows(&image) * 13 <= image.len() * 5);
    }
    for index in 0..600 {
        let bytes = generate::two_frame(6, index);
        let Frame { source, image } =
            frame::split_any_size(&bytes).expect("a frame");
        let run = format(source, image, NEW, UNICODE_16_0);
        let comments = earlier(source, image).comments.len();
        assert!(run.rows.len() * 13 <= image.len() * 5 + 13 * 5 * comments);
    }
}
