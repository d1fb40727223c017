//! Request 8: what is measured by each rule, and what is refused.

mod support;

use judge::{
    allotment::ALL_ROWS,
    calls::{
        self, Answer, Call, Given, LayoutArgs, LayoutState, RenderArgs,
        RenderState, World,
    },
    choice::Choice,
    driver::{Page, Pen, RenderedRows, Run, Start, Texts, render_rows},
    frame::{self, Frame},
    generate::{self, Class},
    mode::{NEW, OLD},
    program::{self, Widths},
    reader::{self, Payload},
    refusal::Refusal,
    rows::{self, Row},
    rule::{self, LEGAL, SUPPLIED, UNICODE_15_1, UNICODE_16_0},
    script,
    unicode::Edition,
    width::REFERENCE,
};
use support::{
    N::{self, *},
    pen, render_on,
};

const SEED: u64 = 11;

/// The rules that are Unicode's.
const EDITIONS: [usize; 2] = [UNICODE_15_1, UNICODE_16_0];

fn page(rule: usize) -> Page {
    Page {
        rule,
        ..Page::REFERENCE
    }
}

fn choice(rule: usize) -> Choice {
    Choice {
        rule,
        ..Choice::REFERENCE
    }
}

fn rendered(nodes: &[N], pen: Pen, rule: usize) -> RenderedRows {
    render_on(nodes, pen, page(rule))
}

/// Characters of two columns and three bytes, and one letter where the number
/// is odd.
fn japanese(columns: usize) -> N {
    Text("語".repeat(columns / 2) + &"x".repeat(columns % 2))
}

/// Document 01's edges at column 80, in Japanese.
#[test]
fn a_group_of_eighty_columns_keeps_its_line() {
    let pair = |first, second| {
        [Group(
            0,
            vec![japanese(first), LineOrSpace, japanese(second)],
        )]
    };
    for rule in EDITIONS {
        let marks =
            |second| rendered(&pair(40, second), pen(0, 0), rule).marks;
        assert_eq!([marks(39), marks(40)], [[0], [1]]);
        let text = rendered(&pair(40, 39), pen(0, 0), rule).text;
        assert!(!text.contains(&b'\n') && text.len() == 60 + 1 + 58);
    }
    // By its bytes it is too wide either way, and 26 characters aren't.
    let marks = |nodes: &[N]| rendered(nodes, pen(0, 0), SUPPLIED).marks;
    assert_eq!(marks(&pair(40, 39)), [1]);
    assert_eq!(marks(&[Group(0, vec![japanese(52)])]), [0]);
    assert_eq!(marks(&[Group(0, vec![japanese(54)])]), [1]);
}

#[test]
fn at_column_zero_the_indent_counts() {
    for rule in EDITIONS {
        let marks = |columns| {
            let group = [Group(0, vec![japanese(columns)])];
            rendered(&group, pen(2, 0), rule).marks
        };
        assert_eq!([marks(72), marks(73)], [[0], [1]]);
    }
}

#[test]
fn a_call_may_keep_its_callee_on_the_line() {
    for rule in EDITIONS {
        let marks = |callee: usize, arguments: usize| {
            let callee = vec![japanese(callee - 1), Line, Ascii("c")];
            let arguments = vec![japanese(arguments - 1), Line, Ascii(")")];
            let call = [Call(0, callee, 1, arguments)];
            rendered(&call, pen(0, 0), rule).marks
        };
        assert_eq!(marks(78, 3), [0, 1]);
        assert_eq!(marks(79, 2), [1, 0]);
    }
}

/// 40 characters of two columns fill a line; two columns more don't fit.
#[test]
fn forty_wide_characters_fill_a_line() {
    for rule in EDITIONS {
        let marks = |more: &'static str| {
            let group = [Group(0, vec![japanese(80), Ascii(more)])];
            rendered(&group, pen(0, 0), rule).marks
        };
        assert_eq!(marks(""), [0]);
        assert_eq!(marks("\u{301}"), [0]);
        assert_eq!(marks("x"), [1]);
        assert_eq!(marks("日"), [1]);
        assert_eq!(marks("\u{302A}"), [1]);
    }
}

/// The column counts by the rule too, where a group stands behind a text.
#[test]
fn the_column_is_by_the_rule() {
    for (rule, column) in [(SUPPLIED, 16), (UNICODE_15_1, 9)] {
        let text = Text("日e\u{301}か\u{3099}\u{4DC0}x".into());
        let end = rendered(&[text], pen(0, 0), rule).pen;
        assert_eq!(end.column, column);
    }
    let text = || Text("\u{4DC0}\u{1171E}".into());
    let columns = |rule| rendered(&[text()], pen(0, 0), rule).pen.column;
    assert_eq!(LEGAL.map(columns).collect::<Vec<_>>(), [7, 1, 3]);
    for rule in EDITIONS {
        let marks = |columns| {
            let behind = Group(0, vec![Wide(columns)]);
            rendered(&[japanese(40), behind], pen(0, 0), rule).marks
        };
        assert_eq!([marks(40), marks(41)], [[0], [1]]);
    }
}

/// A comment isn't measured.
#[test]
fn comments_take_no_columns() {
    for rule in LEGAL {
        let nodes = [Group(0, vec![japanese(26), Comment("日本")])];
        let rendered = rendered(&nodes, pen(0, 0), rule);
        assert_eq!((rendered.pen.column, rendered.marks), (0, vec![1]));
    }
}

fn formatted(source: &str, rule: usize) -> String {
    let bytes = script::frame(source).expect("a script");
    let frame = frame::split(&bytes).unwrap();
    let run = program::format_as(frame, Widths::Supplied, choice(rule));
    run.expect("a script").text
}

/// "Brokers in Japan see lists wrapped that fit."
#[test]
fn a_list_that_fits_keeps_its_line() {
    let list = "const 支店: 一覧 = [\"東京都\", \"大阪府\", \"北海道\", \
        \"神奈川県\", \"和歌山県\"];\n";
    let [before, after] = [SUPPLIED, UNICODE_16_0].map(|rule| {
        let text = formatted(list, rule);
        text.lines().count()
    });
    assert_eq!((before, after), (7, 1));
    for rule in EDITIONS {
        assert_eq!(formatted(list, rule), list);
    }
    for edition in Edition::ALL {
        assert_eq!(edition.columns(list.trim_end()), 74);
    }
}

/// The rows of a file with a shebang and names of all widths.
#[test]
fn layout_writes_the_sum() {
    let source = "#!/割引\u{3000} \t\nconst e\u{301}割: ﾊ = \"日\";\n";
    let bytes = script::frame(source).expect("a script");
    let frame = frame::split(&bytes).unwrap();
    let widths = |rule| {
        let run = program::format_as(frame, Widths::Supplied, choice(rule));
        let rows = run.unwrap().rows.into_iter();
        let texts = rows.filter(|row| row.kind == rows::STR);
        texts.map(|row| row.width).collect::<Vec<u32>>()
    };
    for rule in LEGAL {
        assert_eq!(widths(rule), [7, 3, 1], "{rule}");
    }
    // Supplied widths are believed, and not looked at by a rule.
    let name = |width| Some(judge::image::text(0..0, width, "変数"));
    let path = judge::image::node(4, 0..0, [name(0), name(65_535)]);
    let import = judge::image::node(16, 0..0, [Some(path), None]);
    let bytes = judge::examples::of_source("", vec![], vec![import]);
    let frame = frame::split(&bytes).unwrap();
    let widths = |rule| {
        let run = program::format_as(frame, Widths::Supplied, choice(rule));
        let rows = run.unwrap().rows.into_iter();
        let texts = rows.filter(|row| row.kind == rows::STR);
        texts.map(|row| row.width).collect::<Vec<u32>>()
    };
    assert_eq!(widths(SUPPLIED), [0, 65_535]);
    assert_eq!(widths(UNICODE_15_1), [4, 4]);
    assert_eq!(widths(UNICODE_16_0), [4, 4]);
}

/// Frames of all classes, and of characters of all widths.
fn frames(count: u64) -> impl Iterator<Item = Vec<u8>> {
    let classes = [Class::Realistic, Class::Wild, Class::Edges];
    let plain = classes
        .into_iter()
        .flat_map(move |class| generate::frames(class, SEED, count));
    plain.chain((0..2 * count).map(|i| generate::broad_frame(SEED, i).0))
}

fn texts<'t>(frame: Frame<'t>, words: &'t str) -> Texts<'t> {
    Texts {
        source: frame.source,
        image: frame.image,
        words: words.as_bytes(),
    }
}

fn text<'t>(texts: &'t Texts, row: &Row) -> &'t str {
    let origin = texts.origin(row.origin).expect("an origin");
    let text = &origin[row.start as usize..][..row.length as usize];
    std::str::from_utf8(text).expect("a text of layout's")
}

/// Rendering by a rule is rendering with supplied widths the rows in which
/// each `Ascii` is a `Str` as wide as the rule says.
#[test]
fn a_rule_turns_ascii_into_str() {
    let words = rows::fixed_words();
    let mut differ = 0;
    for bytes in frames(150) {
        let frame = frame::split_any_size(&bytes).unwrap();
        for rule in EDITIONS {
            let run =
                program::format_as(frame, Widths::Supplied, choice(rule));
            let Ok(run) = run else { continue };
            let texts = texts(frame, &words);
            let edition = rule::edition(rule).expect("Unicode's");
            let mut turned = run.rows.clone();
            for row in &mut turned {
                if row.kind == rows::ASCII {
                    row.width = edition.columns(text(&texts, row)) as u32;
                    row.kind = rows::STR;
                }
            }
            let start = Start::at(0, Pen::default());
            let by =
                |rows, page| render_rows(texts, rows, start, page, ALL_ROWS);
            for rendered in
                [by(&run.rows, page(rule)), by(&turned, page(SUPPLIED))]
            {
                assert_eq!(rendered.text, run.text.as_bytes());
                assert_eq!(rendered.marks, run.marks);
                assert_eq!(rendered.pen, run.pen);
            }
            let supplied = by(&run.rows, page(SUPPLIED));
            differ += usize::from(supplied.text != run.text.as_bytes());
        }
    }
    assert!(differ > 50, "{differ}");
}

/// The image with the widths that a rule gives in place of those supplied;
/// the shebang's is that of its trimmed text.
fn with_widths(frame: Frame, edition: Edition) -> Option<Vec<u8>> {
    let read = reader::read(frame.source, frame.image).ok()?;
    let mut image = frame.image.to_vec();
    let shebang = read.tree.children[0].as_ref().map(|text| text.at);
    let mut put = Some(());
    read.tree.walk(&mut |record| {
        if let Payload::Text { text, .. } = record.payload {
            let trimmed = match Some(record.at) == shebang {
                true => text.trim_end(),
                false => text,
            };
            match u16::try_from(edition.columns(trimmed)) {
                Ok(width) => image[record.at + 13..record.at + 15]
                    .copy_from_slice(&width.to_be_bytes()),
                Err(_) => put = None,
            }
        }
    });
    put.map(|()| image)
}

/// Layout by a rule is layout of the image with other widths; and where all
/// `Ascii` texts are ASCII, the text is that of the original itself.
#[test]
fn a_rule_is_other_supplied_widths() {
    let words = rows::fixed_words();
    let [mut same, mut ascii] = [0, 0];
    for bytes in frames(150) {
        let frame = frame::split_any_size(&bytes).unwrap();
        for rule in EDITIONS {
            let edition = rule::edition(rule).expect("Unicode's");
            let run =
                program::format_as(frame, Widths::Supplied, choice(rule));
            let Some(image) = with_widths(frame, edition) else {
                assert!(run.is_err());
                continue;
            };
            let other = Frame {
                source: frame.source,
                image: &image,
            };
            let [run, original] =
                [run, program::format(other, Widths::Supplied)]
                    .map(|run: Result<Run, Refusal>| run.expect("read"));
            assert_eq!(run.rows, original.rows);
            assert_eq!(run.stops, original.stops);
            assert_eq!(run.closed, original.closed);
            same += 1;
            let texts = texts(frame, &words);
            let mut all = run.rows.iter();
            if all.all(|row| {
                row.kind != rows::ASCII || text(&texts, row).is_ascii()
            }) {
                assert_eq!(run.text, original.text);
                ascii += 1;
            }
        }
    }
    assert!(same > 1_000 && ascii > 400, "{same} and {ascii}");
}

/// Whole files are layout and rendering by calls, under each rule.
#[test]
fn calls_give_what_whole_files_do() {
    for bytes in frames(60) {
        let frame = frame::split_any_size(&bytes).unwrap();
        let Frame { source, image } = frame;
        for rule in LEGAL {
            for mode in [OLD, NEW] {
                let choice = Choice {
                    mode,
                    ..choice(rule)
                };
                let run = program::format_as(frame, Widths::Supplied, choice);
                let Ok(run) = run else { continue };
                let mut world = World {
                    store: vec![7; run.rows.len() * Row::CELLS],
                    marks: vec![9; run.marks.len()],
                    ..World::default()
                };
                let calls = [
                    Call::Layout(LayoutArgs {
                        stop: run.stops.len() - 1,
                        close: true,
                        mode,
                        rule,
                        archive: false,
                    }),
                    Call::Render(RenderArgs {
                        stop: run.rows.len(),
                        room: run.text.len(),
                        width: REFERENCE,
                        rule,
                        allotment: ALL_ROWS,
                    }),
                ];
                let given = Given { source, image };
                let answers = calls::run(given, &mut world, &calls);
                assert!(answers.iter().all(Result::is_ok));
                assert_eq!(world.rows(run.rows.len()), run.rows);
                assert_eq!(world.text, run.text.as_bytes());
                assert_eq!(world.marks, run.marks);
                assert_eq!(
                    [world.laying.rule, world.rendering.rule],
                    [rule; 2]
                );
            }
        }
    }
}

/// A file's lines turn where the rule says: many are as wide as there is room.
#[test]
fn broad_frames_end_where_wanted() {
    let mut ends = [[0; 3]; 2];
    for index in 0..1_500 {
        let (bytes, choice) = generate::broad_frame(SEED, index);
        let Some(edition) = rule::edition(choice.rule) else {
            continue;
        };
        let frame = frame::split_any_size(&bytes).unwrap();
        let run = program::format_as(frame, Widths::Supplied, choice);
        let Ok(run) = run else { continue };
        for line in run.text.lines() {
            let left = choice.width.wrapping_sub(edition.columns(line));
            if left < 3 {
                ends[choice.rule - UNICODE_15_1][left] += 1;
            }
        }
    }
    for [full, one_left, _] in ends {
        assert!(full > 30 && one_left > 15, "{ends:?}");
    }
}

/// Each legal rule gives another text for some file.
#[test]
fn rules_give_other_texts() {
    let mut differ = [0; 2];
    for index in 0..800 {
        let (bytes, choice) = generate::broad_frame(SEED, index);
        let frame = frame::split_any_size(&bytes).unwrap();
        let mut texts = LEGAL.map(|rule| {
            let choice = Choice { rule, ..choice };
            program::format_as(frame, Widths::Supplied, choice)
                .map(|run| run.text)
        });
        let [supplied, old, new] = [(); 3].map(|()| texts.next().unwrap());
        differ[0] += usize::from(supplied != old);
        differ[1] += usize::from(old != new);
    }
    assert!(differ[0] > 100 && differ[1] > 60, "{differ:?}");
}

fn small() -> Vec<u8> {
    script::frame("const 変: 型 = \"日\";\n").expect("a script")
}

/// Number and place of each refusal, or `None`, of calls on a small file.
fn refusals(world: &mut World, calls: &[Call]) -> Vec<Option<(u8, u64)>> {
    let bytes = small();
    let Frame { source, image } = frame::split(&bytes).unwrap();
    let answers = calls::run(Given { source, image }, world, calls);
    let refused = |answer: Result<Answer, Refusal>| {
        answer.err().map(|refusal| (refusal.number, refusal.place))
    };
    answers.into_iter().map(refused).collect()
}

fn room() -> World {
    World {
        store: vec![1; 20 * Row::CELLS],
        marks: vec![5; 4],
        ..World::default()
    }
}

fn layout(rule: usize, stop: usize) -> Call {
    Call::Layout(LayoutArgs {
        stop,
        close: false,
        mode: OLD,
        rule,
        archive: false,
    })
}

fn render(rule: usize, stop: usize) -> Call {
    Call::Render(RenderArgs {
        stop,
        room: 100,
        width: REFERENCE,
        rule,
        allotment: ALL_ROWS,
    })
}

#[test]
fn rules_are_tested_first() {
    for rule in [0, 4, 1 << 32, usize::MAX] {
        let mut world = room();
        world.laying.next_declaration = 9;
        world.rendering.next_row = 9;
        let before = world.clone();
        let calls = [layout(rule, 7), render(rule, 77)];
        assert_eq!(refusals(&mut world, &calls), [Some((20, 0)); 2]);
        assert_eq!(world, before);
        // Before 1.
        let source = vec![b' '; reader::MOST_SOURCE + 1];
        let given = Given {
            source: &source,
            image: b"",
        };
        for call in calls {
            let refused = calls::call(given, &mut world, call).unwrap_err();
            assert_eq!((refused.number, refused.place), (20, 0));
        }
        let frame = Frame {
            source: &source,
            image: b"",
        };
        let choice = Choice {
            width: 39,
            mode: 2,
            rule,
        };
        let refused = program::format_as(frame, Widths::Supplied, choice);
        assert_eq!(refused.unwrap_err().number, 20);
    }
}

#[test]
fn carried_rules_are_kept() {
    for carried in [0, 1, 2, 3, 7] {
        for rule in LEGAL {
            let kept = carried == 0 || carried == rule;
            let due = [if kept { None } else { Some((12, 0)) }];
            let mut world = room();
            // One that has begun and carries none isn't refused for it.
            world.laying.begun = true;
            world.laying.rule = carried;
            world.rendering.rule = carried;
            assert_eq!(refusals(&mut world, &[layout(rule, 1)]), due);
            world.rendering.next_row = 0;
            assert_eq!(refusals(&mut world, &[render(rule, 0)]), due);
            if kept {
                let carries = [world.laying.rule, world.rendering.rule];
                assert_eq!(carries, [rule; 2]);
            }
            // One that hasn't begun must carry none.
            let mut world = room();
            world.laying.rule = carried;
            let due = [if carried == 0 { None } else { Some((12, 0)) }];
            assert_eq!(refusals(&mut world, &[layout(rule, 1)]), due);
        }
    }
}

/// 12 by the rule comes after 11 and before 15, and before 8 in layout.
#[test]
fn a_rule_is_tested_among_12() {
    let mut world = room();
    world.laying = LayoutState {
        begun: true,
        rule: SUPPLIED,
        ..LayoutState::default()
    };
    world.store.truncate(9);
    let calls = [layout(UNICODE_15_1, 1), layout(SUPPLIED, 1)];
    let refused = refusals(&mut world, &calls);
    assert_eq!(refused[0], Some((12, 0)));
    assert_eq!(refused[1].unwrap().0, 8);
    let mut world = room();
    world.rendering = RenderState {
        rule: UNICODE_16_0,
        ..RenderState::default()
    };
    let narrow = |rule, stop| {
        Call::Render(RenderArgs {
            stop,
            room: 100,
            width: 39,
            rule,
            allotment: ALL_ROWS,
        })
    };
    let calls = [narrow(UNICODE_15_1, 1), narrow(UNICODE_15_1, 0)];
    let due = [Some((11, 0)), Some((12, 0))];
    assert_eq!(refusals(&mut world, &calls), due);
    let calls = [narrow(UNICODE_16_0, 0), render(UNICODE_16_0, 0)];
    assert_eq!(refusals(&mut world, &calls), [Some((15, 0)), None]);
}

/// Layout and rendering choose each for itself.
#[test]
fn kinds_of_calls_choose_apart() {
    let mut world = room();
    let calls = [
        layout(UNICODE_15_1, 0),
        render(UNICODE_16_0, 0),
        layout(UNICODE_16_0, 1),
        render(UNICODE_15_1, 0),
        layout(UNICODE_15_1, 1),
        render(SUPPLIED, 9),
        render(UNICODE_16_0, 9),
    ];
    let no = Some((12, 0));
    let due = [None, None, no, no, None, no, None];
    assert_eq!(refusals(&mut world, &calls), due);
}

/// What a rendering of one row answers, by each rule.
fn of_row(source: &[u8], image: &[u8], row: Row) -> [Option<(u8, u64)>; 3] {
    [SUPPLIED, UNICODE_15_1, UNICODE_16_0].map(|rule| {
        let mut world = World {
            store: row.cells().to_vec(),
            ..World::default()
        };
        let given = Given { source, image };
        let answer = calls::call(given, &mut world, render(rule, 1));
        answer.err().map(|refusal| (refusal.number, refusal.place))
    })
}

fn text_row(kind: u32, [origin, start, length]: [u32; 3]) -> Row {
    Row {
        kind,
        after: 1,
        origin,
        start,
        length,
        ..Row::default()
    }
}

#[test]
fn texts_must_be_whole_unless_widths_are_supplied() {
    let source = "a日\u{1F980}".as_bytes();
    // A length of 128, a supplied width that looks like a character, and bytes
    // that are none.
    let mut body = b"a\xE6\x97\xA5\xC3\xA9\x80\xE6\x97i\xFF".to_vec();
    body.resize(127, b'i');
    body.push(0xE6);
    let image = judge::image::with_header(&body);
    let [s, i, w] = [rows::SOURCE, rows::IMAGE, rows::WORDS];
    let whole = [
        [s, 0, 8],
        [s, 1, 3],
        [s, 4, 4],
        [s, 0, 0],
        [s, 1, 0],
        [s, 4, 0],
        [s, 8, 0],
        [i, 5, 6],
        [i, 0, 4],
        // At the byte 80 of the length, and at one behind a character.
        [i, 4, 0],
        [i, 11, 0],
        // In what is none, and at the end, which cuts one off.
        [i, 13, 0],
        [i, 133, 0],
        [w, 1, 4],
    ];
    let torn = [
        [s, 1, 1],
        [s, 1, 2],
        [s, 0, 3],
        [s, 2, 2],
        [s, 3, 5],
        [s, 2, 0],
        [s, 3, 0],
        [s, 5, 0],
        [s, 7, 0],
        [i, 4, 1],
        [i, 6, 2],
        [i, 7, 2],
        [i, 7, 0],
        [i, 10, 0],
        [i, 11, 1],
        [i, 12, 2],
        [i, 15, 1],
        [i, 132, 1],
    ];
    for kind in [rows::COMMENT, rows::STR, rows::ASCII] {
        for text in whole {
            let row = text_row(kind, text);
            assert_eq!(of_row(source, &image, row), [None; 3], "{text:?}");
        }
        for text in torn {
            let row = text_row(kind, text);
            let no = Some((11, 0));
            let due = [None, no, no];
            assert_eq!(of_row(source, &image, row), due, "{text:?}");
        }
    }
}

#[test]
fn a_source_must_be_utf_8_unless_widths_are_supplied() {
    let image = judge::image::with_header(b"");
    let row = text_row(rows::ASCII, [rows::SOURCE, 0, 1]);
    let no = Some((2, 2));
    assert_eq!(of_row(b"ab\xFF", &image, row), [None, no, no]);
    // Before 3 and behind 1.
    assert_eq!(of_row(b"ab\xFF", b"", row), [Some((3, 0)), no, no]);
    let long = vec![0xFF; reader::MOST_SOURCE + 1];
    assert_eq!(of_row(&long, &image, row), [Some((1, 0)); 3]);
}

/// The first wrong row is named, whatever its fault.
#[test]
fn torn_rows_are_found_in_their_order() {
    let torn = |after| Row {
        after,
        ..text_row(rows::ASCII, [rows::SOURCE, 1, 1])
    };
    let group = |after| Row {
        kind: rows::GROUP,
        after,
        ..Row::default()
    };
    let first = |rows: &[Row], rule: usize| {
        let mut world = World {
            store: rows.iter().flat_map(|row| row.cells()).collect(),
            marks: vec![0],
            ..World::default()
        };
        let given = Given {
            source: "日".as_bytes(),
            image: &judge::image::with_header(b""),
        };
        let answer = calls::call(given, &mut world, render(rule, rows.len()));
        answer.err().map(|refusal| (refusal.number, refusal.place))
    };
    let before = [torn(1), group(1)];
    assert_eq!(first(&before, UNICODE_16_0), Some((11, 0)));
    assert_eq!(first(&before, SUPPLIED), Some((11, 1)));
    let behind = [group(0), torn(2)];
    assert_eq!(first(&behind, UNICODE_16_0), Some((11, 0)));
    let inside = [group(2), torn(2), group(9)];
    assert_eq!(first(&inside, UNICODE_16_0), Some((11, 1)));
    assert_eq!(first(&inside, SUPPLIED), Some((11, 2)));
}

/// What layout writes passes the row check under every rule, whichever it was
/// laid out by.
#[test]
fn rows_of_layout_have_whole_texts() {
    for bytes in frames(100) {
        let frame = frame::split_any_size(&bytes).unwrap();
        let Frame { source, image } = frame;
        let Ok(run) = program::format(frame, Widths::Supplied) else {
            continue;
        };
        for rule in LEGAL {
            let mut world = World {
                store: run.rows.iter().flat_map(|r| r.cells()).collect(),
                marks: vec![0; run.marks.len()],
                ..World::default()
            };
            let call = Call::Render(RenderArgs {
                stop: run.rows.len(),
                room: 1 << 20,
                width: REFERENCE,
                rule,
                allotment: ALL_ROWS,
            });
            let given = Given { source, image };
            assert!(calls::call(given, &mut world, call).is_ok());
        }
    }
}
