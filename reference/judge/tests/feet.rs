//! Document 02, 4: in the new mode closing places the comments after the last
//! declaration, by the original's own `pop_whitespace`.

use std::ops::Range;

use judge::{
    calls::{self, Answer, Call, Given, LayoutArgs},
    choice::Choice,
    driver::Run,
    examples,
    frame::{self, Frame},
    generate::{self, Class},
    mode::{NEW, OLD},
    program::{self, Widths},
    reader::{self, Accepted, Reading},
    refusal::Refusal,
    rows,
};

const SEED: u64 = 9;

fn in_mode(mode: usize, bytes: &[u8]) -> Result<Run, Refusal> {
    let choice = Choice {
        mode,
        ..Choice::REFERENCE
    };
    // Some lists run backwards.
    let (widths, earlier) = (Widths::Supplied, Reading::Earlier);
    let frame = frame::split_any_size(bytes)?;
    program::format_by(frame, widths, choice, earlier)
}

fn earlier(frame: Frame<'_>) -> Accepted<'_> {
    let Frame { source, image } = frame;
    reader::read_by(source, image, Reading::Earlier).expect("accepted")
}

fn kept(bytes: &[u8]) -> Run {
    in_mode(NEW, bytes).expect("accepted")
}

/// Text and comments left.
fn texts(bytes: &[u8]) -> [(String, usize); 2] {
    [OLD, NEW].map(|mode| {
        let run = in_mode(mode, bytes).expect("accepted");
        (run.text, run.comments_left)
    })
}

fn both(old: (&str, usize), new: &str) -> [(String, usize); 2] {
    [(old.0.into(), old.1), (new.into(), 0)]
}

/// "The comment-only file and the `# ok` case get second answers."
#[test]
fn second_answers() {
    let alone = examples::frame("comment-alone").unwrap();
    assert_eq!(texts(&alone), both(("", 1), "# ok\n"));
    assert_eq!(kept(&alone).rows.len(), 2);
    assert_eq!(kept(&alone).closed.position, 5);
    let constant = examples::frame("const-comment").unwrap();
    let old = ("const A: u32 = 1;\n", 1);
    let new = "const A: u32 = 1; # ok\n";
    assert_eq!(texts(&constant), both(old, new));
    assert_eq!(kept(&constant).rows.len(), 11);
    assert_eq!(kept(&constant).text.len(), 23);
    assert_eq!(kept(&constant).closed.position, 23);
}

/// Where no comment waits, the position alone is another.
#[test]
fn nothing_to_place() {
    for name in ["nothing", "const", "two-consts", "import-nothing"] {
        let bytes = examples::frame(name).unwrap();
        let [old, new] = [OLD, NEW].map(|mode| in_mode(mode, &bytes));
        let [old, new] = [old, new].map(|run| run.expect("accepted"));
        assert_eq!((&old.text, &old.rows), (&new.text, &new.rows), "{name}");
        let frame = frame::split(&bytes).unwrap();
        assert_eq!(new.closed.position, frame.source.len(), "{name}");
    }
}

fn constant(foot: &str, comments: &[Range<usize>]) -> String {
    const START: &str = "const A: u32 = 1;";
    let shift =
        |one: &Range<usize>| one.start + START.len()..one.end + START.len();
    let comments = comments.iter().map(shift).collect();
    kept(&examples::of_consts(&format!("{START}{foot}"), comments)).text
}

/// "with leading newlines kept if there is at least one declaration, trailing
/// ones and newlines without a comment not"
#[test]
fn newlines_at_the_foot() {
    let line = "const A: u32 = 1;\n";
    let after = |text: &str| format!("{line}{text}");
    assert_eq!(constant("\n\n\n\n", &[]), line);
    assert_eq!(constant("\n #ok ", &[2..6]), after("#ok\n"));
    assert_eq!(constant("\n\n#ok\n\n\n\n", &[2..5]), after("\n#ok\n"));
    assert_eq!(constant(" \n#ok", &[2..5]), after("#ok\n"));
    assert_eq!(
        constant("\n\n#a\n#b\n\n\n#c", &[2..4, 5..7, 10..12]),
        after("\n#a\n#b\n\n#c\n")
    );
    // None is kept in front of the first where nothing is declared, and a
    // shebang declares nothing.
    let source = "\n\n#a\n\n#b\n\n";
    let alone = examples::of_source(source, vec![2..4, 6..8], vec![]);
    assert_eq!(kept(&alone).text, "#a\n\n#b\n");
}

/// A later comment first: it is placed first, and none is left behind.
#[test]
fn lists_that_run_backwards() {
    let source = "const A: u32 = 1;\n#b\n#a\n";
    let bytes = examples::of_consts(source, vec![21..23, 18..20]);
    let run = kept(&bytes);
    assert_eq!(run.comments_left, 0);
    assert_eq!(run.closed.position, source.len());
    let starts: Vec<u32> = run
        .rows
        .iter()
        .filter(|row| row.kind == rows::COMMENT)
        .map(|row| row.start)
        .collect();
    assert_eq!(starts, [21, 18]);
}

/// All frames, in the new mode: nothing is left, the old rows come first, and
/// the comments in the rows are the list's, in order, each once.
#[test]
fn the_whole_list_is_held() {
    let classes = Class::ALL.into_iter().flat_map(|(class, _)| {
        generate::frames(class, SEED, 200).collect::<Vec<_>>()
    });
    let feet = (0..2_000).map(|index| generate::foot_frame(SEED, index));
    let mut placed = 0;
    for bytes in classes.chain(feet) {
        let (Ok(old), Ok(new)) = (in_mode(OLD, &bytes), in_mode(NEW, &bytes))
        else {
            continue;
        };
        let frame = frame::split_any_size(&bytes).unwrap();
        let read = earlier(frame);
        let laid = old.rows.len() - 1;
        assert_eq!(old.rows[..laid], new.rows[..laid]);
        assert_eq!(old.stops, new.stops);
        assert_eq!(new.comments_left, 0);
        assert_eq!(new.closed.position, frame.source.len());
        let mut shown = new.rows.iter().filter(|r| r.kind == rows::COMMENT);
        for comment in &read.comments {
            let text = &read.source[comment.clone()];
            let row = shown.next().expect("a row for each");
            assert_eq!(row.start as usize, comment.start);
            assert_eq!(row.length as usize, text.trim_end().len());
        }
        assert!(shown.next().is_none());
        placed += usize::from(old.comments_left > 0);
    }
    assert!(placed > 1_000, "{placed}");
}

/// From whatever state a call closes in the new mode, it leaves 0.
#[test]
fn every_accepted_closing_leaves_none() {
    let mut closed = 0;
    let lists = (0..3_000).flat_map(|index| {
        [generate::foot_case, generate::call_case]
            .map(|make| make(SEED, index))
    });
    for case in lists {
        let given = Given {
            source: &case.source,
            image: &case.image,
        };
        let mut world = case.world.clone();
        for one in &case.calls {
            let answer = calls::call(given, &mut world, *one);
            let Call::Layout(LayoutArgs {
                close: true,
                mode: NEW,
                ..
            }) = one
            else {
                continue;
            };
            if let Ok(Answer::LaidOut { comments_left, .. }) = answer {
                closed += 1;
                assert_eq!(comments_left, 0);
            }
        }
    }
    assert!(closed > 1_000, "{closed}");
}

/// 12 after what is wrong with the image, and before 15.
#[test]
fn a_whole_file_reads_one_table() {
    let bytes = examples::frame("const").unwrap();
    let frame = frame::split(&bytes).unwrap();
    let number = |image, width, mode| {
        let frame = Frame { image, ..frame };
        let choice = Choice {
            width,
            mode,
            ..Choice::REFERENCE
        };
        let run = program::format_as(frame, Widths::Supplied, choice);
        run.err().map_or(0, |refusal| refusal.number)
    };
    let cut = &frame.image[..frame.image.len() - 1];
    assert_eq!(number(cut, 39, 2), 3);
    assert_eq!(number(frame.image, 39, 2), 12);
    assert_eq!(number(frame.image, 39, NEW), 15);
    assert_eq!(number(frame.image, 40, usize::MAX), 12);
    assert_eq!(number(frame.image, 40, NEW), 0);
}

/// What `generate::foot_frame` is for is there.
#[test]
fn feet_are_of_every_sort() {
    let mut sorts = [0; 8];
    for index in 0..4_000 {
        let bytes = generate::foot_frame(SEED, index);
        let Ok(run) = in_mode(OLD, &bytes) else {
            continue;
        };
        let frame = frame::split_any_size(&bytes).unwrap();
        let read = earlier(frame);
        let comments = &read.comments;
        let left = &comments[run.closed.comments_placed..];
        let declared = run.stops.len() > 1;
        let length = frame.source.len();
        let before = |one: &Range<usize>| {
            read.source
                .get(run.closed.position..one.start)
                .unwrap_or("")
        };
        let found = [
            left.is_empty(),
            left.len() == 1,
            left.len() > 10,
            declared
                && left.first().is_some_and(|c| !before(c).contains('\n')),
            left.first()
                .is_some_and(|c| before(c).matches('\n').count() > 1),
            left.last().is_some_and(|c| c.end == length),
            !declared && !left.is_empty(),
            !left.is_sorted_by(|a, b| a.end <= b.start),
        ];
        for (count, found) in sorts.iter_mut().zip(found) {
            *count += usize::from(found);
        }
    }
    assert!(sorts.iter().all(|count| *count > 50), "{sorts:?}");
}
