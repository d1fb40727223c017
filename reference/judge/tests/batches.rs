//! Request 7 of document 02: a buffer's files, its table and texts, and
//! refusals 18 and 19.

use std::collections::{BTreeMap, BTreeSet};

use judge::{
    batch::{Batched, Cause, Fault, MOST_FILES, batch, split},
    choice::Choice,
    examples,
    frame::{framed, split_any_size},
    generate::{self, BatchCase},
    image::{self, node},
    program::{self, Widths},
    refusal::{Refusal, refusal},
    rule, script,
};

/// What every batch here has room in.
const AMPLE: usize = 1 << 24;

fn known(name: &str) -> Vec<u8> {
    let frame = examples::frame(name).expect("known");
    framed(split_any_size(&frame).expect("a frame"))
}

/// The worked files, in a row.
fn buffer(names: &[&str]) -> Vec<u8> {
    names.iter().flat_map(|name| known(name)).collect()
}

fn answer(buffer: &[u8], width: usize, mode: usize) -> Batched {
    let choice = Choice {
        width,
        mode,
        ..Choice::REFERENCE
    };
    batch(buffer, choice, AMPLE, AMPLE).expect("room")
}

fn refused(buffer: &[u8]) -> Refusal {
    let answer = batch(buffer, Choice::REFERENCE, AMPLE, AMPLE);
    answer.expect_err("refused")
}

#[test]
fn rows_and_texts_in_a_row() {
    let frames = buffer(&["shebang", "version-3", "const-comment"]);
    let old = answer(&frames, 80, 0);
    assert_eq!(old.table, [0, 0, 6, 3, 0, 0, 0, 0, 18]);
    assert_eq!(old.texts, b"#!/x\n\nconst A: u32 = 1;\n");
    let new = answer(&frames, 80, 1);
    assert_eq!(new.table, [0, 0, 6, 3, 0, 0, 0, 0, 23]);
    assert_eq!(new.texts, b"#!/x\n\nconst A: u32 = 1; # ok\n");
    assert_eq!((old.files(), new.files()), (3, 3));
}

#[test]
fn refused_files_first_last_and_all() {
    let [bad, a, b] = ["version-3", "const", "two-consts"];
    let due_a = b"const A: u32 = 1;\n";
    let due_b = b"const A: u32 = 1; # ok\nconst B: u32 = 2;\n";
    let both = [&due_a[..], due_b].concat();
    for (names, table) in [
        ([bad, a, b], [3, 0, 0, 0, 0, 18, 0, 0, 41]),
        ([a, bad, b], [0, 0, 18, 3, 0, 0, 0, 0, 41]),
        ([a, b, bad], [0, 0, 18, 0, 0, 41, 3, 0, 0]),
    ] {
        let got = answer(&buffer(&names), 80, 0);
        assert_eq!((&got.table[..], &got.texts), (&table[..], &both));
    }
    // A first byte 2 under this rule.
    let two = answer(&buffer(&[a, "version-2", b]), 80, 0);
    assert_eq!(two.table, [0, 0, 18, 20, 0, 0, 0, 0, 41]);
    assert_eq!(two.texts, both);
    let none = answer(&buffer(&[bad; 3]), 80, 0);
    assert_eq!(none.table, [3, 0, 0, 3, 0, 0, 3, 0, 0]);
    assert!(none.texts.is_empty());
}

/// An empty buffer is a batch of no file, and needs neither table nor output.
#[test]
fn no_file() {
    let none = batch(&[], Choice::REFERENCE, 0, 0);
    assert_eq!(none, Ok(Batched::default()));
}

#[test]
fn a_bad_choice_is_in_each_row() {
    let rows = |names: &[&str], width, mode| -> Vec<u32> {
        let got = answer(&buffer(names), width, mode);
        assert!(got.texts.is_empty());
        got.table
    };
    let names = ["const", "version-3", "nothing"];
    for width in [0, 39, 201, usize::MAX, (1 << 32) + 80] {
        assert_eq!(rows(&names, width, 1), [15, 0, 0, 3, 0, 0, 15, 0, 0]);
    }
    for mode in [2, usize::MAX, 1 << 32] {
        assert_eq!(rows(&names, 80, mode), [12, 0, 0, 3, 0, 0, 12, 0, 0]);
    }
    // 12 before 15.
    assert_eq!(rows(&["const"], 39, 2), [12, 0, 0]);
    assert_eq!(rows(&[], 39, 2), []);
}

/// 20 in each row, before the file's own refusals and those of the choice.
#[test]
fn a_bad_rule_is_in_each_row() {
    let frames = buffer(&["const", "version-3", "nothing"]);
    for rule in [0, 4, 1 << 32, usize::MAX, (1 << 32) + 1] {
        for (width, mode) in [(80, 0), (39, 2)] {
            let choice = Choice { width, mode, rule };
            let got = batch(&frames, choice, AMPLE, AMPLE).expect("room");
            assert_eq!(got.table, [20, 0, 0, 20, 0, 0, 20, 0, 0]);
            assert!(got.texts.is_empty());
            let none = batch(&[], choice, 0, 0).expect("room");
            assert_eq!(none.files(), 0);
            // 18 is of the buffer.
            let cut = batch(&frames[..9], choice, AMPLE, AMPLE);
            assert_eq!(cut, Err(refusal(18, 0)));
        }
    }
}

/// Each file is measured by the rule.
#[test]
fn a_rule_is_for_each_file() {
    let list = "const a: b = [\"東京都港区\", \"東京都港区\", \"東京都港区\", \
        \"東京都港区\"];\n";
    let bytes = script::frame(list).expect("a script");
    let file = framed(split_any_size(&bytes).expect("a frame"));
    let frames = [file.clone(), known("const"), file].concat();
    let texts = |rule| {
        let choice = Choice {
            rule,
            ..Choice::REFERENCE
        };
        let got = batch(&frames, choice, AMPLE, AMPLE).expect("room");
        String::from_utf8(got.texts).expect("a text")
    };
    for rule in [rule::UNICODE_15_1, rule::UNICODE_16_0] {
        assert_eq!(texts(rule), [list, "const A: u32 = 1;\n", list].concat());
    }
    assert_eq!(texts(rule::SUPPLIED).lines().count(), 6 + 1 + 6);
}

/// The sizes of a file: 8 behind 12 and 15, and 10 in no row.
#[test]
fn sizes_of_files() {
    let of_size = |name: &str| {
        let mut sizes = generate::size_cases().iter();
        let case = sizes.find(|case| case.name == name).expect("a size");
        framed(judge::frame::Frame {
            source: &case.source,
            image: &case.image,
        })
    };
    let rows = of_size("1801 rows");
    assert_eq!(answer(&rows, 80, 0).table, [8, 1_801, 0]);
    assert_eq!(answer(&rows, 39, 0).table, [15, 0, 0]);
    assert_eq!(answer(&rows, 80, 2).table, [12, 0, 0]);
    assert_eq!(answer(&of_size("1800 rows"), 80, 0).table[0], 0);
    let long = answer(&of_size("output of 65537 bytes"), 80, 0);
    assert_eq!(long.table, [0, 0, 65_537]);
    let source = of_size("source of 65537 bytes");
    assert_eq!(answer(&source, 80, 0).table, [1, 0, 0]);
}

#[test]
fn table_then_output() {
    let frames = buffer(&["const", "version-3", "two-consts"]);
    let [cells, bytes] = [9, 18 + 41];
    let in_room = |cells, room| {
        let answer = batch(&frames, Choice::REFERENCE, cells, room);
        answer.map(|batched| batched.texts.len())
    };
    assert_eq!(in_room(cells, bytes), Ok(bytes));
    assert_eq!(in_room(cells + 1, bytes + 1), Ok(bytes));
    assert_eq!(in_room(cells - 1, bytes), Err(refusal(19, cells)));
    assert_eq!(in_room(cells, bytes - 1), Err(refusal(19, bytes)));
    assert_eq!(in_room(cells - 1, bytes - 1), Err(refusal(19, cells)));
    assert_eq!(in_room(0, 0), Err(refusal(19, cells)));
    assert_eq!(in_room(cells, 0), Err(refusal(19, bytes)));
    assert_eq!(in_room(0, AMPLE), Err(refusal(19, cells)));
    // 18 comes first.
    let cut = &frames[..frames.len() - 1];
    let at = known("const").len() + known("version-3").len();
    let answer = batch(cut, Choice::REFERENCE, 0, 0);
    assert_eq!(answer, Err(refusal(18, at)));
}

/// A buffer that ends anywhere inside its frames.
#[test]
fn frames_cut_off() {
    let one = known("const-comment");
    let source = "const A: u32 = 1; # ok\n".len();
    for length in 1..one.len() {
        let cause = match length {
            1..8 => Cause::HeadCutOff,
            _ if length < 8 + source => Cause::SourcePastEnd,
            _ => Cause::ImagePastEnd,
        };
        let fault = |place| Err(Fault { cause, place });
        let first = split(&one[..length]).map(|files| files.len());
        assert_eq!(first, fault(0), "{length}");
        let later = [&one, &one[..length]].concat();
        let later = split(&later).map(|files| files.len());
        assert_eq!(later, fault(one.len()), "{length}");
    }
    let behind = [&one[..], &[0]].concat();
    assert_eq!(refused(&behind), refusal(18, one.len()));
}

/// A frame with these lengths, and so many bytes behind them.
fn with_lengths(source: u32, image: u32, bytes: usize) -> Vec<u8> {
    let lengths = [source.to_be_bytes(), image.to_be_bytes()].concat();
    [lengths, vec![0; bytes]].concat()
}

#[test]
fn lengths_near_the_largest() {
    let most = u32::MAX;
    for (source, image) in [
        (most, 0),
        (0, most),
        (most, most),
        (most, 1),
        (1, most),
        (most - 7, 8),
        (most - 15, 16),
        (8, most - 7),
        (1 << 31, 1 << 31),
        (11, 0),
        (0, 11),
        (5, 6),
    ] {
        let wrong = with_lengths(source, image, 10);
        assert_eq!(refused(&wrong), refusal(18, 0), "{source} {image}");
        let good = known("const");
        let second = [&good[..], &wrong].concat();
        assert_eq!(refused(&second), refusal(18, good.len()));
    }
    let fits = answer(&with_lengths(10, 0, 10), 80, 0);
    assert_eq!(fits.table, [3, 0, 0]);
}

#[test]
fn the_first_at_fault_of_two() {
    let good = known("const");
    let wrong = with_lengths(0, 1_000, 0);
    let frames = [&good[..], &wrong, &good, &with_lengths(9, 9, 0)].concat();
    assert_eq!(refused(&frames), refusal(18, good.len()));
}

#[test]
fn as_many_files_as_there_may_be() {
    let one = known("const");
    let mut frames = one.repeat(MOST_FILES);
    let all = answer(&frames, 80, 0);
    assert_eq!(all.table, [0, 0, 18].repeat(256));
    assert_eq!(all.texts, b"const A: u32 = 1;\n".repeat(256));
    // One more, whole or not, is at fault.
    let place = frames.len();
    for more in [&one[..], &[0; 8], &[0]] {
        frames.truncate(place);
        frames.extend(more);
        let cause = Cause::TooMany;
        let found = split(&frames).map(|files| files.len());
        assert_eq!(found, Err(Fault { cause, place }));
    }
    // A fault before it comes first.
    let at = 99 * one.len();
    frames[at..at + 4].fill(255);
    assert_eq!(refused(&frames), refusal(18, at));
}

/// Each row and text is what the program makes of the file by itself, but for
/// 10.
#[test]
fn generated_batches_are_single_runs() {
    let mut refusals: BTreeMap<u32, usize> = BTreeMap::new();
    for index in 0..150 {
        let BatchCase { buffer, .. } = generate::batch_case(7, index);
        let Ok(files) = split(&buffer) else { continue };
        let got = answer(&buffer, 80, 0);
        let mut texts = &got.texts[..];
        let rows = got.table.chunks_exact(3);
        assert_eq!(rows.len(), files.len());
        for (file, row) in files.into_iter().zip(rows) {
            *refusals.entry(row[0]).or_default() += 1;
            let run = program::within_limits(file, Widths::Supplied);
            let (text, behind) = texts.split_at(row[2] as usize);
            texts = behind;
            match run {
                Ok(run) => {
                    assert_eq!(row[..2], [0, 0]);
                    assert_eq!(text, run.text.as_bytes());
                }
                Err(Refusal { number: 10, place }) => {
                    assert_eq!(*row, [0, 0, place as u32]);
                }
                Err(Refusal { number, place }) => {
                    let number = number.into();
                    assert_eq!(*row, [number, place as u32, 0]);
                }
            }
        }
        assert!(texts.is_empty());
    }
    for number in [0, 2, 3, 4, 6, 7, 8] {
        assert!(refusals.contains_key(&number), "{refusals:?}");
    }
}

/// Generated batches reach each cause of 18, and every count that matters.
#[test]
fn generated_batches_reach_all() {
    let mut causes = BTreeMap::new();
    let mut counts = BTreeSet::new();
    let mut choices = BTreeSet::new();
    let mut rules = BTreeSet::new();
    for index in 0..1_500 {
        let BatchCase { buffer, choice } = generate::batch_case(7, index);
        match split(&buffer) {
            Ok(files) => {
                counts.insert(files.len());
            }
            Err(fault) => *causes.entry(fault.cause).or_insert(0) += 1,
        }
        let refused = rule::check(choice.rule).and(choice.check()).err();
        choices.insert(refused.map(|refusal| refusal.number));
        rules.insert(choice.rule);
    }
    for (cause, name) in Cause::ALL {
        assert!(causes.get(&cause) > Some(&4), "{name}: {causes:?}");
    }
    for count in [0, 1, 2, 9, 40, 255, 256] {
        assert!(counts.contains(&count), "{count}: {counts:?}");
    }
    let due = [None, Some(12), Some(15), Some(20)];
    assert_eq!(choices, BTreeSet::from(due));
    let due = BTreeSet::from([0, 1, 2, 3, 4, 1 << 32, usize::MAX]);
    assert!(rules.is_superset(&due), "{rules:?}");
}

#[test]
fn batches_are_made_anew() {
    for index in 0..10 {
        let [one, same] = [(); 2].map(|()| generate::batch_case(7, index));
        assert_eq!((one.buffer, one.choice), (same.buffer, same.choice));
    }
    let other = |seed| generate::batch_case(seed, 3).buffer;
    assert_ne!(other(7), other(8));
}

/// The fixed list: names of their own, every cause of 18, every number that
/// refuses a file, all in all.
#[test]
fn the_fixed_list_reaches_all() {
    let mut names = BTreeSet::new();
    let mut causes = BTreeSet::new();
    let mut numbers = BTreeSet::new();
    for case in generate::fixed_batches() {
        assert!(names.insert(&case.name), "{}", case.name);
        let BatchCase { buffer, choice } = &case.batch;
        match split(buffer) {
            Err(fault) => {
                causes.insert(fault.cause);
            }
            Ok(_) => {
                let got = batch(buffer, *choice, AMPLE, AMPLE).expect("room");
                numbers.extend(got.table.chunks(3).map(|row| row[0]));
            }
        }
    }
    assert_eq!(causes.len(), Cause::ALL.len());
    let due = [0, 1, 2, 3, 4, 5, 6, 7, 8, 12, 15, 20];
    assert_eq!(numbers, BTreeSet::from(due));
}

/// A source and an image that end exactly where the buffer does.
#[test]
fn whole_frames_end_with_the_buffer() {
    let image = image::write(&[], &node(1, 0..0, [None]));
    let length = image.len() as u32;
    let frame = [&with_lengths(0, length, 0)[..], &image].concat();
    assert_eq!(answer(&frame, 80, 0).table, [0, 0, 0]);
    let source = [&with_lengths(3, length, 3)[..], &image].concat();
    assert_eq!(answer(&source, 80, 0).table, [0, 0, 0]);
}
