//! Request 8: lines are measured by the widths of the image, or by an edition
//! of Unicode, through every door. Brokers in Japan saw lists wrapped that
//! fit.

mod support;

// The functions of the library as they are, for rules that have no name.
#[allow(dead_code)]
#[path = "../src/linked.rs"]
mod linked;

use rrufthim::{
    Batch, Cause, File, Formatter, InParts, Options, Refusal, Widths,
    ast::*,
    calls::{
        LayoutArgs, LayoutState, ROW, RenderState, columns, format_batch,
        format_file, layout,
    },
    encode, encode_written, fmt_written, simple_width, write_tree,
};

use support::{
    Buffers, JUNK, all, list, list_tree, tariff, tariff_image, towns,
};

const RULES: [Widths; 3] =
    [Widths::Supplied, Widths::Unicode15_1, Widths::Unicode16_0];

fn by(widths: Widths) -> Options {
    Options::default().with_widths(widths)
}

fn image(source: &str) -> Vec<u8> {
    encode(&list_tree(source), &[]).expect("within the limits")
}

fn text(source: &str, options: &Options) -> String {
    let formatted = fmt_written(source, options, |out| {
        write_tree(out, &list_tree(source), &[], simple_width)
    });
    formatted.expect("a text").text
}

/// How many columns a text really takes.
fn wide(text: &str) -> usize {
    columns(text.as_bytes(), Widths::Unicode16_0, 0)
}

/// What Japan's brokers saw, and what they may choose.
#[test]
fn a_list_that_fits_stays() {
    let source = list(&towns(0));
    assert_eq!(wide(source.trim_end()), 78);
    assert_eq!(source.trim_end().len(), 93);
    let wrapped = text(&source, &Options::default());
    assert_eq!(wrapped.lines().count(), 8, "{wrapped}");
    for widths in [Widths::Unicode15_1, Widths::Unicode16_0] {
        assert_eq!(text(&source, &by(widths)), source);
    }
}

/// A line ends at the width; the semicolon isn't counted.
#[test]
fn a_line_as_wide_as_chosen_stays() {
    for widths in [Widths::Unicode15_1, Widths::Unicode16_0] {
        for letters in 0..6 {
            let source = list(&towns(letters));
            let columns = wide(source.trim_end()) - 1;
            let stays = text(&source, &by(widths)) == source;
            assert_eq!(stays, columns <= 80, "{columns}");
            let options = by(widths).with_width(columns);
            assert_eq!(text(&source, &options), source);
            let options = by(widths).with_width(columns - 1);
            assert_ne!(text(&source, &options), source);
        }
    }
}

/// The hexagrams are wide in 16.0 and were not in 15.1.
#[test]
fn editions_differ() {
    let source = list(&[2, 3, 4, 5, 6].map(|n| "䷀".repeat(n)));
    let of = |widths| columns(source.trim_end().as_bytes(), widths, 0) - 1;
    assert_eq!(of(Widths::Unicode15_1), 67);
    assert_eq!(of(Widths::Unicode16_0), 87);
    assert_eq!(text(&source, &by(Widths::Unicode15_1)), source);
    assert_ne!(text(&source, &by(Widths::Unicode16_0)), source);
    let wider = by(Widths::Unicode16_0).with_width(87);
    assert_eq!(text(&source, &wider), source);
}

/// By an edition names have their sums, and what the image says isn't looked
/// at.
#[test]
fn names_are_measured_too() {
    let source = list(&towns(0));
    let said = |columns: usize| {
        encode_written(|out| {
            write_tree(out, &list_tree(&source), &[], |_| columns)
        })
    };
    let mut formatter = Formatter::new();
    for columns in [0, 1, 1_000, 65_535] {
        let image = said(columns).expect("within the limits");
        let file = File::new(&source, &image);
        for widths in [Widths::Unicode15_1, Widths::Unicode16_0] {
            formatter = formatter.with_options(by(widths));
            let formatted = formatter.format_file(file).expect("a text");
            assert_eq!(formatted.text, source);
        }
        let wide = by(Widths::Supplied).with_width(200);
        formatter = formatter.with_options(wide);
        let formatted = formatter.format_file(file).expect("a text");
        assert_eq!(formatted.text == source, columns < 100, "{columns}");
    }
}

/// Where each character takes a column and a byte, the rules are the same.
#[test]
fn the_rules_agree_on_ascii() {
    let (tree, extras) = tariff();
    let formatted = |widths| {
        fmt_written(support::SOURCE, &by(widths), |out| {
            write_tree(out, &tree, &extras.comments, simple_width)
        })
    };
    let due = formatted(Widths::Supplied).expect("a text");
    for widths in RULES {
        assert_eq!(formatted(widths).expect("a text"), due);
    }
}

#[test]
fn the_default_is_the_reference() {
    let source = list(&towns(0));
    let due = text(&source, &by(Widths::Supplied));
    assert_eq!(text(&source, &Options::default()), due);
    assert_eq!(Options::default(), by(Widths::Supplied));
    assert_eq!(Options::AS_ROTO.widths, Widths::default());
}

/// The doors agree on the text, and the states carry the choice.
#[test]
fn every_door_takes_the_rule() {
    let source = list(&towns(0));
    let image = image(&source);
    let file = File::new(&source, &image);
    let mut output = vec![JUNK; 4_000];
    for (place, widths) in RULES.into_iter().enumerate() {
        let options = by(widths);
        let due = text(&source, &options);
        let mut formatter = Formatter::new().with_options(options.clone());
        let got = formatter.format_file(file).expect("a text");
        assert_eq!(got.text, due);
        let tree = list_tree(&source);
        let got = formatter.format_tree(&tree, &source, &Extras::default());
        assert_eq!(got.expect("a text").text, due);
        let written = format_file(file, &options, &mut output);
        let bytes = written.expect("a text").bytes;
        assert_eq!(&output[..bytes], due.as_bytes());
        let mut batch = Batch::new().with_options(options.clone());
        for answer in batch.format_files([file, file]) {
            assert_eq!(answer.expect("a text").text, due);
        }
        let parts = InParts::new(file).expect("accepted");
        let mut parts = parts.with_options(options);
        let mut text = String::new();
        while let Some(part) = parts.advance(1).expect("a part") {
            text.push_str(part);
        }
        assert_eq!(text, due);
        assert_eq!(parts.layout_state().rule, place + 1);
        assert_eq!(parts.render_state().rule, place + 1);
    }
}

/// A file with more rows than a batch has for one gets the same rule.
#[test]
fn a_batch_keeps_the_rule_for_large_files() {
    let source = list(&vec!["東京".to_owned(); 800]);
    let image = image(&source);
    let file = File::new(&source, &image);
    for widths in RULES {
        let mut batch = Batch::new().with_options(by(widths));
        let answers = batch.format_files([file]);
        let got = answers[0].as_ref().expect("a text");
        assert_eq!(got.text, text(&source, &by(widths)));
    }
}

/// One rule for the layout of a run and one for its rendering, those of the
/// first accepted calls; an empty call chooses too. 12 refuses another one.
#[test]
fn a_run_has_one_rule() {
    let source = list(&towns(0));
    let image = image(&source);
    let file = File::new(&source, &image);
    let mut buffers = Buffers::ample();
    for widths in RULES {
        let none = LayoutArgs::up_to(0);
        let store = &mut buffers.store;
        let fresh = LayoutState::default();
        let begun = layout(file, store, &fresh, &none, &by(widths));
        let begun = begun.expect("accepted").state;
        let fresh = RenderState::default();
        let drawn = buffers.render(file, &fresh, 0, &by(widths));
        let drawn = drawn.expect("accepted").state;
        for other in RULES {
            let due = match other == widths {
                true => Ok(()),
                false => Err(Refusal::BadState),
            };
            let store = &mut buffers.store;
            let laid = layout(file, store, &begun, &all(1), &by(other));
            assert_eq!(laid.map(drop), due);
            let rendered = buffers.render(file, &drawn, 0, &by(other));
            assert_eq!(rendered.map(drop), due);
        }
        // No call left such states.
        for rule in [4, usize::MAX] {
            let mut state = begun.clone();
            state.rule = rule;
            let store = &mut buffers.store;
            let laid = layout(file, store, &state, &all(1), &by(widths));
            assert_eq!(laid, Err(Refusal::BadState));
            let mut state = drawn.clone();
            state.rule = rule;
            let rendered = buffers.render(file, &state, 0, &by(widths));
            assert_eq!(rendered, Err(Refusal::BadState));
        }
    }
    let mut early = LayoutState::default();
    early.rule = 1;
    let store = &mut buffers.store;
    let laid = layout(file, store, &early, &all(1), &Options::default());
    assert_eq!(laid, Err(Refusal::BadState));
}

/// Layout and rendering choose by themselves: a name is as wide as layout
/// wrote it, a literal as rendering measures it.
#[test]
fn layout_and_rendering_choose_by_themselves() {
    let source = list(&towns(0));
    let image = image(&source);
    let file = File::new(&source, &image);
    let mut buffers = Buffers::ample();
    for laid_by in RULES {
        let (fresh, store) = (LayoutState::default(), &mut buffers.store);
        let laid = layout(file, store, &fresh, &all(1), &by(laid_by));
        let rows = laid.expect("accepted").state.next_row;
        let before = buffers.store.clone();
        for widths in RULES {
            let fresh = RenderState::default();
            let written = buffers.render(file, &fresh, rows, &by(widths));
            let written = written.expect("accepted");
            let text = &buffers.output[..written.bytes];
            let wraps = widths == Widths::Supplied;
            assert_eq!(text != source.as_bytes(), wraps);
            assert_eq!(buffers.store, before);
        }
    }
}

/// A text of a row that cuts a character has no sum: 11, by an edition alone.
/// The first row that isn't whole is named.
#[test]
fn texts_of_rows_are_whole() {
    let source = list(&towns(0));
    let image = image(&source);
    let file = File::new(&source, &image);
    let mut buffers = Buffers::ample();
    let (fresh, store) = (LayoutState::default(), &mut buffers.store);
    let laid = layout(file, store, &fresh, &all(1), &by(RULES[2]));
    let rows = laid.expect("accepted").state.next_row;
    let literal = source.find('東').expect("a town") - 1;
    let start = |row: &[u32]| row[5] == 0 && row[6] as usize == literal;
    let mut texts = buffers.store.chunks(ROW);
    let row = texts.position(start).expect("the literal's row");
    // Without its last byte and the quote behind it.
    buffers.store[row * ROW + 7] -= 2;
    let laid = buffers.clone();
    for widths in RULES {
        let fresh = RenderState::default();
        let got = buffers.render(file, &fresh, rows, &by(widths));
        if widths == Widths::Supplied {
            assert!(got.is_ok());
            buffers = laid.clone();
        } else {
            assert_eq!(got, Err(Refusal::BadRow { row }));
            assert_eq!(buffers, laid);
        }
    }
}

/// By an edition rendering looks at the source as the reader does.
#[test]
fn rendering_tests_the_source() {
    let image = tariff_image();
    let (fresh, mut none) = (RenderState::default(), Buffers::new(0, 0, 0));
    for (image, supplied) in
        [(&image[..], Ok(0)), (&[], Err(Refusal::NoImage))]
    {
        let file = File::new(b"ab\xFF", image);
        for widths in RULES {
            let got = none.render(file, &fresh, 0, &by(widths));
            let got = got.map(|written| written.bytes);
            match widths {
                Widths::Supplied => assert_eq!(got, supplied),
                _ => {
                    let due = Refusal::SourceNotUtf8 { at: 2 };
                    assert_eq!(got, Err(due));
                }
            }
        }
    }
}

#[test]
fn texts_have_their_columns() {
    for (text, old, new) in [
        ("", 0, 0),
        ("rate", 4, 4),
        ("größe", 5, 5),
        ("日本語", 6, 6),
        ("ﾊﾝｶｸ", 4, 4),
        ("e\u{301}tat", 4, 4),
        ("\u{302A}", 2, 2),
        ("\u{4DC0}\u{1171E}\u{897}", 2, 3),
        ("a\tb\nc", 5, 5),
    ] {
        let bytes = text.as_bytes();
        assert_eq!(columns(bytes, Widths::Unicode15_1, 77), old, "{text}");
        assert_eq!(columns(bytes, Widths::Unicode16_0, 77), new, "{text}");
        for supplied in [0, 77, usize::MAX] {
            let got = columns(bytes, Widths::Supplied, supplied);
            assert_eq!(got, supplied, "{text}");
        }
    }
    // Up to what is no character.
    assert_eq!(columns(b"ab\xFFcd", Widths::Unicode15_1, 0), 2);
    assert_eq!(columns(b"\xE6\x97", Widths::Unicode16_0, 0), 0);
}

/// What has no name here is refused by 20, at 0 and before all else.
#[test]
fn other_rules_are_refused() {
    const DUE: [u64; 2] = [20, 0];
    for rule in [0, 4, 1 << 32, (1 << 32) + 1, u64::MAX] {
        let mut out = [7; 11];
        let (none, args) = (&mut [], [9, 9, 9, rule]);
        linked::layout(b"\xFF", b"", none, &[9; 9], &args, &mut out);
        assert_eq!(out[..2], DUE);
        let mut out = [7; 267];
        let (none, args) = (&mut [], [9, 9, rule, 9]);
        linked::render(
            b"\xFF",
            b"",
            none,
            &mut [],
            &mut [],
            &[9; 264],
            &args,
            &mut out,
        );
        assert_eq!(out[..2], DUE);
        let (mut out, choice) = ([7; 5], [9, 9, rule]);
        linked::format(b"\xFF", b"", &choice, &mut [], &mut out);
        assert_eq!(out[..2], DUE);
        let mut out = [7; 2];
        linked::columns(b"\xFF", rule, 5, &mut out);
        assert_eq!(out, DUE);
        // A batch has it in the rows of its table.
        let (mut out, mut table) = ([7; 3], [7; 6]);
        let frames = [0; 16];
        linked::batch(&frames, &choice, &mut table, &mut [], &mut out);
        assert_eq!((out, table), ([0, 2, 0], [20, 0, 0, 20, 0, 0]));
    }
    let words = Refusal::BadRule.to_string();
    assert!(words.contains("rule of widths"), "{words}");
}

/// The call over frames, with a rule.
#[test]
fn a_batch_of_frames_has_the_rule() {
    let source = list(&towns(0));
    let image = image(&source);
    let lengths = [source.len(), image.len()];
    let mut frames = Vec::new();
    for length in lengths {
        frames.extend((length as u32).to_be_bytes());
    }
    frames.extend(source.as_bytes());
    frames.extend(&image);
    for widths in RULES {
        let (mut table, mut output) = ([0; 3], [JUNK; 1_000]);
        let options = &by(widths);
        let written = format_batch(&frames, options, &mut table, &mut output);
        let bytes = written.expect("a text").bytes;
        assert_eq!(output[..bytes], *text(&source, options).as_bytes());
    }
}

/// The formatter that a thread keeps doesn't keep its options, and another
/// choice for a run is refused.
#[test]
fn a_choice_is_for_one_call() {
    let source = list(&towns(0));
    let due = text(&source, &Options::default());
    assert_ne!(text(&source, &by(Widths::Unicode15_1)), due);
    assert_eq!(text(&source, &Options::default()), due);
    let image = image(&source);
    let file = File::new(&source, &image);
    let mut parts = InParts::new(file).expect("accepted");
    parts.lay_out(0).expect("nothing yet");
    let mut parts = parts.with_options(by(Widths::Unicode16_0));
    let error = parts.advance(1).expect_err("another rule");
    assert_eq!(error.cause, Cause::Refused(Refusal::BadState));
}
