//! Request 9: images without widths, the moves there and back, and what each
//! door says of them.

mod support;

use std::error::Error;

use rrufthim::{
    Batch, Cause, EncodeError, File, FormatError, Formatter, InParts,
    NO_SPAN, Options, Refusal, Version, Widths,
    archive::{self, MoveError, back, back_into, forward, forward_into},
    ast::*,
    calls::{LayoutState, ROW, RenderState, check, format_file, layout},
    encode, encode_as, encode_written, encode_written_as, figures,
    generator::{Builder, steps},
    kind,
    limits::{MAX_BODY, MAX_WIDTH},
    write_tree,
};
use support::{
    Buffers, JUNK, all, constants, list, list_tree, tariff, tariff_image,
    towns,
};

const HEADER: usize = 5;

/// The shebang's record of a file without comments, and a text's least bytes.
const SHEBANG: usize = 7 + 13;

fn by(widths: Widths) -> Options {
    Options::default().with_widths(widths)
}

fn shebang(text: &str) -> SyntaxTree {
    SyntaxTree {
        shebang: Some(text.into()),
        declarations: vec![],
    }
}

/// An image of version 1 in which each text has so many columns.
fn as_wide(tree: &SyntaxTree, columns: usize) -> Vec<u8> {
    let image = encode_written(|out| write_tree(out, tree, &[], |_| columns));
    image.expect("within the limits")
}

fn two(tree: &SyntaxTree) -> Vec<u8> {
    encode_as(Version::Two, tree, &[]).expect("within the limits")
}

fn refused(answer: Result<Vec<u8>, MoveError>) -> MoveError {
    answer.expect_err("it is refused")
}

#[test]
fn there_and_back() {
    let (tree, extras) = tariff();
    let one = tariff_image();
    let kept = forward(File::new(support::SOURCE, &one)).expect("moved");
    let file = File::new(support::SOURCE, &kept);
    assert_eq!(file.version(), Some(Version::Two));
    assert_eq!(back(file).expect("moved"), one);
    // The encoder writes the same.
    let written = encode_as(Version::Two, &tree, &extras.comments);
    assert_eq!(written.expect("within the limits"), kept);
    let texts = (one.len() - kept.len()) / 2;
    let names = steps(File::new(support::SOURCE, &one)).expect("its steps");
    let names = names.iter().filter(|step| {
        matches!(step, rrufthim::generator::Step::Text { .. })
    });
    assert_eq!(names.count(), texts);
}

#[test]
fn versions_have_their_first_bytes() {
    for (first, version) in [
        (0, None),
        (1, Some(Version::One)),
        (2, Some(Version::Two)),
        (3, None),
    ] {
        assert_eq!(Version::of(&[first, 9]), version);
    }
    assert_eq!(Version::of(&[]), None);
    assert_eq!(Version::default(), Version::One);
    assert_eq!(Version::Two.to_string(), "version 2");
    assert_eq!(two(&shebang(""))[0], 2);
    assert_eq!(as_wide(&shebang(""), 0)[0], 1);
}

/// The shebang counts without the blanks at its end, a name with them.
#[test]
fn the_shebang_is_trimmed() {
    for blanks in ["", "\n", " \t\r\n", "\u{3000}\u{3000}\n"] {
        let tree = shebang(&format!("#!/bin/roto{blanks}"));
        let one = as_wide(&tree, 11);
        assert_eq!(forward(File::new("", &one)), Ok(two(&tree)));
        assert_eq!(back(File::new("", &two(&tree))), Ok(one));
        let wrong = as_wide(&tree, 12);
        let error = refused(forward(File::new("", &wrong)));
        assert_eq!(error.refusal, Refusal::WrongWidth { at: SHEBANG });
        let words = "line 1, column 1: the shebang `#!/bin/roto` is stored \
            as 12 columns wide, and is 11 by Unicode 16.0";
        assert_eq!(error.to_string(), words);
    }
}

/// Which name, and where.
#[test]
fn a_wrong_width_is_named() {
    let source = "const A: u32 = 1;\nconst 日本: u32 = 1;\n";
    let tree = constants(source);
    let image = encode_written(|out| {
        // A character each, as some editors count.
        write_tree(out, &tree, &[], |text| text.chars().count())
    });
    let image = image.expect("within the limits");
    let error = refused(forward(File::new(source, &image)));
    let place = error.place.clone().expect("a place");
    assert_eq!((place.line, place.column), (2, 7));
    assert_eq!(&source[place.span], "日本");
    let words = "line 2, column 7: the name `日本` is stored as 2 columns \
        wide, and is 4 by Unicode 16.0";
    assert_eq!(error.to_string(), words);
    let text = error.text.as_ref().expect("a text");
    assert_eq!((&text.text[..], text.shebang), ("日本", false));
    assert_eq!((text.stored, text.due), (Some(2), 4));
    // Its source says the offset.
    let said = error.source().expect("the refusal").to_string();
    assert!(
        said.contains("text record's offset in the image: "),
        "{said}"
    );
}

/// A name of an image from a generator has no place in a source.
#[test]
fn a_name_without_a_span_has_no_place() {
    let mut builder = Builder::new();
    let build = |builder: &mut Builder| -> Result<Vec<u8>, Refusal> {
        builder.open(kind::TREE, NO_SPAN)?.absent()?;
        builder.open(kind::IMPORT, NO_SPAN)?;
        builder
            .open(kind::PATH, NO_SPAN)?
            .open(kind::TEXT, NO_SPAN)?;
        builder.text("a\nb", 9)?.close()?.close()?.absent()?;
        builder.close()?.close()?;
        builder.finish()
    };
    let image = build(&mut builder).expect("an image");
    let error = refused(forward(File::new("", &image)));
    assert_eq!(error.place, None);
    let words = "the name `a\\nb` is stored as 9 columns wide, and is 3 by \
        Unicode 16.0";
    assert_eq!(error.to_string(), words);
}

/// In version 2 a text may have any width; going back it may not.
#[test]
fn columns_over_two_bytes() {
    let most = "語".repeat(MAX_WIDTH / 2) + "n";
    let tree = shebang(&most);
    let kept = two(&tree);
    let one = back(File::new("", &kept)).expect("it just fits");
    assert_eq!(one, as_wide(&tree, MAX_WIDTH));
    assert_eq!(forward(File::new("", &one)), Ok(kept));

    let tree = shebang(&(most + "n"));
    let wide = encode_written(|out| {
        write_tree(out, &tree, &[], |text| text.chars().count() * 2)
    });
    assert!(matches!(wide, Err(EncodeError::TooWide { .. })), "{wide:?}");
    let error = refused(back(File::new("", &two(&tree))));
    assert_eq!(error.refusal, Refusal::WrongWidth { at: SHEBANG });
    let words = error.to_string();
    let start = "line 1, column 1: the shebang `語語";
    assert!(words.starts_with(start) && words.len() < 300, "{words}");
    let end = "…` is 65536 columns wide by Unicode 16.0, and an image of \
        version 1 stores at most 65535";
    assert!(words.ends_with(end), "{words}");
}

/// A body that has room without widths and not with them.
#[test]
fn the_largest_body() {
    // A comb of marks, which have no columns and two bytes each.
    let tree = |bytes: usize| shebang(&"\u{301}".repeat(bytes / 2));
    let empty = two(&tree(0)).len() - HEADER;
    let even = (MAX_BODY - empty - 2) & !1;
    let kept = two(&tree(even));
    let one = back(File::new("", &kept)).expect("it fits");
    assert!(one.len() <= HEADER + MAX_BODY && one.len() > MAX_BODY);
    let kept = two(&tree(even + 2));
    let needed = kept.len() + 2;
    let error = refused(back(File::new("", &kept)));
    assert_eq!(error.refusal, Refusal::MoreRoom { needed });
    let mut output = vec![JUNK; needed + 9];
    let answer = back_into(File::new("", &kept), &mut output);
    assert_eq!(answer, Err(Refusal::MoreRoom { needed }));
    assert!(output.iter().all(|byte| *byte == JUNK));
}

#[test]
fn a_refused_move_writes_nothing() {
    let one = tariff_image();
    let source = support::SOURCE;
    let kept = forward(File::new(source, &one)).expect("moved");
    type Into = fn(File<'_>, &mut [u8]) -> Result<usize, Refusal>;
    let ways: [(Into, &[u8], &[u8]); 2] =
        [(forward_into, &one, &kept), (back_into, &kept, &one)];
    for (into, from, to) in ways {
        let file = File::new(source, from);
        let needed = to.len();
        for room in [0, needed - 1] {
            let mut output = vec![JUNK; room];
            let answer = into(file, &mut output);
            assert_eq!(answer, Err(Refusal::MoreRoom { needed }));
            assert!(output.iter().all(|byte| *byte == JUNK));
        }
        let mut output = vec![JUNK; needed + 3];
        assert_eq!(into(file, &mut output), Ok(needed));
        assert_eq!(output[..needed], *to);
        assert_eq!(output[needed..], [JUNK; 3]);
        // The wrong version, and none.
        for image in [to, b"", b"\x01", b"\x02", b"\x03"] {
            let mut output = vec![JUNK; needed];
            let answer = into(File::new(source, image), &mut output);
            assert_eq!(answer, Err(Refusal::NoImage));
            assert!(output.iter().all(|byte| *byte == JUNK));
        }
        let bad = into(File::new(b"ab\xFF", from), &mut []);
        assert_eq!(bad, Err(Refusal::SourceNotUtf8 { at: 2 }));
    }
}

/// What else refuses a move is said as for a text.
#[test]
fn other_refusals_have_their_places() {
    let source = "const A: u32 = 1;\nconst B: u32 = 1;\n";
    let mut tree = constants(source);
    let error = refused(forward(File::new(source, &two(&tree))));
    assert_eq!(error.refusal, Refusal::NoImage);
    assert!(error.to_string().starts_with("the tree image's version"));
    let Some(Declaration::Const(last)) = tree.declarations.last_mut() else {
        panic!("two constants");
    };
    last.ident.span = 24..99;
    let error = refused(back(File::new(source, &two(&tree))));
    let words = error.to_string();
    assert!(
        words.starts_with("line 2, column 7: the tree has"),
        "{words}"
    );
    let error = refused(archive::back(File::new(b"ab\xFF", &[2])));
    assert!(
        error.to_string().starts_with("line 1, column 3: "),
        "{error}"
    );
}

/// Version 2 by the widths of Unicode 16.0 gives the text of version 1; by any
/// others each door says what to choose.
#[test]
fn every_door_asks_for_unicode_16() {
    let source = list(&towns(0));
    let tree = list_tree(&source);
    let (one, kept) = (as_wide(&tree, 7), two(&tree));
    let file = File::new(&source, &kept);
    let right = by(Widths::Unicode16_0);
    let mut formatter = Formatter::new().with_options(right.clone());
    let due = formatter.format_file(File::new(&source, &one));
    let due = due.expect("a text").text.to_owned();
    let got = formatter.format_file(file).expect("a text");
    assert_eq!(got.text, due);
    let batch = Batch::new()
        .with_options(right.clone())
        .format_files([file]);
    assert_eq!(batch[0].as_ref().expect("a text").text, due);
    let parts = InParts::new(file).expect("accepted").with_options(right);
    assert_eq!(all_parts(parts).expect("a text"), due);
    for widths in [Widths::Supplied, Widths::Unicode15_1] {
        let options = by(widths);
        formatter = formatter.with_options(options.clone());
        let alone = formatter.format_file(file).map(|_| ()).expect_err("20");
        let batch = Batch::new().with_options(options.clone());
        let batch = { batch }.format_files([file]).remove(0);
        let parts = InParts::new(file).expect("accepted");
        let parts = all_parts(parts.with_options(options.clone()));
        let errors = [alone, batch.expect_err("20"), parts.expect_err("20")];
        for error in errors {
            assert_eq!(error.cause, Cause::Refused(Refusal::BadRule));
            let words = "the tree image is of version 2, which has no \
                widths: choose those of Unicode 16.0, or move it back to \
                version 1";
            assert_eq!(error.to_string(), words);
        }
        calls_refuse(file, &options);
    }
}

fn all_parts(mut parts: InParts<'_>) -> Result<String, FormatError> {
    let mut text = String::new();
    while let Some(part) = parts.advance(1)? {
        text += part;
    }
    Ok(text)
}

/// 20 from every call, with nothing written.
fn calls_refuse(file: File<'_>, options: &Options) {
    let due = Refusal::BadRule;
    let mut store = [7; 40 * ROW];
    let fresh = LayoutState::default();
    let laid = layout(file, &mut store, &fresh, &all(1), options);
    assert_eq!(laid.expect_err("20"), due);
    assert!(store.iter().all(|number| *number == 7));
    let mut buffers = Buffers::ample();
    let fresh = RenderState::default();
    let rendered = buffers.render(file, &fresh, 0, options);
    assert_eq!(rendered.map(|_| ()), Err(due));
    let mut output = [JUNK; 99];
    let whole = format_file(file, options, &mut output);
    assert_eq!(whole.map(|_| ()), Err(due));
    assert_eq!(output, [JUNK; 99]);
}

/// The report counts as Roto's own formatter does, by supplied widths.
#[test]
fn the_report_counts_no_version_2() {
    let kept = two(&shebang("#!/x"));
    let file = File::new("", &kept);
    let mut report = figures::Report::default();
    let error = report.count(file).expect_err("without widths");
    assert_eq!(error.cause, Cause::Refused(Refusal::BadRule));
    assert_eq!(report.tallies().files, 0);
}

/// Steps are those of version 1.
#[test]
fn steps_are_of_version_1() {
    let kept = two(&shebang("#!/x"));
    let file = File::new("", &kept);
    assert!(check(file).is_ok());
    assert_eq!(steps(file), Err(file.error(Refusal::NoImage)));
    let one = back(file).expect("moved");
    assert!(steps(File::new("", &one)).is_ok());
}

/// What a plug writes, in version 2: widths aren't looked at.
#[test]
fn a_plug_may_write_version_2() {
    let (tree, extras) = tariff();
    let written = |width: usize| {
        encode_written_as(Version::Two, |out| {
            write_tree(out, &tree, &extras.comments, |_| width)
        })
    };
    let due = encode_as(Version::Two, &tree, &extras.comments);
    for width in [0, 5, usize::MAX] {
        assert_eq!(written(width), due);
    }
    // The encoder of before writes version 1.
    let one = encode(&tree, &extras.comments).expect("within the limits");
    assert_eq!(one[0], 1);
}
