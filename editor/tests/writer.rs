//! Images written record by record.

use rrufthim::{
    EncodeError, File, ImageWriter, NO_SPAN, Refusal, WriteResult,
    calls::check,
    encode_written as written, kind,
    limits::{MAX_BODY, MAX_COMMENTS, MAX_DEPTH, MAX_SOURCE, MAX_WIDTH},
};

/// `const A: ! = true;` with each sort of record that there is.
fn constant(out: &mut ImageWriter<'_>) -> WriteResult {
    out.comments([0..1].into_iter())?;
    let tree = out.open(kind::TREE, NO_SPAN)?;
    out.absent();
    let constant = out.open(kind::CONST, NO_SPAN)?;
    out.text(6..7, "A", 1)?;
    out.leaf(kind::NEVER, 9..10)?;
    let value = out.open(kind::LITERAL_EXPR, 13..17)?;
    out.choice(kind::LITERAL, 13..17, 1)?;
    out.close(value)?;
    out.close(constant)?;
    out.close(tree)
}

#[test]
fn records_have_their_lengths() {
    let image = written(constant).expect("an image");
    let due = [
        &[1, 0, 0, 0, 96, 0, 1, 0, 0, 0, 0, 0, 0, 0, 1][..],
        &[0, 0, 0, 82, 1, 0, 0, 0, 0, 0, 0, 0, 0, 0, 0, 0, 0],
        &[0, 0, 0, 65, 11, 0, 0, 0, 0, 0, 0, 0, 0],
        &[0, 0, 0, 12, 2, 0, 0, 0, 6, 0, 0, 0, 7, 0, 1, b'A'],
        &[0, 0, 0, 9, 42, 0, 0, 0, 9, 0, 0, 0, 10],
        &[0, 0, 0, 23, 51, 0, 0, 0, 13, 0, 0, 0, 17],
        &[0, 0, 0, 10, 87, 0, 0, 0, 13, 0, 0, 0, 17, 1],
    ];
    let due: Vec<u8> = due.concat();
    assert_eq!(image, due);
    let accepted = check(File::new("const A: ! = true;", &image));
    let accepted = accepted.expect("accepted");
    assert_eq!((accepted.comments, accepted.declarations), (1, 1));
}

/// What a buffer held is dropped.
#[test]
fn a_buffer_is_written_anew() {
    let mut image = vec![7; 100];
    let mut out = ImageWriter::new(&mut image);
    constant(&mut out)
        .and_then(|()| out.finish())
        .expect("an image");
    assert_eq!(written(constant), Ok(image));
}

/// A payload byte stands before the children.
#[test]
fn a_record_with_payload_and_child() {
    let image = written(|out| {
        let record = out.open(kind::RETURN, 0..1)?;
        out.byte(2);
        out.leaf(kind::UNIT, 0..1)?;
        out.close(record)
    });
    let image = image.expect("an image");
    assert_eq!(image[5..10], [0, 0, 0, 23, 50]);
    assert_eq!(image[18], 2);
}

#[test]
#[allow(clippy::reversed_empty_ranges)]
fn each_record_is_tested() {
    for span in [2..1, 0..MAX_SOURCE + 1, usize::MAX..usize::MAX] {
        let due = Err(EncodeError::BadSpan { span: span.clone() });
        let leaf = written(|out| out.leaf(kind::NEVER, span.clone()));
        let choice =
            written(|out| out.choice(kind::LITERAL, span.clone(), 0));
        let text = written(|out| out.text(span.clone(), "A", 1));
        let open = written(|out| {
            let record = out.open(kind::TREE, span.clone())?;
            out.close(record)
        });
        assert_eq!(
            [leaf, choice, text, open],
            [due.clone(), due.clone(), due.clone(), due]
        );
    }
    let wide = written(|out| out.text(1..2, "A", MAX_WIDTH + 1));
    let (span, width) = (1..2, MAX_WIDTH + 1);
    assert_eq!(wide, Err(EncodeError::TooWide { span, width }));
    let count = MAX_COMMENTS + 1;
    let many = written(|out| out.comments(vec![0..1; count].into_iter()));
    assert_eq!(many, Err(EncodeError::TooManyComments { count }));
}

/// Records in records, and a leaf in the last.
fn nested(depth: usize) -> Result<Vec<u8>, EncodeError> {
    written(|out| {
        let mut open = Vec::new();
        for _ in 1..depth {
            open.push(out.open(kind::PARENTHESES, 0..0)?);
        }
        out.leaf(kind::NEVER, 3..4)?;
        open.into_iter()
            .rev()
            .try_for_each(|record| out.close(record))
    })
}

#[test]
fn depth_is_counted() {
    assert!(nested(MAX_DEPTH).is_ok());
    let error = nested(MAX_DEPTH + 1).expect_err("too deep");
    assert_eq!(error, EncodeError::TooDeep { span: 3..4 });
}

/// Wherever a record is left open, the image is refused at it.
#[test]
fn a_record_left_open_is_refused() {
    for left_open in 0..3 {
        let image = written(|out| {
            out.comments([].into_iter())?;
            let mut open = Vec::new();
            let kinds = [kind::TREE, kind::IMPORT, kind::LIST];
            for (place, kind) in kinds.into_iter().enumerate() {
                if place == 2 {
                    out.absent();
                }
                open.push(out.open(kind, NO_SPAN)?);
                if place == 0 {
                    out.absent();
                }
            }
            while let Some(record) = open.pop() {
                if open.len() != left_open {
                    out.close(record)?;
                }
            }
            Ok(())
        });
        let at = [7, 7 + 17, 7 + 17 + 17][left_open];
        let image = image.expect("an image");
        let refusal = check(File::new("", &image));
        assert_eq!(refusal, Err(Refusal::BadRecord { at }));
    }
}

#[test]
fn length_is_counted() {
    let filled = |bytes| {
        written(|out| {
            (0..bytes).for_each(|_| out.byte(0));
            Ok(())
        })
    };
    assert!(filled(MAX_BODY).is_ok());
    assert_eq!(filled(MAX_BODY + 1), Err(EncodeError::TooLong));
    let text = "x".repeat(MAX_BODY - 15);
    assert!(written(|out| out.text(0..0, &text, 1)).is_ok());
    let text = text + "x";
    let error = written(|out| out.text(0..0, &text, 1));
    assert_eq!(error, Err(EncodeError::TooLong));
}
