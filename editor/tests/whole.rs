//! Whole files: one call for small ones, two for others, and the number of
//! declarations that the two need.

mod support;

use rrufthim::{
    File, Formatter, Options, Refusal, Version, Widths,
    ast::*,
    calls::{LayoutState, check, format_file, layout},
    encode,
    limits::MAX_FILE_ROWS,
};
use support::{
    Buffers, DECLARATIONS, JUNK, Random, SOURCE, Whole, all, constants,
    tariff_image,
};

/// A whole file by one call.
fn whole(file: File<'_>, output: &mut [u8]) -> Result<Whole, Refusal> {
    format_file(file, &Options::default(), output).map(Whole::from)
}

#[test]
fn one_call_gives_what_two_give() {
    let image = tariff_image();
    let file = File::new(SOURCE, &image);
    let mut buffers = Buffers::ample();
    let due = buffers.format(file).expect("a text");
    let mut output = vec![JUNK; buffers.output.len()];
    assert_eq!(whole(file, &mut output), Ok(due));
    assert_eq!(output, buffers.output);
    let mut formatter = Formatter::new();
    let written = formatter.format_file(file).expect("a text");
    assert_eq!(written.text.as_bytes(), &output[..due.bytes]);
    assert_eq!(written.comments_left.len(), due.comments_left);
}

/// Each output that is too short stays as it was.
#[test]
fn a_short_output_is_refused() {
    let image = tariff_image();
    let file = File::new(SOURCE, &image);
    let due = whole(file, &mut [JUNK; 4_000]);
    let needed = due.expect("a text").bytes;
    for length in 0..needed {
        let mut output = vec![JUNK; length];
        let refused = whole(file, &mut output);
        assert_eq!(refused, Err(Refusal::MoreOutput { needed }));
        assert!(output.iter().all(|byte| *byte == JUNK));
    }
}

/// A source of so many constants, and its image.
fn lines(count: usize) -> (String, Vec<u8>) {
    let source = "const A: u32 = 1;\n".repeat(count);
    let image = encode(&constants(&source), &[]).expect("within the limits");
    (source, image)
}

/// The first file with more rows than one call has: it is refused, and two
/// calls take it.
#[test]
fn files_of_more_rows() {
    let mut formatter = Formatter::new();
    let mut refused = None;
    for count in 1.. {
        let (source, image) = lines(count);
        let file = File::new(&source, &image);
        let mut buffers = Buffers::new(4_000, 4_000, 20_000);
        let due = buffers.format(file).expect("a text");
        let mut output = vec![JUNK; 20_000];
        let written = whole(file, &mut output);
        if due.rows > MAX_FILE_ROWS {
            let needed = due.rows;
            assert_eq!(written, Err(Refusal::MoreRows { needed }));
            assert!(output.iter().all(|byte| *byte == JUNK));
            let text = formatter.format_file(file).expect("a text");
            let text = text.text.as_bytes();
            assert_eq!(text, &buffers.output[..due.bytes]);
            refused = Some(count);
            break;
        }
        assert_eq!(written, Ok(due));
        assert_eq!(output, buffers.output);
    }
    assert!(refused.is_some_and(|count| count > 100), "{refused:?}");
}

/// A formatter's buffers grow for a large file and serve a small one after.
#[test]
fn a_formatter_grows() {
    let mut formatter = Formatter::new();
    for count in [1, 3_000, 1] {
        let (source, image) = lines(count);
        let text = formatter.format_file(File::new(&source, &image));
        assert_eq!(text.expect("a text").text, source);
    }
}

/// An image with so many declarations, with and without shebang and comments.
fn images(count: usize) -> Vec<Vec<u8>> {
    let source = "const A: u32 = 1;\n".repeat(count);
    let mut tree = constants(&source);
    let mut images = Vec::new();
    for shebang in [None, Some("#!/x".to_owned())] {
        tree.shebang = shebang;
        for comments in [&[][..], &[0..1], &[0..1, 1..2, 2..4]] {
            images.push(encode(&tree, comments).expect("within the limits"));
        }
    }
    images
}

#[test]
fn declarations_are_counted() {
    for count in [0, 1, 2, 7, 300] {
        for image in images(count) {
            let source = "const A: u32 = 1;\n".repeat(count.max(1));
            let file = File::new(&source, &image);
            assert_eq!(file.declarations(), count);
            let accepted = check(file).expect("accepted");
            assert_eq!(accepted.declarations, count);
        }
    }
    let image = tariff_image();
    assert_eq!(File::new(SOURCE, &image).declarations(), DECLARATIONS);
}

/// Imports in imports are no declarations of the file.
#[test]
fn only_the_files_own_are_counted() {
    let import = |group| Meta::new(ImportPath { path: None, group }, 0..0);
    let inner = vec![import(None), import(None), import(None)];
    let outer = import(Some(Meta::new(inner, 0..0)));
    let tree = SyntaxTree {
        shebang: None,
        declarations: vec![Declaration::Import(outer)],
    };
    let image = encode(&tree, &[]).expect("within the limits");
    assert_eq!(File::new("", &image).declarations(), 1);
}

/// Of an accepted image the count is where layout closes; of others it says
/// something.
#[test]
fn counts_of_damaged_images() {
    let whole = tariff_image();
    let mut random = Random(5);
    for _ in 0..20_000 {
        let mut image = whole.clone();
        let at = random.below(image.len());
        image[at] = random.next() as u8;
        if random.below(4) == 0 {
            image.truncate(random.below(whole.len()));
        }
        let file = File::new(SOURCE, &image);
        let count = file.declarations();
        if let Ok(accepted) = check(file) {
            assert_eq!(accepted.declarations, count);
            let store = &mut Buffers::ample().store;
            let fresh = LayoutState::default();
            // A first byte 2 may come of the damage.
            let widths = match file.version() {
                Some(Version::Two) => Widths::Unicode16_0,
                _ => Widths::Supplied,
            };
            let options = &Options::default().with_widths(widths);
            let laid = layout(file, store, &fresh, &all(count), options);
            assert!(laid.is_ok(), "{laid:?}");
        }
    }
    for length in 0..30 {
        for byte in [0, 1, 255] {
            File::new("", &vec![byte; length]).declarations();
        }
    }
}
