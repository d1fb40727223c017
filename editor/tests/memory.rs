//! What a formatter asks of the memory: little for a small file, nothing for
//! a file like the last one.

mod support;

use std::{
    alloc::{GlobalAlloc, Layout, System},
    cell::Cell,
};

use rrufthim::{
    Batch, File, FormatError, Formatted, Formatter, Options, ast::Extras,
    encode, fmt_parsed,
};
use support::{SOURCE, constants, tariff, tariff_image};

thread_local! {
    /// Bytes that this thread asked for: to be filled, and cleared ones.
    static ASKED: Cell<(usize, usize)> = const { Cell::new((0, 0)) };
}

struct Counting;

/// The system's, with a count.
unsafe impl GlobalAlloc for Counting {
    unsafe fn alloc(&self, layout: Layout) -> *mut u8 {
        let (filled, cleared) = ASKED.get();
        ASKED.set((filled + layout.size(), cleared));
        // Safety: as the caller's.
        unsafe { System.alloc(layout) }
    }

    unsafe fn alloc_zeroed(&self, layout: Layout) -> *mut u8 {
        let (filled, cleared) = ASKED.get();
        ASKED.set((filled, cleared + layout.size()));
        // Safety: as the caller's.
        unsafe { System.alloc_zeroed(layout) }
    }

    unsafe fn dealloc(&self, start: *mut u8, layout: Layout) {
        // Safety: as the caller's.
        unsafe { System.dealloc(start, layout) }
    }
}

#[global_allocator]
static ALLOCATOR: Counting = Counting;

/// What is asked for while this runs.
fn asked<T>(run: impl FnOnce() -> T) -> (usize, usize) {
    let before = ASKED.get();
    run();
    let after = ASKED.get();
    (after.0 - before.0, after.1 - before.1)
}

#[test]
fn a_new_formatter_has_nothing() {
    assert_eq!(asked(Formatter::new), (0, 0));
}

/// A small file takes little more than a hundredth of a large one's 8 MB.
#[test]
fn a_small_file_takes_little() {
    let image = tariff_image();
    let (_, cleared) = asked(|| {
        let mut formatter = Formatter::new();
        let text = formatter.format_file(File::new(SOURCE, &image));
        assert!(text.is_ok());
    });
    assert!(cleared > 0 && cleared < 100_000, "{cleared}");
}

/// Rows are asked for as cleared memory, which costs time by the page in use.
/// (What is asked for to be filled is only tried out, and given back.)
#[test]
fn a_large_file_takes_cleared_memory() {
    let source = "const A: u32 = 1;\n".repeat(3_000);
    let image = encode(&constants(&source), &[]).expect("an image");
    let mut formatter = Formatter::new();
    let (filled, cleared) = asked(|| {
        let text = formatter.format_file(File::new(&source, &image));
        assert!(text.is_ok());
    });
    assert!(cleared > image.len() * 5 / 13 * 36, "{cleared}");
    assert!(filled <= cleared, "{filled}");
}

#[test]
fn the_next_save_takes_nothing() {
    let image = tariff_image();
    let file = File::new(SOURCE, &image);
    let (tree, extras) = tariff();
    let mut formatter = Formatter::new();
    for save in 0..3 {
        formatter = formatter.with_options(Options::AS_ROTO);
        let as_roto = asked(|| {
            let text = formatter.format_file(file);
            assert_eq!(text.expect("a text").comments_left.len(), 1);
        });
        formatter = formatter.with_options(Options::default());
        let of_image = asked(|| {
            let text = formatter.format_file(file);
            assert!(text.expect("a text").complete().is_ok());
        });
        let of_tree = asked(|| {
            let text = formatter.format_tree(&tree, SOURCE, &extras);
            assert!(text.expect("a text").complete().is_ok());
        });
        if save > 0 {
            // The comment left: its span, and line and column.
            assert!(as_roto.0 <= 128 && as_roto.1 == 0, "{as_roto:?}");
            assert_eq!([of_image, of_tree], [(0, 0); 2]);
        }
    }
}

/// The one-call function keeps a formatter too: what it asks for is the text.
#[test]
fn one_call_takes_its_text() {
    let (tree, extras) = tariff();
    let mut taken = (0, 0);
    for _ in 0..2 {
        taken = asked(|| fmt_parsed(&tree, SOURCE, &extras));
    }
    assert!(taken.0 < 2 * SOURCE.len() && taken.1 == 0, "{taken:?}");
}

/// A batch keeps its buffers: what it asks for are the answers.
#[test]
fn the_next_batch_takes_its_answers() {
    let image = tariff_image();
    let files = [File::new(SOURCE, &image); 100];
    let mut batch = Batch::default();
    let mut taken = [(0, 0); 3];
    for taken in &mut taken {
        *taken = asked(|| batch.format_files(files));
    }
    let texts = 100 * 2 * SOURCE.len();
    let answers = 100 * 2 * size_of::<Result<Formatted, FormatError>>();
    let files = 100 * 2 * size_of::<File<'_>>();
    assert!(taken[0].1 >= 100 * image.len(), "{taken:?}");
    for (filled, cleared) in &taken[1..] {
        assert!(*filled < texts + answers + files, "{taken:?}");
        assert_eq!(*cleared, 0);
    }
}

/// A file that grows by a line with each save seldom asks for more.
#[test]
fn growth_is_seldom() {
    let mut formatter = Formatter::new();
    let mut asking = 0;
    for lines in 100..400 {
        let source = "const A: u32 = 1;\n".repeat(lines);
        let (tree, none) = (constants(&source), Extras::default());
        let taken = asked(|| {
            let text = formatter.format_tree(&tree, &source, &none);
            assert_eq!(text.expect("a text").text, source);
        });
        asking += usize::from(taken != (0, 0));
    }
    assert!((1..=12).contains(&asking), "{asking}");
}
