//! Widths of code points by the files that Unicode published. The numbers are
//! those found when the files were checked (../../unicode/README.md).

use judge::{
    rule,
    unicode::{Edition, LAST, Properties, Value},
};

const OLD: Edition = Edition::Unicode15_1;
const NEW: Edition = Edition::Unicode16_0;

/// First and last code point of each longest range with a value, ascending.
fn ranges<T: Copy + PartialEq>(
    values: &[T],
    of: impl Fn(T) -> Option<T>,
) -> Vec<(usize, usize, T)> {
    let mut ranges: Vec<(usize, usize, T)> = Vec::new();
    for (point, value) in values.iter().enumerate() {
        let Some(value) = of(*value) else { continue };
        match ranges.last_mut() {
            Some((_, last, same)) if *last + 1 == point && *same == value => {
                *last = point;
            }
            _ => ranges.push((point, point, value)),
        }
    }
    ranges
}

/// How many ranges and code points have one of these values.
fn counted(values: &[Value], of: &[&Value], as_one: bool) -> [usize; 2] {
    let ranges = ranges(values, |value| {
        let known = of.contains(&&value);
        known.then_some(if as_one { *of[0] } else { value })
    });
    let points = ranges.iter().map(|(first, last, _)| last - first + 1);
    [ranges.len(), points.sum()]
}

fn widths_counted(edition: Edition, width: u8) -> [usize; 2] {
    let widths = &edition.properties().widths;
    let ranges = ranges(widths, |one| (one == width).then_some(one));
    let points = ranges.iter().map(|(first, last, _)| last - first + 1);
    [ranges.len(), points.sum()]
}

#[test]
fn ranges_and_code_points_are_as_many_as_were_found() {
    assert_eq!(widths_counted(OLD, 2), [120, 182_521]);
    assert_eq!(widths_counted(OLD, 0), [340, 1_991]);
    assert_eq!(widths_counted(NEW, 2), [122, 182_719]);
    assert_eq!(widths_counted(NEW, 0), [351, 2_026]);
    for edition in Edition::ALL {
        let widths = &edition.properties().widths;
        assert_eq!(widths.len(), LAST as usize + 1);
        let not_one = |width| (width != 1).then_some(width);
        let both = ranges(widths, not_one).len();
        assert_eq!(both, if edition == OLD { 460 } else { 473 });
    }
}

#[test]
fn so_are_those_of_each_value() {
    let wide = |edition: Edition, of: &[&Value], as_one| {
        counted(&edition.properties().east_asian_width, of, as_one)
    };
    let [w, f] = [b"W ", b"F "];
    assert_eq!(wide(OLD, &[w, f], false), [122, 182_521]);
    assert_eq!(wide(OLD, &[w, f], true), [120, 182_521]);
    assert_eq!(wide(OLD, &[w], true)[1], 182_417);
    assert_eq!(wide(OLD, &[f], true)[1], 104);
    assert_eq!(wide(NEW, &[w, f], false), [124, 182_719]);
    assert_eq!(wide(NEW, &[w, f], true), [122, 182_719]);
    assert_eq!(wide(NEW, &[w], true)[1], 182_615);
    assert_eq!(wide(NEW, &[f], true)[1], 104);
    let kind = |edition: Edition, of: &[&Value], as_one| {
        counted(&edition.properties().general_category, of, as_one)
    };
    let [mn, me] = [b"Mn", b"Me"];
    assert_eq!(kind(OLD, &[mn, me], false), [351, 1_998]);
    assert_eq!(kind(OLD, &[mn, me], true)[0], 343);
    assert_eq!(kind(OLD, &[mn], true)[1], 1_985);
    assert_eq!(kind(OLD, &[me], true)[1], 13);
    assert_eq!(kind(NEW, &[mn, me], false), [362, 2_033]);
    assert_eq!(kind(NEW, &[mn, me], true)[0], 354);
    assert_eq!(kind(NEW, &[mn], true)[1], 2_020);
    assert_eq!(kind(NEW, &[me], true)[1], 13);
    // Graphic and format characters, as Unicode counts them.
    let others = [b"Cc", b"Cs", b"Co", b"Cn"];
    let all = LAST as usize + 1;
    assert_eq!(all - kind(OLD, &others, true)[1], 149_813);
    assert_eq!(all - kind(NEW, &others, true)[1], 154_998);
}

/// DerivedGeneralCategory.txt says behind the lines of each value how many
/// code points they list.
#[test]
fn the_totals_in_the_files_are_those_of_their_lines() {
    for edition in Edition::ALL {
        let [_, file] = edition.files();
        let mut value = *b"  ";
        let mut totals = 0;
        for line in file.lines() {
            if let Some(total) = line.strip_prefix("# Total code points: ") {
                let of = &edition.properties().general_category;
                let due: usize = total.parse().unwrap();
                assert_eq!(counted(of, &[&value], true)[1], due, "{line}");
                totals += due;
            } else if !line.starts_with('#')
                && let Some((_, behind)) = line.split_once("; ")
            {
                value.copy_from_slice(&behind.as_bytes()[..2]);
            }
        }
        // All of them are listed.
        assert_eq!(totals, LAST as usize + 1);
    }
}

/// A file without the lines whose comment names a category, or whose value is
/// one.
fn without(file: &str, words: &[&str]) -> String {
    let kept = file.lines().filter(|line| {
        let listed = !line.starts_with('#') && line.contains(';');
        !(listed && words.iter().any(|word| line.contains(word)))
    });
    kept.flat_map(|line| [line, "\n"]).collect()
}

/// The defaults change nothing in these editions, and are read all the same:
/// without the lines that they make up for, the widths are as before; without
/// the header too, they aren't.
#[test]
fn default_lines_are_read() {
    for edition in Edition::ALL {
        let [wide, kind] = edition.files();
        let properties = edition.properties();
        // Unassigned code points, most of them W; and all that are N.
        for words in [&["# Cn"][..], &["; N "], &["# Cn", "; N "]] {
            let shorter = without(wide, words);
            assert!(shorter.len() < wide.len());
            let read = Properties::read([&shorter, kind]);
            assert!(read.widths == properties.widths, "{words:?}");
            let same = read.east_asian_width == properties.east_asian_width;
            assert!(same, "{words:?}");
        }
        let shorter = without(wide, &["# Cn"]);
        let headless: String = shorter
            .lines()
            .filter(|line| !line.contains("U+") && !line.contains("@missing"))
            .flat_map(|line| [line, "\n"])
            .collect();
        let read = Properties::read([&headless, kind]);
        assert!(read.widths != properties.widths);
        // An assigned code point of these ranges isn't W by default.
        let shorter = without(wide, &["4E00..9FFF"]);
        let read = Properties::read([&shorter, kind]);
        assert_eq!(read.east_asian_width[0x4E00], *b"N ");
        // Unassigned ones that the other file doesn't list are so.
        let shorter = without(kind, &["; Cn"]);
        let read = Properties::read([wide, &shorter]);
        assert!(read.general_category == properties.general_category);
        // `@missing` lines count in their order.
        let missing = "# @missing: 0000..10FFFF; W\n# @missing: 0041; Na\n";
        let read = Properties::read([missing, kind]);
        assert_eq!([read.widths[0x41], read.widths[0x42]], [1, 2]);
    }
}

#[test]
fn code_points_have_their_widths() {
    // Code point, by 15.1, by 16.0.
    let points = [
        (0, 1, 1),
        (0x0A, 1, 1),
        (0x20, 1, 1),
        (0x41, 1, 1),
        (0x7F, 1, 1),
        (0x85, 1, 1),
        (0xAD, 1, 1),
        (0xE9, 1, 1),
        (0x300, 0, 0),
        (0x36F, 0, 0),
        (0x370, 1, 1),
        (0x488, 0, 0),
        (0x897, 1, 0),
        (0x10FF, 1, 1),
        (0x1100, 2, 2),
        (0x115F, 2, 2),
        (0x1160, 1, 1),
        (0x200B, 1, 1),
        (0x200D, 1, 1),
        (0x20DD, 0, 0),
        (0x2630, 1, 2),
        (0x2E80, 2, 2),
        (0x2FFC, 2, 2),
        (0x3000, 2, 2),
        // Mn, and W first.
        (0x302A, 2, 2),
        (0x302D, 2, 2),
        (0x302E, 2, 2),
        (0x303F, 1, 1),
        (0x3042, 2, 2),
        (0x3099, 2, 2),
        (0x31E4, 1, 2),
        (0x31EF, 2, 2),
        (0x4DBF, 2, 2),
        (0x4DC0, 1, 2),
        (0x65E5, 2, 2),
        (0xD7A3, 2, 2),
        (0xD7A4, 1, 1),
        // Surrogates have a width, though no text has them.
        (0xD800, 1, 1),
        (0xDFFF, 1, 1),
        (0xE000, 1, 1),
        (0xFAFF, 2, 2),
        (0xFE0F, 0, 0),
        (0xFEFF, 1, 1),
        (0xFF01, 2, 2),
        (0xFF60, 2, 2),
        (0xFF61, 1, 1),
        (0xFFE6, 2, 2),
        (0xFFFF, 1, 1),
        (0x1171E, 0, 1),
        (0x16FE4, 2, 2),
        (0x18CFF, 1, 2),
        (0x1D300, 1, 2),
        (0x1F1E6, 1, 1),
        (0x1F980, 2, 2),
        (0x1FA89, 1, 2),
        (0x20000, 2, 2),
        (0x2FFFD, 2, 2),
        (0x2FFFE, 1, 1),
        (0x3FFFD, 2, 2),
        (0x3FFFF, 1, 1),
        (0xE0100, 0, 0),
        (0x10FFFF, 1, 1),
    ];
    for (point, old, new) in points {
        let widths = Edition::ALL.map(|edition| edition.width(point));
        assert_eq!(widths, [old, new], "{point:X}");
    }
}

/// What differs between the editions.
#[test]
fn editions_differ_where_they_did() {
    let mut counts = std::collections::BTreeMap::new();
    for point in 0..=LAST {
        let widths = Edition::ALL.map(|edition| edition.width(point));
        if widths[0] != widths[1] {
            *counts.entry(widths).or_insert(0) += 1;
        }
    }
    let due = [([0, 1], 1), ([1, 0], 36), ([1, 2], 198)];
    assert!(counts.into_iter().eq(due));
}

#[test]
fn a_text_is_the_sum() {
    for (text, old, new) in [
        ("", 0, 0),
        ("rate", 4, 4),
        ("größe", 5, 5),
        ("日本語", 6, 6),
        ("ﾊﾝｶｸ", 4, 4),
        ("e\u{301}tat", 4, 4),
        ("か\u{3099}", 4, 4),
        ("\u{302A}", 2, 2),
        ("\u{4DC0}\u{1171E}\u{897}", 2, 3),
        ("a\tb\nc", 5, 5),
        ("\u{1F1EF}\u{1F1F5}", 2, 2),
        ("\u{1F468}\u{200D}\u{1F469}", 5, 5),
    ] {
        let columns = Edition::ALL.map(|edition| edition.columns(text));
        assert_eq!(columns, [old, new], "{text:?}");
    }
}

#[test]
fn any_bytes_are_measured() {
    let columns = |bytes: &[u8], rule| {
        let refused = |refusal: judge::refusal::Refusal| {
            (refusal.number, refusal.place)
        };
        rule::columns(bytes, rule, 7).map_err(refused)
    };
    let japanese = "日本".as_bytes();
    assert_eq!(columns(japanese, rule::SUPPLIED), Ok(7));
    assert_eq!(columns(b"\x80", rule::SUPPLIED), Ok(7));
    assert_eq!(columns(japanese, rule::UNICODE_15_1), Ok(4));
    assert_eq!(columns(japanese, rule::UNICODE_16_0), Ok(4));
    // Up to the first byte that is no character's.
    assert_eq!(columns(&japanese[..5], rule::UNICODE_16_0), Ok(2));
    assert_eq!(columns(b"ab\xFF\xE6\x97\xA5", rule::UNICODE_15_1), Ok(2));
    assert_eq!(columns(b"\x80", rule::UNICODE_15_1), Ok(0));
    for rule in [0, 4, 1 << 32, usize::MAX] {
        assert_eq!(columns(japanese, rule), Err((20, 0)), "{rule}");
    }
}
