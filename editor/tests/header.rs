//! The header for C and src/linked.rs declare what crates/exports_c has: the
//! same symbols, parameters in the same order, kinds and sizes.

#[allow(dead_code)]
#[path = "support/declared.rs"]
mod declared;

use declared::{
    HEADER, LINKED, constants, declared, exported, exports, linked, refusals,
};
use rrufthim::{
    Options, Refusal, SHAPE, Version,
    calls::{ROW, TABLE_ROW, Way},
    limits::*,
};

#[test]
fn all_say_the_same() {
    let exported = exported(&exports());
    assert_eq!(exported.len(), 15);
    assert_eq!(linked(LINKED), exported);
    assert_eq!(declared(HEADER), exported);
    let check = format!("rrufthim_check_s{SHAPE}");
    assert!(exported.iter().any(|(name, _)| *name == check));
}

/// Whichever of the three has another number is found out, and so is one of
/// crates/exports_c's functions.
#[test]
fn another_number_is_found() {
    let (text, next) = (exports(), SHAPE + 1);
    let exported_now = exported(&text);
    for (from, to) in [
        (format!("_SHAPE {SHAPE}\n"), format!("_SHAPE {next}\n")),
        ("_SYMBOL(check)".into(), "_SYMBOL(count)".into()),
        ("#define rrufthim_steps ".into(), "#define other ".into()),
    ] {
        let changed = HEADER.replacen(&from, &to, 1);
        assert!(changed != HEADER, "{from}");
        assert_ne!(declared(&changed), exported_now, "{from}");
    }
    let (from, to) = (format!("  {SHAPE}\n"), format!("  {next}\n"));
    let changed = LINKED.replacen(&from, &to, 1);
    assert!(changed != LINKED, "{from}");
    assert_ne!(linked(&changed), exported_now);
    for (name, _) in &exported_now {
        let plain = name.strip_suffix(&format!("_s{SHAPE}")).expect("it");
        let other = format!("fn {plain}_s{next}(");
        let changed = text.replacen(&format!("fn {name}("), &other, 1);
        assert!(changed != text, "{name}");
        assert_ne!(exported(&changed), exported_now, "{name}");
    }
}

/// A header that says another thing is found out.
#[test]
fn a_difference_is_found() {
    let changes = [
        ("uint64_t out[RRUFTHIM_CHECK_OUT]", "uint64_t out[3]"),
        ("_LAYOUT_STATE 9", "_LAYOUT_STATE 8"),
        ("_TALLIES 8", "_TALLIES 7"),
        ("uint32_t *store", "uint64_t *store"),
        ("const uint64_t state", "uint64_t state"),
        (
            "uint64_t start,\n    uint64_t end",
            "uint64_t end,\n    uint64_t start",
        ),
        ("uint8_t *marks, size_t marks_len,", "uint8_t *marks,"),
        ("void rrufthim_render", "void rrufthim_draw"),
        ("_NEWLINES_OUT 2", "_NEWLINES_OUT 3"),
        ("_RENDER_ARGS 4", "_RENDER_ARGS 3"),
        ("_RENDER_STATE 264", "_RENDER_STATE 263"),
        ("_RENDER_OUT 267", "_RENDER_OUT 266"),
        ("_LAYOUT_ARGS 4", "_LAYOUT_ARGS 3"),
        ("_FORMAT_CHOICE 3", "_FORMAT_CHOICE 2"),
        ("_WRITE_OUT 2", "_WRITE_OUT 3"),
        ("const uint8_t *steps", "uint8_t *steps"),
        ("_BATCH_OUT 3", "_BATCH_OUT 5"),
        ("uint32_t *table", "const uint32_t *table"),
        ("const uint8_t *frames", "uint8_t *frames"),
        ("_COLUMNS_OUT 2", "_COLUMNS_OUT 3"),
        ("_FORWARD_OUT 2", "_FORWARD_OUT 3"),
        ("_BACK_OUT 2", "_BACK_OUT 3"),
        ("_READS_BACK_OUT 3", "_READS_BACK_OUT 2"),
        ("_FORMULA_OUT 2", "_FORMULA_OUT 3"),
        (
            "uint64_t size,\n    uint64_t place",
            "uint64_t size,\n    uint32_t place",
        ),
        (
            "uint64_t rule,\n    uint64_t supplied",
            "uint64_t supplied,\n    uint64_t rule",
        ),
    ];
    let exported = exported(&exports());
    for (from, to) in changes {
        let changed = HEADER.replacen(from, to, 1);
        assert!(changed != HEADER, "{from}");
        assert_ne!(declared(&changed), exported, "{from}");
    }
}

/// `src/linked.rs` that says another thing is found out, too.
#[test]
fn a_difference_in_linked_is_found() {
    let changes = [
        ("state: &[u64; 9]", "state: &[u64; 8]"),
        ("table: &mut [u32]", "table: &[u32]"),
        ("start: u64, end: u64", "end: u64, start: u64"),
        ("fn render(", "fn draw("),
        ("image: &[u8], out: &mut [u64; 4]", "out: &mut [u64; 4]"),
    ];
    let exported = exported(&exports());
    for (from, to) in changes {
        let changed = LINKED.replacen(from, to, 1);
        assert!(changed != LINKED, "{from}");
        assert_ne!(linked(&changed), exported, "{from}");
    }
}

/// `BadRow` as `BAD_ROW`.
fn as_constant(name: &str) -> String {
    let mut out = String::new();
    for letter in name.chars() {
        if letter.is_ascii_uppercase() && !out.is_empty() {
            out.push('_');
        }
        out.push(letter.to_ascii_uppercase());
    }
    out
}

/// Each row of the table, but for 13, which is the program's.
#[test]
fn refusals_are_those_of_the_table() {
    let rows = Refusal::TABLE.iter().filter(|row| row.number != 13);
    let due = rows.map(|row| {
        let name = format!("RRUFTHIM_{}", as_constant(row.name));
        let place = row.place.unwrap_or("0");
        (name, row.number, format!("{}: {place}", row.cause))
    });
    assert_eq!(refusals(HEADER), due.collect::<Vec<_>>());
}

#[test]
fn sizes_have_their_names() {
    let constants = constants(HEADER);
    let value = |name: &str| {
        let mut all = constants.iter();
        let found = all.find(|(known, _)| known == name);
        found.unwrap_or_else(|| panic!("{name}")).1
    };
    assert_eq!(value("RRUFTHIM_ROW"), ROW);
    assert_eq!(value("RRUFTHIM_MAX_FILE_ROWS"), MAX_FILE_ROWS);
    assert_eq!(value("RRUFTHIM_MAX_SOURCE"), MAX_SOURCE);
    assert_eq!(value("RRUFTHIM_MAX_BODY"), MAX_BODY);
    assert_eq!(value("RRUFTHIM_MAX_COMMENTS"), MAX_COMMENTS);
    assert_eq!(value("RRUFTHIM_MAX_DEPTH"), MAX_DEPTH);
    assert_eq!(value("RRUFTHIM_MAX_WIDTH"), MAX_WIDTH);
    assert_eq!(value("RRUFTHIM_MIN_LINE_WIDTH"), MIN_LINE_WIDTH);
    assert_eq!(value("RRUFTHIM_MAX_LINE_WIDTH"), MAX_LINE_WIDTH);
    let default = Options::default().width;
    assert_eq!(value("RRUFTHIM_REFERENCE_WIDTH"), default);
    // The modes of docs/02-change-requests.md, 4.
    assert_eq!(value("RRUFTHIM_AS_ROTO"), 0);
    assert_eq!(value("RRUFTHIM_ALL_COMMENTS"), 1);
    // The rules of the same, 8.
    assert_eq!(value("RRUFTHIM_WIDTHS_SUPPLIED"), 1);
    assert_eq!(value("RRUFTHIM_WIDTHS_UNICODE_15_1"), 2);
    assert_eq!(value("RRUFTHIM_WIDTHS_UNICODE_16_0"), 3);
    // The first byte of an image, of the same, 9.
    for (name, version) in [
        ("RRUFTHIM_IMAGE_VERSION_1", Version::One),
        ("RRUFTHIM_IMAGE_VERSION_2", Version::Two),
    ] {
        assert_eq!(value(name), usize::from(version.first_byte()));
    }
    assert_eq!(value("RRUFTHIM_MAX_FILES"), MAX_FILES);
    assert_eq!(value("RRUFTHIM_MAX_TALLY"), MAX_TALLY);
    assert_eq!(value("RRUFTHIM_MAX_BATCH"), MAX_BATCH);
    assert_eq!(value("RRUFTHIM_MAX_LISTED_ROWS"), MAX_LISTED_ROWS);
    // A listed row is row * 6 + way * 2 + wraps (calls::ListedRow).
    assert_eq!(value("RRUFTHIM_LISTED_FACTS"), 6);
    for (name, way) in [
        ("RRUFTHIM_WAY_TRAILING", Way::Trailing),
        ("RRUFTHIM_WAY_MADE_FLAT", Way::MadeFlat),
        ("RRUFTHIM_WAY_MADE_WRAPPED", Way::MadeWrapped),
    ] {
        assert_eq!(value(name), way as usize);
    }
    assert_eq!(value("RRUFTHIM_MAX_FORMULA_SIZE"), MAX_FORMULA_SIZE);
    assert_eq!(value("RRUFTHIM_TABLE_ROW"), TABLE_ROW);
}
