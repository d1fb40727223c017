//! Request 8: the two properties that a width is made of, in two editions, by
//! the files that Unicode published (../../unicode).

use std::{ops::RangeInclusive, sync::LazyLock};

/// The greatest code point.
pub const LAST: u32 = 0x10_FFFF;

/// A property's value by its short name, one letter or two; the second place
/// of a single letter is a blank.
pub type Value = [u8; 2];

const NEUTRAL: Value = *b"N ";
const WIDE: Value = *b"W ";
const FULLWIDTH: Value = *b"F ";
const NONSPACING: Value = *b"Mn";
const ENCLOSING: Value = *b"Me";
const UNASSIGNED: Value = *b"Cn";

/// An edition of Unicode.
#[derive(Clone, Copy, Debug, PartialEq, Eq)]
pub enum Edition {
    Unicode15_1,
    Unicode16_0,
}

/// The two properties of every code point, and its width.
pub struct Properties {
    pub east_asian_width: Vec<Value>,
    pub general_category: Vec<Value>,
    pub widths: Vec<u8>,
}

static UNICODE_15_1: LazyLock<Properties> =
    LazyLock::new(|| Properties::read(Edition::Unicode15_1.files()));
static UNICODE_16_0: LazyLock<Properties> =
    LazyLock::new(|| Properties::read(Edition::Unicode16_0.files()));

impl Edition {
    pub const ALL: [Edition; 2] =
        [Edition::Unicode15_1, Edition::Unicode16_0];

    /// EastAsianWidth.txt and DerivedGeneralCategory.txt.
    pub fn files(self) -> [&'static str; 2] {
        match self {
            Edition::Unicode15_1 => [
                include_str!("../../unicode/EastAsianWidth-15.1.0.txt"),
                include_str!(
                    "../../unicode/DerivedGeneralCategory-15.1.0.txt"
                ),
            ],
            Edition::Unicode16_0 => [
                include_str!("../../unicode/EastAsianWidth-16.0.0.txt"),
                include_str!(
                    "../../unicode/DerivedGeneralCategory-16.0.0.txt"
                ),
            ],
        }
    }

    pub fn properties(self) -> &'static Properties {
        match self {
            Edition::Unicode15_1 => &UNICODE_15_1,
            Edition::Unicode16_0 => &UNICODE_16_0,
        }
    }

    /// The columns of a code point, a surrogate's too.
    pub fn width(self, point: u32) -> usize {
        self.properties().widths[point as usize].into()
    }

    /// The columns of a text: the sum over its code points.
    pub fn columns(self, text: &str) -> usize {
        text.chars().map(|point| self.width(point.into())).sum()
    }
}

impl Properties {
    /// As the two files have them.
    pub fn read([east_asian_width, general_category]: [&str; 2]) -> Self {
        let unlisted = missing_values(general_category, UNASSIGNED);
        let general_category = listed_values(general_category, unlisted);
        let mut unlisted = missing_values(east_asian_width, NEUTRAL);
        default_to_wide(east_asian_width, &general_category, &mut unlisted);
        let east_asian_width = listed_values(east_asian_width, unlisted);
        let both = east_asian_width.iter().zip(&general_category);
        Properties {
            widths: both.map(|(wide, kind)| width(*wide, *kind)).collect(),
            east_asian_width,
            general_category,
        }
    }
}

/// Document 02, 8, in its order.
fn width(east_asian_width: Value, general_category: Value) -> u8 {
    match (east_asian_width, general_category) {
        (WIDE | FULLWIDTH, _) => 2,
        (_, NONSPACING | ENCLOSING) => 0,
        _ => 1,
    }
}

/// Values of code points that no line lists, by the `@missing` lines of a
/// file in their order.
fn missing_values(file: &str, otherwise: Value) -> Vec<Value> {
    let mut values = vec![otherwise; LAST as usize + 1];
    for (points, value) in file.lines().filter_map(missing) {
        values[points].fill(value);
    }
    values
}

/// The values that a file lists over these. No code point is listed twice.
fn listed_values(file: &str, mut values: Vec<Value>) -> Vec<Value> {
    let mut seen = vec![false; values.len()];
    for (points, value) in file.lines().filter_map(listing) {
        assert!(!seen[points.clone()].contains(&true), "listed twice");
        seen[points.clone()].fill(true);
        values[points].fill(value);
    }
    values
}

/// Code points and their value, as a line says it.
type Listing = (RangeInclusive<usize>, Value);

/// `# @missing: 0000..10FFFF; N`
fn missing(line: &str) -> Option<Listing> {
    line.strip_prefix("# @missing:").map(fields)
}

/// `0021..0023     ; Na # Po     [3] EXCLAMATION MARK..NUMBER SIGN`
fn listing(line: &str) -> Option<Listing> {
    let (said, _) = line.split_once('#').unwrap_or((line, ""));
    (!said.trim().is_empty()).then(|| fields(said))
}

fn fields(said: &str) -> Listing {
    let (points, value) = said.split_once(';').expect("two fields");
    let value = match value.trim().as_bytes() {
        [one] => [*one, b' '],
        [one, two] => [*one, *two],
        _ => panic!("no value: {said}"),
    };
    (range(points.trim()), value)
}

/// `0021..0023` or `0020`
fn range(points: &str) -> RangeInclusive<usize> {
    let (first, last) = points.split_once("..").unwrap_or((points, points));
    let [first, last] = [first, last]
        .map(|point| usize::from_str_radix(point, 16).expect("hexadecimal"));
    first..=last
}

/// What the header of EastAsianWidth.txt says in words: the unassigned code
/// points of the ranges that it names are W.
fn default_to_wide(
    file: &str,
    general_category: &[Value],
    values: &mut [Value],
) {
    for point in header_ranges(file).into_iter().flatten() {
        if general_category[point] == UNASSIGNED {
            values[point] = WIDE;
        }
    }
}

/// `#         Plane 2:                            U+20000..U+2FFFD`
fn header_ranges(file: &str) -> Vec<RangeInclusive<usize>> {
    let header = file.lines().take_while(|line| line.starts_with('#'));
    let wide = header.skip_while(|line| !line.ends_with("default to \"W\":"));
    wide.filter_map(|line| {
        let (_, range) = line.split_once(" U+")?;
        Some(self::range(&range.replace("U+", "")))
    })
    .collect()
}
