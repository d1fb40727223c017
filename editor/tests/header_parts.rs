//! What the header for C has besides its functions: names for places, words
//! for refusals, and NULL for no elements.

#[allow(dead_code)]
#[path = "support/declared.rs"]
mod declared;

use declared::{HEADER, constants, declared, wrapped};
use rrufthim::Refusal;

const PLACES: &str = include_str!("../include/rrufthim_places.h");
const WORDS: &str = include_str!("../include/rrufthim_words.h");
const NULL: &str = include_str!("../include/rrufthim_null.h");

/// The places of an array that have names, in the order of the header.
fn places(array: &str) -> Vec<usize> {
    let prefix = format!("RRUFTHIM_{array}_");
    let all = constants(PLACES).into_iter();
    let named = all.filter(|(name, _)| name.starts_with(&prefix));
    named.map(|(_, place)| place).collect()
}

fn size(array: &str) -> usize {
    let name = format!("RRUFTHIM_{array}");
    let all = constants(HEADER).into_iter();
    let mut found = all.filter(|(known, _)| *known == name);
    found.next().unwrap_or_else(|| panic!("{name}")).1
}

/// Each place has one name: of an answer all behind the first, up to where a
/// state or tallies stand.
#[test]
fn every_place_has_a_name() {
    for array in ["LAYOUT_STATE", "LAYOUT_ARGS", "RENDER_ARGS"] {
        assert_eq!(places(array), Vec::from_iter(0..size(array)), "{array}");
    }
    for array in ["FORMAT_CHOICE", "TALLIES", "TABLE_ROW", "NEWLINES_OUT"] {
        assert_eq!(places(array), Vec::from_iter(0..size(array)), "{array}");
    }
    for array in [
        "CHECK_OUT",
        "FORMAT_OUT",
        "WRITE_OUT",
        "STEPS_OUT",
        "BATCH_OUT",
        "COLUMNS_OUT",
        "FORWARD_OUT",
        "BACK_OUT",
        "READS_BACK_OUT",
        "FORMULA_OUT",
    ] {
        assert_eq!(places(array), Vec::from_iter(1..size(array)), "{array}");
    }
    // The last is where the listed rows begin.
    let rows = size("RENDER_STATE") - size("MAX_LISTED_ROWS");
    assert_eq!(places("RENDER_STATE"), Vec::from_iter(0..=rows));
    let (state, out) = (size("LAYOUT_STATE"), size("LAYOUT_OUT"));
    assert_eq!(places("LAYOUT_OUT"), [1, out - state]);
    let (state, out) = (size("RENDER_STATE"), size("RENDER_OUT"));
    assert_eq!(places("RENDER_OUT"), [1, 2, out - state]);
    let behind = size("COUNT_OUT") - 2;
    let tallies = behind - size("TALLIES");
    let counted = (1..=tallies).chain([behind, behind + 1]);
    assert_eq!(places("COUNT_OUT"), Vec::from_iter(counted));
}

/// The literals of a function's cases, by the names of the refusals.
fn cases(function: &str) -> Vec<(String, String)> {
    let (_, text) = WORDS.split_once(&format!("{function}(")).expect("it");
    let (text, _) = text.split_once("\n}\n").expect("its end");
    let cases = text.split("case RRUFTHIM_").skip(1).map(|case| {
        let (name, rest) = case.split_once(':').expect("a name");
        let (literal, _) = rest.split_once(';').expect("words");
        let parts = literal.split('"').skip(1).step_by(2);
        (name.to_owned(), parts.collect())
    });
    cases.collect()
}

/// `BadRow` as `BAD_ROW`, and so on.
fn as_constant(name: &str) -> String {
    let letters = name.char_indices().map(|(at, letter)| {
        let parted = at > 0 && letter.is_ascii_uppercase();
        let part = if parted { "_" } else { "" };
        format!("{part}{}", letter.to_ascii_uppercase())
    });
    letters.collect()
}

#[test]
fn words_are_those_of_the_table() {
    let rows = Refusal::TABLE.iter().filter(|row| row.number != 13);
    let name = |name| as_constant(name);
    let causes = rows.clone().map(|row| (name(row.name), row.cause.into()));
    assert_eq!(cases("rrufthim_words"), Vec::from_iter(causes));
    let places = rows.filter_map(|row| Some((name(row.name), row.place?)));
    let places = places.map(|(name, place)| (name, place.to_owned()));
    assert_eq!(cases("rrufthim_place_words"), Vec::from_iter(places));
}

/// Each function has the parameters of the library's, and hands each of them
/// over, where it goes with a number by the function that looks for NULL.
#[test]
fn null_is_looked_for_in_every_function() {
    let due = declared(HEADER);
    let found = wrapped(NULL);
    assert_eq!(found.len(), due.len());
    for (name, parameters) in &due {
        let plain = name.rsplit_once("_s").expect("the shape's number").0;
        let (_, own) = found.iter().find(|(it, _)| it == plain).expect(plain);
        assert_eq!(own, parameters, "{plain}");
        let short = plain.strip_prefix("rrufthim_").expect("it");
        let call = format!("RRUFTHIM_SYMBOL({short})(");
        let (_, call) = NULL.split_once(&call).expect(&call);
        let (call, _) = call.split_once(");\n").expect("its end");
        let call = call.split_whitespace().collect::<Vec<_>>().join(" ");
        assert_eq!(call, handed(parameters).join(", "), "{plain}");
    }
}

/// What a function hands over of its parameters.
fn handed(parameters: &[String]) -> Vec<String> {
    let lent = |one: &String| {
        let (name, kind) = one.split_once(": ").expect("a kind");
        let by = match kind {
            "*const u8" => "rrufthim_lent",
            "*mut u8" => "rrufthim_lent_out",
            "*mut u32" => "rrufthim_lent_numbers",
            _ => return name.to_owned(),
        };
        format!("{by}({name}, {name}_len)")
    };
    parameters.iter().map(lent).collect()
}
