//! The text of settings: what may stand in it, and what is said of the rest.

use rrufthim::{Comments, Options, Widths, settings::Settings};

fn read(text: &str) -> Settings {
    Settings::parse(text).unwrap_or_else(|error| panic!("{text:?}: {error}"))
}

#[test]
fn each_key_has_its_values() {
    assert_eq!(read(""), Settings::default());
    assert_eq!(read(" \n\t\r\n# width = 3\n"), Settings::default());
    for width in [40, 80, 200] {
        let due = Settings::default().with_width(width);
        assert_eq!(read(&format!("width = {width}")), due);
        assert_eq!(read(&format!(" width={width} # columns\r\n")), due);
    }
    for (value, widths) in
        [("15.1", Widths::Unicode15_1), ("16.0", Widths::Unicode16_0)]
    {
        let due = Settings::default().with_widths(widths);
        assert_eq!(read(&format!("unicode = \"{value}\"\n")), due);
        assert_eq!(read(&format!("unicode = '{value}'\n")), due);
    }
    for (value, comments) in
        [("all", Comments::All), ("as-roto", Comments::AsRoto)]
    {
        let due = Settings::default().with_comments(comments);
        assert_eq!(read(&format!("comments = \"{value}\"")), due);
    }
    let all = "comments = 'as-roto'\nunicode = '15.1'\n\nwidth = 100\n";
    let due = Options::AS_ROTO
        .with_width(100)
        .with_widths(Widths::Unicode15_1);
    assert_eq!(read(all).options(), due);
}

/// Each text is refused at its place, with these words.
fn refused(cases: &[(&str, &str, &str)]) {
    for (text, place, words) in cases {
        let error = Settings::parse(text).expect_err(text);
        assert_eq!(error.to_string(), format!("line {place}: {words}"));
        assert_eq!(error.path, None);
    }
}

#[test]
fn keys_that_are_not_understood_have_a_place() {
    refused(&[
        ("width", "1, column 1", "no line `key = value`"),
        ("\n  [rrufthim]", "2, column 3", "no line `key = value`"),
        (
            "\nwide = 3",
            "2, column 1",
            "the key `wide`: there are `width`, `unicode` and `comments`",
        ),
        (
            "= 3",
            "1, column 1",
            "the key ``: there are `width`, `unicode` and `comments`",
        ),
        (
            "\"é\" = 80",
            "1, column 1",
            "the key `\\\"é\\\"`: there are `width`, `unicode` and `comments`",
        ),
        (
            "width = 80\nwidth = 80",
            "2, column 1",
            "the key `width`: it stands there twice",
        ),
    ]);
}

#[test]
fn values_that_are_not_understood_have_a_place() {
    let width =
        |given: &str| format!("`width` is a number from 40 to 200, {given}");
    for (value, given) in [
        ("39", "not 39"),
        ("201", "not 201"),
        ("080", "not 080"),
        ("+80", "not +80"),
        ("8_0", "not 8_0"),
        ("'80'", "not \\'80\\'"),
    ] {
        let text = format!("width = {value}");
        refused(&[(&text, "1, column 9", &width(given))]);
    }
    refused(&[("width =", "1, column 8", &width("and there is none"))]);
    for (value, given) in [("16.0", "16.0"), ("'16'", "\\'16\\'")] {
        let text = format!("\nunicode = {value}");
        let words = format!("`unicode` is \"15.1\" or \"16.0\", not {given}");
        refused(&[(&text, "2, column 11", &words)]);
    }
    for (value, given) in [("\"all", "\\\"all"), ("\"", "\\\"")] {
        let text = format!("comments = {value}");
        let words =
            format!("`comments` is \"all\" or \"as-roto\", not {given}");
        refused(&[(&text, "1, column 12", &words)]);
    }
}

/// What is chosen goes before what others choose.
#[test]
fn the_first_goes_before() {
    let first = Settings::default().with_width(60);
    let others = Settings::default()
        .with_width(100)
        .with_comments(Comments::AsRoto);
    let both = first.clone().over(others.clone());
    assert_eq!(both, others.clone().with_width(60));
    assert_eq!(others.clone().over(first), others);
    assert_eq!(both.options(), Options::AS_ROTO.with_width(60));
    assert_eq!(Settings::default().options(), Options::default());
}
