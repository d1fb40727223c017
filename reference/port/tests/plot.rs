//! The picture of a table of times.

use port::{
    measure::{Line, csv},
    plot::draw,
};

fn line(input: &str, size: u64, port: f64, rust: f64) -> Line {
    Line {
        step: "check",
        input: input.into(),
        size: size.try_into().expect("a size"),
        unit: "byte",
        port_seconds: port,
        rust_seconds: rust,
    }
}

/// Each line has its name and two bars, whatever stands in the name, and no
/// bar ends behind the picture.
#[test]
fn every_line_is_drawn() {
    let lines = [
        line("a tariff, large & <small>", 1_000, 1e-6, 5e-6),
        line("saves", 1, 2e-4, 1e-9),
    ];
    let drawn = draw(&csv(&lines)).expect("a picture");
    let name = "check, a tariff, large &amp; &lt;small&gt;, 1000 bytes";
    assert!(drawn.contains(name), "{drawn}");
    assert!(drawn.contains(">1,000,000 ns<"), "{drawn}");
    let bars = drawn.split("<rect x=\"400\"").skip(1).map(|bar| {
        let (_, width) = bar.split_once("width=\"").expect("a width");
        let width = width.split('"').next().expect("its end");
        width.parse::<f64>().expect("a number")
    });
    let bars: Vec<_> = bars.collect();
    assert_eq!(bars.len(), 4);
    assert!(bars.iter().all(|width| (0.0..=440.0).contains(width)));
    assert!(bars[0] < bars[1] && bars[3] < bars[2]);
}

#[test]
fn what_is_no_table_is_said() {
    let heads = csv(&[]);
    for (table, due) in [
        ("", "no table of times"),
        ("call,bytes\n", "no table of times"),
        (&heads, "the table has no line"),
        (
            &(heads.clone() + "check,x,1,byte,1e-6\n"),
            "line 2 isn't read",
        ),
        (
            &(heads.clone() + "check,x,0,byte,1e-6,1\n"),
            "line 2 isn't read",
        ),
        (
            &(heads.clone() + "check,x,1,byte,NaN,1\n"),
            "line 2 isn't read",
        ),
    ] {
        let error = draw(table).expect_err(due);
        assert!(error.starts_with(due), "{error}");
    }
}
