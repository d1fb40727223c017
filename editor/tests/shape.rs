//! The number of the shape stands for the signatures that include/shape has:
//! who changes one raises the number. And the header's version is the crate's.

#[allow(dead_code)]
#[path = "support/declared.rs"]
mod declared;

use declared::{HEADER, constants, exports, signatures};
use rrufthim::SHAPE;

const STORED: &str = include_str!("../include/shape");

/// The signatures a line each, without the number.
fn listed(exports: &str) -> Vec<String> {
    let lines = signatures(exports).into_iter().map(|(name, parameters)| {
        let plain =
            name.rsplit_once("_s").map_or(&name[..], |(name, _)| name);
        format!("{plain}({})", parameters.join(", "))
    });
    lines.collect()
}

/// What is to be done if functions aren't those that are stored.
fn fault(stored: &str, exports: &str) -> Option<String> {
    let stored: Vec<&str> = stored.lines().skip(1).collect();
    let listed = listed(exports);
    let lost = stored
        .iter()
        .filter(|one| !listed.iter().any(|it| it == *one));
    let new = listed.iter().filter(|one| !stored.contains(&one.as_str()));
    let lost = lost.map(|one| format!("\n- {one}"));
    let changes: String =
        lost.chain(new.map(|one| format!("\n+ {one}"))).collect();
    (stored != listed).then(|| {
        format!(
            "exported functions changed: raise the shape's number by \
             tools/raise-shape, so that no library of before is linked\
             {changes}"
        )
    })
}

#[test]
fn the_number_stands_for_the_signatures() {
    if let Some(words) = fault(STORED, &exports()) {
        panic!("{words}");
    }
    assert_eq!(STORED.lines().next(), Some(&format!("shape {SHAPE}")[..]));
}

/// Words that ask for another number, and name what changed.
fn asks(changed: &str, what: &str) {
    let words = fault(STORED, changed).expect(what);
    assert!(words.contains("raise the shape's number"), "{words}");
    assert!(words.contains("\n- rrufthim_"), "{words}");
}

/// Each array of each function, one place longer.
#[test]
fn longer_arrays_ask_for_another_number() {
    const ARRAY: &str = "[u64; ";
    let text = exports();
    let mut tried = 0;
    for (at, _) in text.match_indices(ARRAY) {
        let (before, behind) = text.split_at(at + ARRAY.len());
        let (places, behind) = behind.split_once(']').expect("its end");
        let places: usize = places.parse().expect("a length");
        let changed = format!("{before}{}]{behind}", places + 1);
        // A function that isn't exported may have arrays too.
        if listed(&changed) != listed(&text) {
            asks(&changed, &before[at.saturating_sub(60)..]);
            tried += 1;
        }
    }
    let arrays = STORED.matches(ARRAY).count();
    assert!(tried == arrays && arrays > 9, "{tried} of {arrays}");
}

#[test]
fn other_changes_ask_for_another_number() {
    let text = exports();
    let changes = [
        ("store: &mut [u32],", "store: &mut [u64],"),
        ("start: u64, end: u64", "end: u64, start: u64"),
        ("steps: &[u8], output", "output"),
        ("table: &mut [u32],", "table: &[u32],"),
        ("\"C\" fn rrufthim_batch_s", "\"C\" fn rrufthim_night_s"),
        (
            "pub extern \"C\" fn rrufthim_count_s",
            "fn rrufthim_count_s",
        ),
    ];
    for (from, to) in changes {
        let changed = text.replacen(from, to, 1);
        assert!(changed != text, "{from}");
        asks(&changed, from);
    }
    // Another number alone is no change of a signature.
    let raised = text.replace(&format!("_s{SHAPE}("), "_s999(");
    assert!(raised != text);
    assert_eq!(fault(STORED, &raised), None);
}

#[test]
fn the_version_is_the_crates() {
    let major = env!("CARGO_PKG_VERSION_MAJOR");
    let minor = env!("CARGO_PKG_VERSION_MINOR");
    let due = format!("#define RRUFTHIM_VERSION \"{major}.{minor}\"\n");
    assert!(HEADER.contains(&due), "{due}");
    let number = |text: &str| text.parse::<usize>().expect("a number");
    let due = 1_000 * number(major) + number(minor);
    let name = "RRUFTHIM_VERSION_NUMBER".to_owned();
    assert!(constants(HEADER).contains(&(name, due)));
}
