//! The comparison runs clean on the judge itself, and finds what is planted.

#![cfg(feature = "stand-in")]

use judge::rows;
use port::{
    compare::{Item, PORT_WORDS, Plan, Tally, one, texts},
    measure::inputs,
    stand_in::{Fault, plant},
};

const PLAN: Plan = Plan {
    seed: 5,
    frames: 150,
    lists: 300,
    files: 100,
    steps: 300,
    batches: 60,
    reports: 10,
    moves: 150,
    trees: 400,
};

const SHORT: Plan = Plan {
    seed: 5,
    frames: 1,
    lists: 0,
    files: 0,
    steps: 0,
    batches: 0,
    reports: 0,
    moves: 0,
    trees: 0,
};

/// One test, since a planted fault holds for all threads.
#[test]
fn each_planted_fault_is_found() {
    let tally = PLAN.run();
    assert_eq!(tally.differences, 0, "{}", tally.report());
    texts_of_each_sort_are_tried(&tally);
    margins_are_tried(&tally);
    for fault in [Fault::CommentLost, Fault::WordsSwapped] {
        plant(fault);
        let tally = PLAN.run();
        plant(Fault::None);
        faulty_texts_are_found(&tally, fault);
    }
    for fault in Fault::ALL {
        plant(fault);
        let mut tally = Tally::default();
        for item in items(fault) {
            if tally.differences == 0 {
                one(&mut tally, item, PLAN.seed);
            }
        }
        if fault == Fault::TextByte {
            let report = SHORT.run().report();
            assert!(report.contains("difference, edges 5 0: "), "{report}");
        }
        plant(Fault::None);
        assert!(tally.differences > 0, "{fault:?} isn't found");
        println!("{fault:?}\n{}", tally.report());
    }
}

/// What is compared to find a fault, the likely ones first.
fn items(fault: Fault) -> Vec<Item> {
    let mut items = PLAN.items();
    items.retain(|item| !matches!(item, Item::Large(_)));
    let of_points = [
        Fault::OneCodePoint,
        Fault::BadBytesCounted,
        Fault::BytesSupplied,
    ];
    let is_points = |item: &Item| matches!(item, Item::Points(_));
    items.retain(|item| is_points(item) == of_points.contains(&fault));
    // Batches come last but for reports.
    let batches = Fault::FramePlace as u8..=Fault::RefusedUncounted as u8;
    if batches.contains(&(fault as u8)) {
        items.reverse();
    }
    if fault as u8 >= Fault::OneRule as u8 {
        items.sort_by_key(|item| {
            !matches!(item, Item::Rules(_) | Item::Text(_))
        });
    }
    if fault as u8 >= Fault::MovedByte as u8 {
        items.sort_by_key(|item| !is_of_moves(item));
    }
    if fault as u8 >= Fault::OrderForgotten as u8 {
        items.sort_by_key(from_orders);
    }
    if fault as u8 >= Fault::SidesExchanged as u8 {
        items.sort_by_key(|item| !is_of_trees(item));
    }
    if fault as u8 >= Fault::StopUnclosed as u8 {
        items.sort_by_key(from_allotments);
    } else {
        // What other faults there are shows elsewhere, and sooner.
        items.retain(|item| !is_of_allotments(item));
    }
    if fault as u8 >= Fault::TimesFirst as u8 {
        items.sort_by_key(|item| !matches!(item, Item::Formula(_)));
    }
    items
}

/// What is compared for allotments alone.
fn is_of_allotments(item: &Item) -> bool {
    matches!(
        item,
        Item::FixedAllotment(_)
            | Item::Handed(_)
            | Item::AllotmentList(_)
            | Item::Allotted(_)
    )
}

/// What tries allotments, what takes longest last.
fn from_allotments(item: &Item) -> u8 {
    match item {
        Item::FixedAllotment(_) => 0,
        Item::Handed(_) | Item::AllotmentList(_) => 1,
        Item::Stretched(_) => 2,
        Item::Allotted(_) => 3,
        _ => 4,
    }
}

/// What is asked whether it is read back.
fn is_of_trees(item: &Item) -> bool {
    matches!(
        item,
        Item::Verdict(_) | Item::FixedVerdict(_) | Item::AnyVerdict(_)
    )
}

/// What tries the order of comments comes first, then the longest lists.
fn from_orders(item: &Item) -> u8 {
    match item {
        Item::Order(_) | Item::OrderList(_) => 0,
        Item::Size(_) | Item::StepSize(_) => 1,
        _ => 2,
    }
}

/// What is of version 2 alone, and short.
fn is_of_moves(item: &Item) -> bool {
    matches!(
        item,
        Item::FixedMove(_)
            | Item::Move(_)
            | Item::Moved(_)
            | Item::Two(_)
            | Item::TwoList(_)
            | Item::FixedBatch(_)
    )
}

fn texts_of_each_sort_are_tried(tally: &Tally) {
    for sort in texts::SORTS {
        let [tried, faulty] = tally.texts_of(sort);
        assert!(tried > 0 && faulty == 0, "{sort}, {}", tally.report());
    }
}

/// Request 13's sentence is tried on every frame with a width, every document
/// and every list with allotments.
fn margins_are_tried(tally: &Tally) {
    let report = tally.report();
    for kind in ["widths", "allotted", "allotment-list", "handed"] {
        let line = format!("13's sentence, {kind}: tried on ");
        assert!(report.contains(&line), "{report}");
    }
    assert!(tally.margins_tried() > 100_000, "{report}");
}

/// By what each text says, the other side aside: all of the port's are wrong,
/// and none of the judge's.
fn faulty_texts_are_found(tally: &Tally, fault: Fault) {
    for sort in texts::SORTS {
        let [_, faulty] = tally.texts_of(sort);
        let found = sort.ends_with("the port's");
        assert_eq!(faulty > 0, found, "{fault:?}, {sort}");
    }
    let report = tally.report();
    assert!(report.contains("not the program, word by word"), "{report}");
}

/// Rows that no layout made name words by the judge's starts, so the tables
/// must be the same, and the one here that of the port.
#[test]
fn the_words_are_those_of_the_port() {
    assert_eq!(PORT_WORDS, rows::fixed_words());
    // The literal goes on behind a backslash at a line's end.
    let port = include_str!("../../../crates/rows/src/words.rt")
        .replace("\\\n    ", "");
    let literal = PORT_WORDS.replace('"', "\\\"");
    assert!(port.contains(&format!("*b\"{literal}\"")));
}

#[test]
fn items_are_repeated_by_their_names() {
    let wild = Item::from_words("wild", 3);
    assert!(matches!(wild, Some(Item::Frame(_, 3))));
    assert_eq!(Item::from_words("list", 4), Some(Item::List(4)));
    assert_eq!(Item::from_words("widths", 6), Some(Item::Wide(6)));
    assert_eq!(Item::from_words("feet", 7), Some(Item::Foot(7)));
    assert_eq!(Item::from_words("foot-list", 8), Some(Item::FootList(8)));
    assert_eq!(Item::from_words("broad", 9), Some(Item::Broad(9)));
    assert_eq!(Item::from_words("rule-list", 1), Some(Item::RuleList(1)));
    assert_eq!(
        Item::from_words("stretched-rules", 2),
        Some(Item::StretchedRules(2))
    );
    assert_eq!(Item::from_words("rules", 3), Some(Item::Rules(3)));
    assert_eq!(Item::from_words("text", 4), Some(Item::Text(4)));
    assert_eq!(Item::from_words("points", 5), Some(Item::Points(5)));
    assert_eq!(Item::from_words("ranges", 5), Some(Item::Ranges(5)));
    assert_eq!(Item::from_words("files", 90), Some(Item::Files(90)));
    assert_eq!(Item::from_words("image", 6), Some(Item::Image(6)));
    assert_eq!(Item::from_words("steps", 7), Some(Item::Steps(7)));
    assert_eq!(Item::from_words("step-size", 1), Some(Item::StepSize(1)));
    assert_eq!(Item::from_words("batch", 9), Some(Item::Batch(9)));
    assert_eq!(
        Item::from_words("fixed-batch", 2),
        Some(Item::FixedBatch(2))
    );
    assert_eq!(Item::from_words("report", 3), Some(Item::Report(3)));
    assert_eq!(Item::from_words("moved", 4), Some(Item::Moved(4)));
    assert_eq!(Item::from_words("move", 5), Some(Item::Move(5)));
    assert_eq!(Item::from_words("fixed-move", 6), Some(Item::FixedMove(6)));
    assert_eq!(Item::from_words("two", 7), Some(Item::Two(7)));
    assert_eq!(Item::from_words("two-list", 8), Some(Item::TwoList(8)));
    assert_eq!(Item::from_words("order", 9), Some(Item::Order(9)));
    assert_eq!(Item::from_words("order-list", 1), Some(Item::OrderList(1)));
    assert_eq!(Item::from_words("other", 4), None);
}

#[test]
fn verdicts_are_repeated_by_their_names() {
    assert_eq!(Item::from_words("verdict", 2), Some(Item::Verdict(2)));
    assert_eq!(
        Item::from_words("fixed-verdict", 3),
        Some(Item::FixedVerdict(3))
    );
    assert_eq!(
        Item::from_words("any-verdict", 4),
        Some(Item::AnyVerdict(4))
    );
    assert_eq!(Item::from_words("formula", 5), Some(Item::Formula(5)));
    assert_eq!(Item::from_words("allotted", 1), Some(Item::Allotted(1)));
    assert_eq!(
        Item::from_words("allotment-list", 2),
        Some(Item::AllotmentList(2))
    );
    assert_eq!(Item::from_words("handed", 3), Some(Item::Handed(3)));
    assert_eq!(
        Item::from_words("fixed-allotment", 4),
        Some(Item::FixedAllotment(4))
    );
    assert_eq!(Item::from_words("other", 4), None);
}

/// Reading the texts is part of making the inputs.
#[test]
fn files_to_time_have_their_sizes() {
    let all = inputs::all();
    let sizes: Vec<usize> = all
        .iter()
        .map(|input| input.files[0].source.len())
        .collect();
    assert!((1_900..2_200).contains(&sizes[0]), "{sizes:?}");
    assert!((63_000..=65_536).contains(&sizes[1]), "{sizes:?}");
    assert_eq!(all[3].files.len(), 100);
    let japanese = inputs::japanese().files[0].source.len();
    assert!((19_000..=20_000).contains(&japanese), "{japanese}");
    let saves = inputs::saves().files;
    assert_eq!(saves.len(), 256);
    for save in &saves {
        let size = save.source.len();
        assert!((1_900..2_200).contains(&size), "{size}");
    }
}
