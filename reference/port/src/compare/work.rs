//! What there is to compare, and its sharing among threads.

#[cfg(feature = "calls")]
use std::sync::LazyLock;
use std::{
    panic::{AssertUnwindSafe, catch_unwind},
    sync::atomic::{AtomicUsize, Ordering},
    thread,
};

#[cfg(feature = "calls")]
use judge::generate::CallCase;
use judge::{
    driver,
    frame::Frame,
    generate::{self, Class},
    width::REFERENCE,
};

use super::{Tally, frames};

/// One thing to compare; its seed is the plan's.
#[derive(Clone, Copy, Debug, PartialEq, Eq)]
pub enum Item {
    Frame(Class, u64),
    /// A frame with a width of its own.
    Wide(u64),
    /// A file with comments after its last declaration.
    Foot(u64),
    /// A file with characters of two columns, or none.
    Broad(u64),
    /// A size of document 01, without the frame's limit.
    Size(usize),
    #[cfg(feature = "calls")]
    List(u64),
    /// A list on a file with comments after its last declaration.
    #[cfg(feature = "calls")]
    FootList(u64),
    /// A list with a number far out.
    #[cfg(feature = "calls")]
    Stretched(u64),
    /// A list with rules of widths.
    #[cfg(feature = "calls")]
    RuleList(u64),
    /// The same with a number far out.
    #[cfg(feature = "calls")]
    StretchedRules(u64),
    /// A case of the fixed list of calls with rules.
    #[cfg(feature = "calls")]
    Rules(usize),
    /// A text of few bytes, whole or not, to be rendered by a rule.
    #[cfg(feature = "calls")]
    Text(usize),
    /// A part of all code points.
    #[cfg(feature = "calls")]
    Points(usize),
    #[cfg(feature = "calls")]
    Large(usize),
    /// A size of document 01 as calls.
    #[cfg(feature = "calls")]
    SizeCalls(usize),
    /// A case of the fixed list of rendering calls.
    #[cfg(feature = "calls")]
    Rendering(usize),
    /// A text with ranges to count newlines in.
    #[cfg(feature = "calls")]
    Ranges(u64),
    /// So many files counted one after another.
    #[cfg(feature = "calls")]
    Files(u64),
    /// An image to steps and back.
    #[cfg(feature = "calls")]
    Image(u64),
    /// A list of steps, damaged or not.
    #[cfg(feature = "calls")]
    Steps(u64),
    /// A size of document 01 as a list of steps.
    #[cfg(feature = "calls")]
    StepSize(usize),
    /// A batch, damaged or not.
    #[cfg(feature = "calls")]
    Batch(u64),
    /// A batch of the fixed list.
    #[cfg(feature = "calls")]
    FixedBatch(usize),
    /// An input of the program `report`.
    #[cfg(feature = "calls")]
    Report(u64),
    /// An image forward to version 2 and back.
    #[cfg(feature = "calls")]
    Moved(u64),
    /// An image of either version to move, damaged or not.
    #[cfg(feature = "calls")]
    Move(u64),
    /// An image of the fixed list to move.
    #[cfg(feature = "calls")]
    FixedMove(usize),
    /// A file of version 2.
    Two(u64),
    /// A list on an image of version 2.
    #[cfg(feature = "calls")]
    TwoList(u64),
    /// A file whose comments are in order or not.
    #[cfg(feature = "calls")]
    Order(u64),
    /// A list at both entries of layout on such a file.
    #[cfg(feature = "calls")]
    OrderList(u64),
    /// A tree of operators, damaged or not.
    #[cfg(feature = "calls")]
    Verdict(u64),
    /// A tree of the fixed list.
    #[cfg(feature = "calls")]
    FixedVerdict(usize),
    /// The tree of a file of any class.
    #[cfg(feature = "calls")]
    AnyVerdict(u64),
    /// A size and a place of a formula.
    #[cfg(feature = "calls")]
    Formula(usize),
    /// A document to stop in everywhere.
    #[cfg(feature = "calls")]
    Allotted(u64),
    /// A list of calls with allotments.
    #[cfg(feature = "calls")]
    AllotmentList(u64),
    /// A state handed in that is nearly that of a stop.
    #[cfg(feature = "calls")]
    Handed(u64),
    /// A case of the fixed list of calls with allotments.
    #[cfg(feature = "calls")]
    FixedAllotment(usize),
}

/// All items of a run: so many frames of each class but `sizes`, as many
/// with widths of their own, with comments after the last declaration, with
/// characters of two columns, with comments in order or not, as many documents
/// up to every single row, and as many texts with ranges, all sizes, rendering
/// answers, calls with rules and calls with allotments once, and so many lists,
/// as many of them on files with such comments, with rules, at both entries of
/// layout, with allotments, and from states inside a row. With lists come the
/// largest stores and all code points. Last, so many files to count, so many
/// images to steps and back with as many lists of steps, so many batches, with
/// which comes their fixed list, so many inputs of the program `report`, and so
/// many images forward to version 2 and back, with as many that may be damaged,
/// as many files and a fifth as many lists of calls on images of version 2, and
/// a fixed list of images to move; and so many trees of operators to be read
/// back, with as many of files of any class, and their fixed list and all small
/// formulas.
#[derive(Clone, Copy, Debug)]
pub struct Plan {
    pub seed: u64,
    pub frames: u64,
    pub lists: u64,
    pub files: u64,
    pub steps: u64,
    pub batches: u64,
    pub reports: u64,
    pub moves: u64,
    pub trees: u64,
}

const CLASSES: [Class; 4] =
    [Class::Realistic, Class::Wild, Class::Edges, Class::Damaged];

/// Items that a thread takes at once.
const CHUNK: usize = 32;
const STACK: usize = 64 << 20;

impl Plan {
    pub fn items(&self) -> Vec<Item> {
        // Those that take longest come first.
        let mut items = Vec::new();
        #[cfg(feature = "calls")]
        if self.files > 0 {
            items.push(Item::Files(self.files));
        }
        #[cfg(feature = "calls")]
        if self.lists > 0 {
            items.extend((0..super::large::COUNT).map(Item::Large));
            items.extend((0..super::points::PARTS).map(Item::Points));
        }
        let sizes = generate::size_cases().len();
        items.extend((0..sizes).map(Item::Size));
        #[cfg(feature = "calls")]
        {
            items.extend((0..sizes).map(Item::SizeCalls));
            let rendering = rendering_cases().len();
            items.extend((0..rendering).map(Item::Rendering));
            items.extend((0..rule_cases().len()).map(Item::Rules));
            let allotted = generate::allotment_cases().len();
            items.extend((0..allotted).map(Item::FixedAllotment));
            items.extend((0..every_text().len()).map(Item::Text));
        }
        for class in CLASSES {
            items.extend((0..self.frames).map(|i| Item::Frame(class, i)));
        }
        items.extend((0..self.frames).map(Item::Wide));
        items.extend((0..self.frames).map(Item::Foot));
        items.extend((0..self.frames).map(Item::Broad));
        #[cfg(feature = "calls")]
        items.extend((0..self.frames).map(Item::Order));
        #[cfg(feature = "calls")]
        items.extend((0..self.frames).map(Item::Allotted));
        #[cfg(feature = "calls")]
        items.extend((0..self.frames).map(Item::Ranges));
        #[cfg(feature = "calls")]
        for index in 0..self.lists {
            let list = [
                Item::List,
                Item::Stretched,
                Item::FootList,
                Item::RuleList,
                Item::StretchedRules,
                Item::OrderList,
                Item::AllotmentList,
                Item::Handed,
            ];
            items.extend(list.map(|item| item(index)));
        }
        #[cfg(feature = "calls")]
        items.extend(self.step_items());
        #[cfg(feature = "calls")]
        items.extend(self.batch_items());
        #[cfg(feature = "calls")]
        items.extend((0..self.reports).map(Item::Report));
        items.extend((0..self.moves).map(Item::Two));
        #[cfg(feature = "calls")]
        items.extend(self.move_items());
        #[cfg(feature = "calls")]
        items.extend(self.tree_items());
        items
    }

    #[cfg(feature = "calls")]
    fn tree_items(&self) -> impl Iterator<Item = Item> {
        let fixed = match self.trees {
            0 => 0,
            _ => generate::operator_cases().len(),
        };
        let fixed = (0..fixed).map(Item::FixedVerdict);
        let trees = (0..self.trees).map(Item::Verdict);
        let any = (0..self.trees).map(Item::AnyVerdict);
        let formulas = match self.trees {
            0 => 0,
            _ => super::formulas::CASES,
        };
        let formulas = (0..formulas).map(Item::Formula);
        fixed.chain(trees).chain(any).chain(formulas)
    }

    #[cfg(feature = "calls")]
    fn move_items(&self) -> impl Iterator<Item = Item> {
        /// Images for a list of calls.
        const EACH: u64 = 5;
        let fixed = match self.moves {
            0 => 0,
            _ => generate::move_cases().len(),
        };
        let fixed = (0..fixed).map(Item::FixedMove);
        let lists = (0..self.moves.div_ceil(EACH)).map(Item::TwoList);
        let moved = (0..self.moves).map(Item::Moved);
        let moves = (0..self.moves).map(Item::Move);
        fixed.chain(moved).chain(moves).chain(lists)
    }

    #[cfg(feature = "calls")]
    fn step_items(&self) -> impl Iterator<Item = Item> {
        let sizes = match self.steps {
            0 => 0,
            _ => generate::step_size_cases().len(),
        };
        let sizes = (0..sizes).map(Item::StepSize);
        let images = (0..self.steps).map(Item::Image);
        sizes.chain(images).chain((0..self.steps).map(Item::Steps))
    }

    #[cfg(feature = "calls")]
    fn batch_items(&self) -> impl Iterator<Item = Item> {
        let fixed = match self.batches {
            0 => 0,
            _ => generate::fixed_batches().len(),
        };
        let fixed = (0..fixed).map(Item::FixedBatch);
        fixed.chain((0..self.batches).map(Item::Batch))
    }

    /// Compares all items, on as many threads as the machine has cores.
    pub fn run(&self) -> Tally {
        self.run_kinds(&[])
    }

    /// The same with the items of some kinds alone, if any is named.
    pub fn run_kinds(&self, kinds: &[&str]) -> Tally {
        let mut items = self.items();
        items.retain(|item| {
            let name = name(*item, self.seed);
            let kind = name.split(' ').next().expect("a kind");
            kinds.is_empty() || kinds.contains(&kind)
        });
        let next = AtomicUsize::new(0);
        let threads = thread::available_parallelism().map_or(1, usize::from);
        let mut tally = Tally::default();
        thread::scope(|scope| {
            let work = || self.share(&items, &next);
            let spawn = |_| {
                let builder = thread::Builder::new().stack_size(STACK);
                builder.spawn_scoped(scope, work).expect("a thread")
            };
            let running: Vec<_> = (0..threads).map(spawn).collect();
            for one in running {
                tally.join(one.join().expect("a tally"));
            }
        });
        tally
    }

    fn share(&self, items: &[Item], next: &AtomicUsize) -> Tally {
        let mut tally = Tally::default();
        loop {
            let from = next.fetch_add(CHUNK, Ordering::Relaxed);
            let to = (from + CHUNK).min(items.len());
            if from >= to {
                return tally;
            }
            for (place, item) in (from..).zip(&items[from..to]) {
                tally.begin(place, name(*item, self.seed));
                one(&mut tally, *item, self.seed);
            }
        }
    }
}

/// Compares one item. A panic of the judge counts as a difference.
pub fn one(tally: &mut Tally, item: Item, seed: u64) {
    let compare = AssertUnwindSafe(|| compare(tally, item, seed));
    if catch_unwind(compare).is_err() {
        tally.differ("panic".into());
    }
    tally.margins(driver::margins_tried());
}

fn compare(tally: &mut Tally, item: Item, seed: u64) {
    match item {
        Item::Frame(class, index) => {
            let bytes = generate::frame(class, seed, index);
            frames::compare(tally, class_name(class), &bytes, REFERENCE);
        }
        Item::Wide(index) => {
            let (bytes, width) = generate::wide_frame(seed, index);
            frames::compare(tally, "widths", &bytes, width);
        }
        Item::Foot(index) => {
            let bytes = generate::foot_frame(seed, index);
            frames::compare(tally, "feet", &bytes, REFERENCE);
        }
        Item::Broad(index) => {
            let (bytes, choice) = generate::broad_frame(seed, index);
            frames::compare(tally, "broad", &bytes, choice.width);
        }
        Item::Size(place) => {
            let case = &generate::size_cases()[place];
            let frame = Frame {
                source: &case.source,
                image: &case.image,
            };
            frames::compare_parts(tally, "sizes", frame, REFERENCE);
        }
        #[cfg(feature = "calls")]
        Item::List(index) => {
            let case = generate::call_case(seed, index);
            super::lists::compare(tally, "lists", &case);
        }
        #[cfg(feature = "calls")]
        Item::FootList(index) => {
            let case = generate::foot_case(seed, index);
            super::lists::compare(tally, "lists, feet", &case);
        }
        #[cfg(feature = "calls")]
        Item::Stretched(index) => {
            let case = generate::call_case(seed, index);
            let case = super::lists::stretched(&case, seed, index);
            super::lists::compare(tally, "lists, stretched", &case);
        }
        #[cfg(feature = "calls")]
        Item::RuleList(index) => {
            let case = generate::rule_case(seed, index);
            super::lists::compare(tally, "lists, rules", &case);
        }
        #[cfg(feature = "calls")]
        Item::StretchedRules(index) => {
            let case = generate::rule_case(seed, index);
            let case = super::lists::stretched(&case, seed, index);
            super::lists::compare(tally, "lists, rules, stretched", &case);
        }
        #[cfg(feature = "calls")]
        Item::Rules(place) => {
            let case = &rule_cases()[place];
            super::lists::compare(tally, "rules, fixed list", case);
        }
        #[cfg(feature = "calls")]
        Item::Text(place) => {
            let case = &every_text()[place];
            super::lists::compare(tally, "texts by a rule", case);
        }
        #[cfg(feature = "calls")]
        Item::Points(part) => super::points::compare(tally, part),
        #[cfg(feature = "calls")]
        Item::Large(place) => {
            let case = super::large::numbered(place);
            super::lists::compare(tally, "largest stores", &case);
        }
        #[cfg(feature = "calls")]
        Item::SizeCalls(place) => {
            let case = generate::size_cases()[place].as_calls();
            super::lists::compare(tally, "sizes as calls", &case);
        }
        #[cfg(feature = "calls")]
        Item::Rendering(place) => {
            let case = &rendering_cases()[place];
            super::lists::compare(tally, "rendering answers", case);
        }
        #[cfg(feature = "calls")]
        Item::Ranges(index) => {
            let case = generate::range_case(seed, index);
            super::ranges::compare(tally, &case);
        }
        #[cfg(feature = "calls")]
        Item::Files(count) => super::files::compare(tally, seed, count),
        #[cfg(feature = "calls")]
        Item::Image(index) => super::images::compare(tally, seed, index),
        #[cfg(feature = "calls")]
        Item::Steps(index) => super::step_lists::compare(tally, seed, index),
        #[cfg(feature = "calls")]
        Item::StepSize(place) => {
            super::step_lists::compare_size(tally, place);
        }
        #[cfg(feature = "calls")]
        Item::Batch(index) => super::batches::compare(tally, seed, index),
        #[cfg(feature = "calls")]
        Item::FixedBatch(place) => {
            super::batches::compare_fixed(tally, place);
        }
        #[cfg(feature = "calls")]
        Item::Report(index) => super::reports::compare(tally, seed, index),
        #[cfg(feature = "calls")]
        Item::Moved(index) => super::moves::compare(tally, seed, index),
        #[cfg(feature = "calls")]
        Item::Move(index) => super::moves::compare_case(tally, seed, index),
        #[cfg(feature = "calls")]
        Item::FixedMove(place) => {
            super::moves::compare_fixed(tally, place);
        }
        Item::Two(index) => {
            let bytes = generate::two_frame(seed, index);
            frames::compare(tally, "version 2", &bytes, REFERENCE);
        }
        #[cfg(feature = "calls")]
        Item::TwoList(index) => {
            let case = generate::two_case(seed, index);
            super::lists::compare(tally, "lists, version 2", &case);
        }
        #[cfg(feature = "calls")]
        Item::Order(index) => super::orders::compare(tally, seed, index),
        #[cfg(feature = "calls")]
        Item::OrderList(index) => {
            let case = generate::order_list(seed, index);
            super::lists::compare(tally, "lists, both entries", &case);
        }
        #[cfg(feature = "calls")]
        Item::Verdict(index) => super::verdicts::compare(tally, seed, index),
        #[cfg(feature = "calls")]
        Item::FixedVerdict(place) => {
            super::verdicts::compare_fixed(tally, place);
        }
        #[cfg(feature = "calls")]
        Item::AnyVerdict(index) => {
            super::verdicts::compare_any(tally, seed, index);
        }
        #[cfg(feature = "calls")]
        Item::Formula(number) => super::formulas::compare(tally, number),
        #[cfg(feature = "calls")]
        Item::Allotted(index) => {
            super::allotments::compare(tally, seed, index);
        }
        #[cfg(feature = "calls")]
        Item::AllotmentList(index) => {
            super::allotments::compare_list(tally, seed, index);
        }
        #[cfg(feature = "calls")]
        Item::Handed(index) => {
            super::allotments::compare_handed(tally, seed, index);
        }
        #[cfg(feature = "calls")]
        Item::FixedAllotment(place) => {
            let case = &generate::allotment_cases()[place];
            super::lists::compare(tally, "allotments, fixed list", case);
        }
    }
}

#[cfg(feature = "calls")]
fn rendering_cases() -> &'static [CallCase] {
    static CASES: LazyLock<Vec<CallCase>> =
        LazyLock::new(generate::rendering_cases);
    &CASES
}

#[cfg(feature = "calls")]
fn rule_cases() -> &'static [CallCase] {
    static CASES: LazyLock<Vec<CallCase>> =
        LazyLock::new(generate::rule_cases);
    &CASES
}

#[cfg(feature = "calls")]
fn every_text() -> &'static [CallCase] {
    static CASES: LazyLock<Vec<CallCase>> =
        LazyLock::new(generate::every_text);
    &CASES
}

pub(super) fn class_name(class: Class) -> &'static str {
    let known = Class::ALL.into_iter().find(|(known, _)| *known == class);
    known.expect("all classes are listed").1
}

/// The words after `compare` that repeat an item.
fn name(item: Item, seed: u64) -> String {
    let (kind, index) = match item {
        Item::Frame(class, index) => (class_name(class), index),
        Item::Wide(index) => ("widths", index),
        Item::Foot(index) => ("feet", index),
        Item::Broad(index) => ("broad", index),
        Item::Size(place) => ("sizes", place as u64),
        #[cfg(feature = "calls")]
        Item::List(index) => ("list", index),
        #[cfg(feature = "calls")]
        Item::FootList(index) => ("foot-list", index),
        #[cfg(feature = "calls")]
        Item::Stretched(index) => ("stretched", index),
        #[cfg(feature = "calls")]
        Item::RuleList(index) => ("rule-list", index),
        #[cfg(feature = "calls")]
        Item::StretchedRules(index) => ("stretched-rules", index),
        #[cfg(feature = "calls")]
        Item::Rules(place) => ("rules", place as u64),
        #[cfg(feature = "calls")]
        Item::Text(place) => ("text", place as u64),
        #[cfg(feature = "calls")]
        Item::Points(part) => ("points", part as u64),
        #[cfg(feature = "calls")]
        Item::Large(place) => ("large", place as u64),
        #[cfg(feature = "calls")]
        Item::SizeCalls(place) => ("size-calls", place as u64),
        #[cfg(feature = "calls")]
        Item::Rendering(place) => ("rendering", place as u64),
        #[cfg(feature = "calls")]
        Item::Ranges(index) => ("ranges", index),
        #[cfg(feature = "calls")]
        Item::Files(count) => ("files", count),
        #[cfg(feature = "calls")]
        Item::Image(index) => ("image", index),
        #[cfg(feature = "calls")]
        Item::Steps(index) => ("steps", index),
        #[cfg(feature = "calls")]
        Item::StepSize(place) => ("step-size", place as u64),
        #[cfg(feature = "calls")]
        Item::Batch(index) => ("batch", index),
        #[cfg(feature = "calls")]
        Item::FixedBatch(place) => ("fixed-batch", place as u64),
        #[cfg(feature = "calls")]
        Item::Report(index) => ("report", index),
        #[cfg(feature = "calls")]
        Item::Moved(index) => ("moved", index),
        #[cfg(feature = "calls")]
        Item::Move(index) => ("move", index),
        #[cfg(feature = "calls")]
        Item::FixedMove(place) => ("fixed-move", place as u64),
        Item::Two(index) => ("two", index),
        #[cfg(feature = "calls")]
        Item::TwoList(index) => ("two-list", index),
        #[cfg(feature = "calls")]
        Item::Order(index) => ("order", index),
        #[cfg(feature = "calls")]
        Item::OrderList(index) => ("order-list", index),
        #[cfg(feature = "calls")]
        Item::Verdict(index) => ("verdict", index),
        #[cfg(feature = "calls")]
        Item::FixedVerdict(place) => ("fixed-verdict", place as u64),
        #[cfg(feature = "calls")]
        Item::AnyVerdict(index) => ("any-verdict", index),
        #[cfg(feature = "calls")]
        Item::Formula(number) => ("formula", number as u64),
        #[cfg(feature = "calls")]
        Item::Allotted(index) => ("allotted", index),
        #[cfg(feature = "calls")]
        Item::AllotmentList(index) => ("allotment-list", index),
        #[cfg(feature = "calls")]
        Item::Handed(index) => ("handed", index),
        #[cfg(feature = "calls")]
        Item::FixedAllotment(place) => ("fixed-allotment", place as u64),
    };
    format!("{kind} {seed} {index}")
}

impl Item {
    /// The item that [`name`] named.
    pub fn from_words(kind: &str, index: u64) -> Option<Item> {
        match kind {
            "sizes" => Some(Item::Size(index as usize)),
            "widths" => Some(Item::Wide(index)),
            "feet" => Some(Item::Foot(index)),
            "broad" => Some(Item::Broad(index)),
            #[cfg(feature = "calls")]
            "list" => Some(Item::List(index)),
            #[cfg(feature = "calls")]
            "foot-list" => Some(Item::FootList(index)),
            #[cfg(feature = "calls")]
            "stretched" => Some(Item::Stretched(index)),
            #[cfg(feature = "calls")]
            "rule-list" => Some(Item::RuleList(index)),
            #[cfg(feature = "calls")]
            "stretched-rules" => Some(Item::StretchedRules(index)),
            #[cfg(feature = "calls")]
            "rules" => Some(Item::Rules(index as usize)),
            #[cfg(feature = "calls")]
            "text" => Some(Item::Text(index as usize)),
            #[cfg(feature = "calls")]
            "points" => Some(Item::Points(index as usize)),
            #[cfg(feature = "calls")]
            "large" => Some(Item::Large(index as usize)),
            #[cfg(feature = "calls")]
            "size-calls" => Some(Item::SizeCalls(index as usize)),
            #[cfg(feature = "calls")]
            "rendering" => Some(Item::Rendering(index as usize)),
            #[cfg(feature = "calls")]
            "ranges" => Some(Item::Ranges(index)),
            #[cfg(feature = "calls")]
            "files" => Some(Item::Files(index)),
            #[cfg(feature = "calls")]
            "image" => Some(Item::Image(index)),
            #[cfg(feature = "calls")]
            "steps" => Some(Item::Steps(index)),
            #[cfg(feature = "calls")]
            "step-size" => Some(Item::StepSize(index as usize)),
            #[cfg(feature = "calls")]
            "batch" => Some(Item::Batch(index)),
            #[cfg(feature = "calls")]
            "fixed-batch" => Some(Item::FixedBatch(index as usize)),
            #[cfg(feature = "calls")]
            "report" => Some(Item::Report(index)),
            #[cfg(feature = "calls")]
            "moved" => Some(Item::Moved(index)),
            #[cfg(feature = "calls")]
            "move" => Some(Item::Move(index)),
            #[cfg(feature = "calls")]
            "fixed-move" => Some(Item::FixedMove(index as usize)),
            "two" => Some(Item::Two(index)),
            #[cfg(feature = "calls")]
            "two-list" => Some(Item::TwoList(index)),
            #[cfg(feature = "calls")]
            "order" => Some(Item::Order(index)),
            #[cfg(feature = "calls")]
            "order-list" => Some(Item::OrderList(index)),
            #[cfg(feature = "calls")]
            "verdict" => Some(Item::Verdict(index)),
            #[cfg(feature = "calls")]
            "fixed-verdict" => Some(Item::FixedVerdict(index as usize)),
            #[cfg(feature = "calls")]
            "any-verdict" => Some(Item::AnyVerdict(index)),
            #[cfg(feature = "calls")]
            "formula" => Some(Item::Formula(index as usize)),
            #[cfg(feature = "calls")]
            "allotted" => Some(Item::Allotted(index)),
            #[cfg(feature = "calls")]
            "allotment-list" => Some(Item::AllotmentList(index)),
            #[cfg(feature = "calls")]
            "handed" => Some(Item::Handed(index)),
            #[cfg(feature = "calls")]
            "fixed-allotment" => Some(Item::FixedAllotment(index as usize)),
            _ => Class::from_name(kind).map(|c| Item::Frame(c, index)),
        }
    }
}
