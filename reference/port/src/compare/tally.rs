//! Counts of answers, and the differences met.

use std::collections::BTreeMap;

/// How many differences of a kind are kept to be shown.
const SHOWN: usize = 3;

/// What was counted. Tallies of several threads are joined.
#[derive(Debug, Default)]
pub struct Tally {
    /// How often a refusal number came under a heading, 0 for accepted.
    counts: BTreeMap<(String, u8), u64>,
    /// How many texts of a sort were tried word by word, and how many of them
    /// are something else.
    texts: BTreeMap<&'static str, [u64; 2]>,
    /// How many items of a kind there were, and how often request 13's sentence
    /// was tried on a row of theirs.
    margins: BTreeMap<String, [u64; 2]>,
    pub differences: u64,
    /// The first ones of each kind of item, by the item's place in the plan.
    first: BTreeMap<String, BTreeMap<(usize, u64), String>>,
    /// The item under way: its place in the plan, and how it is repeated.
    item: (usize, String),
}

impl Tally {
    /// Sets the item that counts and differences belong to.
    pub fn begin(&mut self, place: usize, name: String) {
        self.item = (place, name);
    }

    pub fn count(&mut self, heading: &str, number: u8) {
        let key = (heading.to_string(), number);
        *self.counts.entry(key).or_default() += 1;
    }

    /// Counts the item under way, with how often request 13's sentence was
    /// tried on a row of it: by the judge, who panics where it doesn't hold.
    pub fn margins(&mut self, tried: u64) {
        let kind = self.item.1.split(' ').next().unwrap_or_default();
        let [items, rows] = self.margins.entry(kind.into()).or_default();
        *items += u64::from(tried > 0);
        *rows += tried;
    }

    /// How often it was tried in all.
    pub fn margins_tried(&self) -> u64 {
        self.margins.values().map(|[_, tried]| tried).sum()
    }

    pub fn differ(&mut self, what: String) {
        self.differences += 1;
        let (place, name) = &self.item;
        let kind = name.split(' ').next().unwrap_or_default();
        let first = self.first.entry(kind.into()).or_default();
        let key = (*place, self.differences);
        first.insert(key, format!("{name}: {what}"));
        if first.len() > SHOWN {
            first.pop_last();
        }
    }

    /// A difference if two things aren't the same; says if they are.
    pub fn expect<T: PartialEq + std::fmt::Debug>(
        &mut self,
        what: &str,
        due: &T,
        got: &T,
    ) -> bool {
        if due == got {
            return true;
        }
        self.differ(format!("{what}\n  due {due:?}\n  got {got:?}"));
        false
    }

    /// As [`Tally::expect`], for long buffers: shows the first difference.
    pub fn expect_bytes(
        &mut self,
        what: &str,
        due: &[u8],
        got: &[u8],
    ) -> bool {
        if due == got {
            return true;
        }
        let pairs = due.iter().zip(got);
        let same = pairs.take_while(|(due, got)| due == got).count();
        let show = |bytes: &[u8]| {
            let to = bytes.len().min(same + 16);
            format!("{:02x?} of {}", &bytes[same.min(to)..to], bytes.len())
        };
        let [due, got] = [due, got].map(show);
        self.differ(format!("{what}, byte {same}\n  due {due}\n  got {got}"));
        false
    }

    /// Counts a text; a difference if it isn't the program.
    pub fn text(&mut self, sort: &'static str, answer: Result<(), String>) {
        let [tried, faulty] = self.texts.entry(sort).or_default();
        *tried += 1;
        if let Err(fault) = answer {
            *faulty += 1;
            self.differ(format!(
                "{sort}: not the program, word by word\n  {fault}"
            ));
        }
    }

    /// How many texts of a sort were tried, and how many are faulty.
    pub fn texts_of(&self, sort: &str) -> [u64; 2] {
        self.texts.get(sort).copied().unwrap_or_default()
    }

    /// How many were tried of all sorts.
    pub fn texts(&self) -> u64 {
        self.texts.values().map(|[tried, _]| tried).sum()
    }

    pub fn join(&mut self, other: Tally) {
        for (key, count) in other.counts {
            *self.counts.entry(key).or_default() += count;
        }
        for (sort, others) in other.texts {
            let counts = self.texts.entry(sort).or_default();
            for (count, other) in counts.iter_mut().zip(others) {
                *count += other;
            }
        }
        for (kind, others) in other.margins {
            let counts = self.margins.entry(kind).or_default();
            for (count, other) in counts.iter_mut().zip(others) {
                *count += other;
            }
        }
        self.differences += other.differences;
        for (kind, others) in other.first {
            let first = self.first.entry(kind).or_default();
            first.extend(others);
            while first.len() > SHOWN {
                first.pop_last();
            }
        }
    }

    /// A line for each heading, each sort of text and each kind of item with
    /// rows that are rendered, then the first differences.
    pub fn report(&self) -> String {
        let mut lines: BTreeMap<&str, Vec<String>> = BTreeMap::new();
        for ((heading, number), count) in &self.counts {
            let part = match number {
                0 => format!("{count} accepted"),
                number => format!("{count} refused {number}"),
            };
            lines.entry(heading).or_default().push(part);
        }
        let mut out = String::new();
        for (heading, parts) in lines {
            out += &format!("{heading}: {}\n", parts.join(", "));
        }
        for (sort, [tried, faulty]) in &self.texts {
            out += &format!("texts of {sort}: {tried} tried");
            if *faulty > 0 {
                out += &format!(", {faulty} not the program");
            }
            out += "\n";
        }
        for (kind, [items, tried]) in &self.margins {
            if *tried > 0 {
                out += &format!(
                    "13's sentence, {kind}: tried on {tried} rows of {items} items\n"
                );
            }
        }
        for what in self.first.values().flat_map(BTreeMap::values) {
            out += &format!("difference, {what}\n");
        }
        out
    }
}
