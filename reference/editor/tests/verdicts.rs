//! Whether trees would be read back differently: the crate's answer and its
//! words beside the judge's.

use std::collections::BTreeMap;

use judge::{
    generate::{self, OperatorCase},
    reader::{self, Accepted, Payload, Record},
    reads_back::{self, Operand, Rule, operands},
    refusal::Refusal,
};
use rrufthim::{
    File, Parent, Place, ReadBackError,
    calls::{self, Verdict},
    reads_back,
};

/// The judge's answer, and the crate's call.
fn same_call(case: &OperatorCase) -> Result<Option<usize>, Refusal> {
    let OperatorCase { source, image } = case;
    let due = reads_back::reads_back(source, image);
    let due = due.map(|verdict| match verdict {
        reads_back::Verdict::Same => None,
        reads_back::Verdict::Differs(at) => Some(at),
    });
    let got = match calls::reads_back(File::new(source, image)) {
        Ok(Verdict::Same) => Ok(None),
        Ok(Verdict::Differs { at }) => Ok(Some(at)),
        Err(refusal) => Err(Refusal {
            number: refusal.number() as u8,
            place: refusal.place() as u64,
        }),
    };
    assert_eq!(got, due);
    due
}

/// The record at an offset.
fn record<'r, 'i>(
    inside: &'r Record<'i>,
    at: usize,
) -> Option<&'r Record<'i>> {
    if inside.at == at {
        return Some(inside);
    }
    let mut children = inside.children.iter().flatten();
    children.find_map(|child| record(child, at))
}

/// The name of the declaration around an offset.
fn name_around<'i>(read: &Accepted<'i>, at: usize) -> &'i str {
    let mut all = read.tree.children.iter().flatten();
    let around = all.find(|one| (one.at..one.end).contains(&at));
    let first = around.and_then(|one| one.children[0].as_ref());
    match first.map(|name| name.payload) {
        Some(Payload::Text { text, .. }) => text,
        other => panic!("{other:?}"),
    }
}

/// What the crate says of the operand in words, by the judge's records.
fn same_words(case: &OperatorCase, read: &Accepted, due: Operand) {
    let OperatorCase { source, image } = case;
    let file = File::new(source, image);
    let Err(ReadBackError::Differs(got)) = reads_back(file) else {
        panic!("it differs");
    };
    let sign = |at| {
        let found = record(&read.tree, at).expect("a record");
        format!("{:?}", reads_back::operator(found))
    };
    assert_eq!(got.at, due.at);
    assert_eq!(format!("{:?}", got.operator), sign(due.at));
    let (rule, over) = match got.parent {
        Parent::LeftOf(operator) => (Rule::Left, Some(operator)),
        Parent::RightOf(operator) => (Rule::Right, Some(operator)),
        Parent::Not => (Rule::Not, None),
        Parent::Negate => (Rule::Negate, None),
    };
    assert_eq!(rule, due.rule);
    if let Some(over) = over {
        assert_eq!(format!("{over:?}"), sign(due.over));
    }
    assert_eq!(got.declaration, name_around(read, due.at));
    let span = record(&read.tree, due.at).expect("a record").span.clone();
    let place = (!span.is_empty()).then(|| Place::new(source, span));
    assert_eq!(got.place, place);
}

#[test]
fn verdicts_and_words() {
    let made = (0..4_000).map(|index| generate::operator_case(21, index));
    let fixed = generate::operator_cases().iter().map(|one| one.of.clone());
    let mut rules = BTreeMap::<Rule, usize>::new();
    let [mut placed, mut refused] = [0; 2];
    for case in made.chain(fixed) {
        let answer = same_call(&case);
        let Ok(at) = answer else {
            let file = File::new(&case.source, &case.image);
            let said = reads_back(file);
            assert!(matches!(said, Err(ReadBackError::Refused(_))));
            refused += 1;
            continue;
        };
        let read = reader::read(&case.source, &case.image).expect("read");
        let Some(due) = operands(&read).first().copied() else {
            assert_eq!(at, None);
            let file = File::new(&case.source, &case.image);
            assert_eq!(reads_back(file), Ok(()));
            continue;
        };
        *rules.entry(due.rule).or_default() += 1;
        let span = record(&read.tree, due.at).expect("a record").span.clone();
        placed += usize::from(!span.is_empty());
        same_words(&case, &read, due);
    }
    let least = rules.values().min().copied().unwrap_or(0);
    assert!(rules.len() == 4 && least > 300, "{rules:?}");
    assert!(placed > 50 && refused > 100, "{placed}, {refused}");
}
