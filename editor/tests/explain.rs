//! A wrong list of steps in words: what is said to be due is what the proved
//! writer takes, at every place of every kind of record.

use std::collections::HashSet;

use rrufthim::{
    NO_SPAN, Refusal,
    generator::{Builder, Explanation, Step, explain, write_image},
    kind,
};

fn open(kind: u8) -> Step {
    Step::Open {
        kind,
        span: NO_SPAN,
    }
}

fn text() -> Step {
    Step::Text {
        width: 1,
        text: "a".into(),
    }
}

fn with(list: &[u8], step: &Step) -> Vec<u8> {
    let mut list = list.to_vec();
    step.append(&mut list);
    list
}

fn at_end(list: &[u8]) -> Explanation {
    explain(list, list.len())
}

/// Whether the writer has nothing against the step behind a list.
fn takes(list: &[u8], step: &Step) -> bool {
    let at = list.len();
    let written = write_image(&with(list, step), &mut []);
    written != Err(Refusal::BadStep { at })
}

/// Whether the explanation says that it is due.
fn is_due(explained: &Explanation, step: &Step) -> bool {
    let due = &explained.due;
    match step {
        Step::Comment { .. } => due.comment,
        Step::Open { kind, .. } => due.kinds.contains(kind),
        Step::Text { .. } => due.text,
        Step::Payload(byte) => due.payload.is_some_and(|most| *byte <= most),
        Step::Absent => due.absent,
        Step::Close => due.close,
    }
}

fn all_steps() -> Vec<Step> {
    let others = [
        Step::Comment { span: 0..1 },
        text(),
        Step::Absent,
        Step::Close,
    ];
    let bytes = (0..=20).map(Step::Payload);
    let opened = (0..=255).map(open);
    opened.chain(bytes).chain(others).collect()
}

/// The shortest that may come next, towards the end of the open record.
fn shortest(explained: &Explanation) -> Step {
    let due = &explained.due;
    let leaves = [kind::NEVER, kind::RETURN, kind::UNDERSCORE];
    let leaf = leaves.into_iter().find(|leaf| due.kinds.contains(leaf));
    if due.text {
        text()
    } else if due.payload.is_some() {
        Step::Payload(0)
    } else if due.absent {
        Step::Absent
    } else if due.close {
        Step::Close
    } else {
        open(leaf.unwrap_or(due.kinds[0]))
    }
}

/// The list with the record that is open last closed.
fn closed(mut list: Vec<u8>) -> Vec<u8> {
    let depth = at_end(&list).within.len();
    while at_end(&list).within.len() >= depth {
        let step = shortest(&at_end(&list));
        assert!(takes(&list, &step), "{}", at_end(&list));
        list = with(&list, &step);
    }
    list
}

#[test]
fn what_is_due_is_what_the_writer_takes() {
    let (mut seen, mut kinds) = (HashSet::new(), HashSet::new());
    let mut waiting = vec![Vec::new()];
    while let Some(list) = waiting.pop() {
        let explained = at_end(&list);
        let last = explained.within.last().copied();
        let due = format!("{:?}", explained.due);
        if !seen.insert((last, explained.children.min(4), due)) {
            continue;
        }
        for step in all_steps() {
            let due = is_due(&explained, &step);
            assert_eq!(takes(&list, &step), due, "{step}, {explained}");
            if !due || matches!(step, Step::Comment { .. } | Step::Close) {
                continue;
            }
            let behind = with(&list, &step);
            if let Step::Open { kind, .. } = step {
                kinds.insert(kind);
                if kind != kind::TREE {
                    waiting.push(closed(behind.clone()));
                }
            }
            waiting.push(behind);
        }
    }
    let known = (0..=255).filter(|number| kind::name(*number).is_some());
    assert_eq!(kinds, known.collect());
    assert!(seen.len() > 100, "{}", seen.len());
}

/// A constant up to its type.
fn constant() -> Result<Builder, Refusal> {
    let mut builder = Builder::new();
    builder.open(kind::TREE, NO_SPAN)?.absent()?;
    builder.open(kind::CONST, NO_SPAN)?;
    builder.open(kind::TEXT, NO_SPAN)?.text("A", 1)?.close()?;
    Ok(builder)
}

/// What is said of the step that the writer names.
fn said(list: &[u8]) -> String {
    let refused = write_image(list, &mut [0; 4_096]).expect_err("wrong");
    let Refusal::BadStep { at } = refused else {
        panic!("{refused}");
    };
    explain(list, at).to_string()
}

#[test]
fn the_words_name_step_record_and_what_was_due() -> Result<(), Refusal> {
    let types = "its type: OPTION, TYPE_PATH, NEVER, UNIT or RECORD_TYPE";
    let place = "in TREE > CONST, child 2: due is";
    let mut builder = constant()?;
    let due = format!("step 7 at 40, the list's end, {place} {types}");
    assert_eq!(said(builder.list()), due);
    builder.absent()?;
    let due = format!("step 7 at 40, `absent`, {place} {types}");
    assert_eq!(said(builder.list()), due);

    let mut builder = constant()?;
    builder.open(99, NO_SPAN)?;
    let due =
        format!("step 7 at 40, `open 99 (no kind) at 0..0`, {place} {types}");
    assert_eq!(said(builder.list()), due);

    let mut builder = constant()?;
    builder.open(kind::UNIT, NO_SPAN)?.close()?;
    builder.open(kind::RETURN, NO_SPAN)?.payload(3)?;
    let due = "step 10 at 61, `payload 3`, in TREE > CONST > RETURN: the byte \
        is too large";
    assert_eq!(said(builder.list()), due);

    assert_eq!(
        said(&[]),
        "step 1 at 0, the list's end: due is a comment; or the tree: TREE"
    );
    let unknown = "step 1 at 0, which is unknown or cut off, or a text that \
        isn't UTF-8: due is a comment; or the tree: TREE";
    assert_eq!(said(&[7]), unknown);
    assert_eq!(said(&[2, 1, 0]), unknown);
    Ok(())
}

/// Of a sort that is due, and wrong in itself.
#[test]
fn faults_of_their_own_are_said() {
    let tree = with(&[], &open(kind::TREE));
    let list = with(&tree, &Step::Absent);
    let span = std::ops::Range { start: 2, end: 1 };
    let reversed = Step::Open {
        kind: kind::CONST,
        span: span.clone(),
    };
    let words = said(&with(&list, &reversed));
    assert!(
        words.ends_with("in TREE, child 2: its span is reversed"),
        "{words}"
    );
    let words = said(&with(&[], &Step::Comment { span }));
    assert!(words.ends_with(": it is empty or reversed"), "{words}");
    let two = with(&[], &Step::Comment { span: 4..8 });
    let words = said(&with(&two, &Step::Comment { span: 7..9 }));
    let due = ": it starts before the end of the one before";
    assert!(words.ends_with(due), "{words}");
    let mut list = list;
    for kind in [kind::TEST, kind::TEXT] {
        list = with(&list, &open(kind));
    }
    list = with(&with(&list, &text()), &Step::Close);
    for kind in [kind::BLOCK, kind::LIST] {
        list = with(&list, &open(kind));
    }
    list = with(&list, &Step::Close);
    while at_end(&list).within.len() < 64 {
        list = with(&list, &open(kind::NOT));
    }
    let words = said(&with(&list, &open(kind::NOT)));
    let due = "in … > NOT > NOT > NOT > NOT > NOT, child 1: it is the 65th \
        record in each other";
    assert!(words.ends_with(due), "{words}");
}

/// What a builder turns down at once isn't in its list: what was due is said.
#[test]
fn what_a_builder_turns_down_is_explained() -> Result<(), Refusal> {
    let mut builder = constant()?;
    builder
        .open(kind::TYPE_PATH, NO_SPAN)?
        .open(kind::PATH, NO_SPAN)?;
    builder.open(kind::TEXT, NO_SPAN)?;
    let Err(Refusal::BadStep { at }) = builder.close() else {
        panic!("a text without its text");
    };
    let words = explain(builder.list(), at).to_string();
    let due = "in TREE > CONST > TYPE_PATH > PATH > TEXT: due is its text";
    assert!(words.ends_with(due), "{words}");
    Ok(())
}
