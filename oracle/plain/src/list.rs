//! The plain ordered list: what one key does to it and how that is counted. A leaf's entries are such a list too.
use crate::{Action, Call, Counts, Entry, Expectation, Operation, Reference};

#[derive(Clone, Copy, Debug, PartialEq, Eq)]
pub enum Wish {
    Always(Action),
    IfMet(Expectation, Action),
}

#[derive(Clone, Copy, Debug, PartialEq, Eq)]
pub struct Task {
    pub key: u64,
    pub wish: Wish,
}

#[derive(Clone, Copy, Debug, PartialEq, Eq)]
pub enum Effect {
    Leave,
    Add(Reference),
    Replace(Reference),
    Remove,
}

pub fn tasks_of(c: &Call) -> Vec<Task> {
    let each = |wish| c.keys.iter().map(|&key| Task { key, wish }).collect();
    match c.operation {
        Operation::Set(r) => each(Wish::Always(Action::Set(r))),
        Operation::SetEach => c.keys.iter().zip(c.references()).map(|(&key, r)| Task { key, wish: Wish::Always(Action::Set(r)) }).collect(),
        Operation::Remove => each(Wish::Always(Action::Remove)),
        Operation::Compare(e, a) => each(Wish::IfMet(e, a)),
    }
}

fn act(a: Action, held: Option<Reference>) -> Effect {
    match (a, held) {
        (Action::Set(r), None) => Effect::Add(r),
        (Action::Set(r), Some(_)) => Effect::Replace(r),
        (Action::Remove, None) => Effect::Leave,
        (Action::Remove, Some(_)) => Effect::Remove,
    }
}

/// A dead entry is present, so Absent is not met by it.
fn met(e: Expectation, held: Option<Reference>) -> bool {
    match e {
        Expectation::Absent => held.is_none(),
        Expectation::Holds(r) => held == Some(r),
    }
}

pub fn effect(w: Wish, held: Option<Reference>) -> Effect {
    match w {
        Wish::Always(a) => act(a, held),
        Wish::IfMet(e, a) if met(e, held) => act(a, held),
        Wish::IfMet(..) => Effect::Leave,
    }
}

pub fn count(e: Effect, c: &mut Counts) {
    match e {
        Effect::Leave => c.nothing += 1,
        Effect::Add(_) => c.added += 1,
        Effect::Replace(_) => c.replaced += 1,
        Effect::Remove => c.removed += 1,
    }
}

/// One task done to a list; its effect.
pub fn step(t: &Task, es: &mut Vec<Entry>) -> Effect {
    let at = es.partition_point(|e| e.key < t.key);
    let held = es.get(at).filter(|e| e.key == t.key).map(|e| e.reference());
    let effect = effect(t.wish, held);
    match effect {
        Effect::Leave => {}
        Effect::Add(r) => es.insert(at, Entry::of(t.key, r)),
        Effect::Replace(r) => es[at] = Entry::of(t.key, r),
        Effect::Remove => {
            es.remove(at);
        }
    }
    effect
}

/// A batch, its keys taken one at a time.
pub fn plain_batch(c: &Call, es: &mut Vec<Entry>) -> Counts {
    let mut counts = Counts::default();
    for t in tasks_of(c) {
        count(step(&t, es), &mut counts);
    }
    counts
}
