//! One batch on a tree: a leaf takes tasks, an interior node walks among its children, the root is called until no task is left.
use crate::list::{count, step, tasks_of, Effect, Task};
use crate::share::{absorb, halved, share_out, take_out, Place};
use crate::tree::{release, take_lowest, Index, Items, Node};
use crate::{Call, Counts, Entry, Settings};

#[derive(Clone, Copy, Debug, PartialEq, Eq)]
pub enum Change {
    Unchanged,
    Remove,
    Split,
    Absorb,
    Changed,
}

/// What became of a node that was changed or not, and is now so long.
fn result_of(st: &Settings, changed: bool, n: usize) -> Change {
    match (changed, n) {
        (false, _) => Change::Unchanged,
        (true, 0) => Change::Remove,
        (true, n) if n > st.order => Change::Split,
        (true, n) if n < st.minimum => Change::Absorb,
        _ => Change::Changed,
    }
}

/// What a batch carries: the unused slots and the counts so far.
struct Run {
    unused: Vec<usize>,
    counts: Counts,
}

/// Tasks are taken until none is left, the next key exceeds the ceiling, or the length exceeds the limit.
fn change_leaf<'t>(st: &Settings, ceiling: u64, mut es: Vec<Entry>, mut tasks: &'t [Task], run: &mut Run) -> (Vec<Entry>, bool, &'t [Task]) {
    let limit = es.len().max(st.order);
    let mut changed = false;
    while let Some((t, later)) = tasks.split_first() {
        if t.key > ceiling || es.len() > limit {
            break;
        }
        let effect = step(t, &mut es);
        changed |= effect != Effect::Leave;
        count(effect, &mut run.counts);
        tasks = later;
    }
    (es, changed, tasks)
}

/// From here on, the first child whose separator is not below the key, or else the last.
fn seek(k: u64, mut p: Place) -> (Vec<Node>, Node, std::collections::VecDeque<Node>) {
    let mut c = p.rest.pop_front().expect("a child");
    while c.greatest_key() < k {
        match p.rest.pop_front() {
            None => break,
            Some(n) => p.before.push(std::mem::replace(&mut c, n)),
        }
    }
    (p.before, c, p.rest)
}

/// A key above the separator of the last child goes there with itself as ceiling.
fn ceiling_for(separator: u64, k: u64, ceiling: u64) -> u64 {
    if separator < k {
        k
    } else {
        separator.min(ceiling)
    }
}

fn change_interior<'t>(st: &Settings, ceiling: u64, children: Vec<Node>, mut tasks: &'t [Task], run: &mut Run) -> (Vec<Node>, bool, &'t [Task]) {
    let mut place = Place { before: vec![], rest: children.into() };
    let mut changed = false;
    while let Some(t) = tasks.first() {
        if place.rest.is_empty() || t.key > ceiling {
            break;
        }
        let (before, child, after) = seek(t.key, place);
        let low = ceiling_for(child.greatest_key(), t.key, ceiling);
        let (child, result, later) = change(st, low, child, tasks, run);
        place = match result {
            Change::Unchanged | Change::Changed => {
                let mut rest = after;
                rest.push_front(child);
                Place { before, rest }
            }
            Change::Split => share_out(st, before, child, after, &mut run.unused),
            Change::Absorb => absorb(st, before, child, after, &mut run.unused),
            Change::Remove => take_out(before, child, after, &mut run.unused),
        };
        changed |= result != Change::Unchanged;
        tasks = later;
    }
    (place.before.into_iter().chain(place.rest).collect(), changed, tasks)
}

/// A node of any level.
fn change<'t>(st: &Settings, ceiling: u64, n: Node, tasks: &'t [Task], run: &mut Run) -> (Node, Change, &'t [Task]) {
    let (items, changed, tasks) = match n.items {
        Items::Entries(es) => {
            let (es, changed, tasks) = change_leaf(st, ceiling, es, tasks, run);
            (Items::Entries(es), changed, tasks)
        }
        Items::Nodes(ns) => {
            let (ns, changed, tasks) = change_interior(st, ceiling, ns, tasks, run);
            (Items::Nodes(ns), changed, tasks)
        }
    };
    let result = result_of(st, changed, items.len());
    (Node { slot: n.slot, items }, result, tasks)
}

/// A root above the two halves of t, the lower in the lowest unused slot and the upper in the next.
fn split_root(t: Node, unused: &mut Vec<usize>) -> Node {
    let lower = take_lowest(unused);
    let upper = take_lowest(unused);
    let (a, b) = halved(Node { slot: lower, items: t.items }, upper);
    Node::interior(t.slot, vec![a, b])
}

/// While an interior root has one child, that child moves into the root's slot.
fn collapse(mut root: Node, unused: &mut Vec<usize>) -> Node {
    loop {
        match root.items {
            Items::Nodes(mut ns) if ns.len() == 1 => {
                let only = ns.pop().expect("one");
                release(only.slot, unused);
                root = Node { slot: root.slot, items: only.items };
            }
            _ => return root,
        }
    }
}

/// A batch that no refusal stops.
pub fn batch(st: &Settings, c: &Call, x: Index) -> (Index, Counts) {
    let all = tasks_of(c);
    let mut tasks = &all[..];
    let mut run = Run { unused: x.unused, counts: Counts::default() };
    let mut root = x.root;
    while !tasks.is_empty() {
        let (node, result, later) = change(st, u64::MAX, root, tasks, &mut run);
        assert!(later.len() < tasks.len(), "each call of the root takes a task");
        root = match result {
            Change::Split => split_root(node, &mut run.unused),
            Change::Remove => Node::leaf(node.slot, vec![]),
            _ => node,
        };
        tasks = later;
    }
    let root = collapse(root, &mut run.unused);
    (Index { root, unused: run.unused }, run.counts)
}
