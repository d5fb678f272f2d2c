//! Pools as they were before: of one tree (document 02, A4), and of size sums that counted dead entries too (A3).
use crate::script::Step;
use plain::forest::Forest;
use plain::pool::{child_word, slot_at};
use plain::tree::{Items, Node};
use plain::{PoolSettings, Settings};

/// Makes the pool of a forest what it was: each sum in an interior's row counted the sizes of all entries below the child. No step where all
/// agree.
pub fn old_sums(ps: &PoolSettings, f: &Forest) -> Vec<Step> {
    let mut steps = vec![];
    f.roots.iter().for_each(|root| below(ps, root, &mut steps));
    steps
}

fn below(ps: &PoolSettings, n: &Node, steps: &mut Vec<Step>) {
    let Items::Nodes(children) = &n.items else { return };
    for (i, c) in children.iter().enumerate() {
        let old = c.entries().iter().map(|e| u64::from(e.size)).sum();
        if old != c.totals().size {
            steps.push(Step::Put { word: slot_at(ps, n.slot) + 2 + 3 * i + 2, value: old });
        }
        below(ps, c, steps);
    }
}

/// The words of a pool of layout 1, which held one tree, its root in slot 0: a header of four words, and slots as wide as its order asks.
pub fn one_tree(st: &Settings, root: &Node) -> Vec<u64> {
    let mut words = vec![0; 4 + st.nodes * one_tree_slot(st.order)];
    words[..4].copy_from_slice(&[1, st.nodes as u64, st.order as u64, st.minimum as u64]);
    plant(st, root, &mut words);
    words
}

fn one_tree_slot(order: usize) -> usize {
    2 + 6 * order
}

fn plant(st: &Settings, n: &Node, words: &mut [u64]) {
    let rows: Vec<[u64; 3]> = match &n.items {
        Items::Entries(es) => es.iter().map(|e| [e.key, e.place, e.size.into()]).collect(),
        Items::Nodes(ns) => ns.iter().map(|c| [c.greatest_key(), child_word(c.slot, c.totals()), c.totals().size]).collect(),
    };
    let at = 4 + n.slot * one_tree_slot(st.order);
    words[at..at + 2].copy_from_slice(&[if n.depth() == 1 { 1 } else { 2 }, rows.len() as u64]);
    words[at + 2..at + 2 + 3 * rows.len()].copy_from_slice(&rows.concat());
    if let Items::Nodes(ns) = &n.items {
        ns.iter().for_each(|c| plant(st, c, words));
    }
}

/// The steps that write these words over a pool of zeros or of anything else; its first word is the first to change.
pub fn written(words: &[u64], over: &[u8]) -> Vec<Step> {
    let held = |at: usize| over.get(8 * at..8 * at + 8).map_or(0, |b| u64::from_le_bytes(b.try_into().expect("eight bytes")));
    let mut steps = vec![];
    if over.len() != 8 * words.len() {
        steps.push(Step::Resize { len: 8 * words.len() });
    }
    steps.extend(words.iter().enumerate().filter(|(at, &value)| held(*at) != value).map(|(word, &value)| Step::Put { word, value }));
    steps
}
