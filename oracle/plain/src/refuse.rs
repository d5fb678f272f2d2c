//! Refusal 19 of a call that names a tree, then 3 to 7 of a batch in the table's order, and 5 of a get; 0 where none applies.
use crate::forest::Forest;
use crate::{Call, Operation, PoolSettings, Settings};

/// Any number may be given for a tree.
pub fn tree_refusal(tree: u64) -> u32 {
    if tree < 2 {
        0
    } else {
        19
    }
}

/// Of a batch on a tree of a forest. Order and depth are the tree's, the unused nodes are the pool's.
pub fn batch_refusal(ps: &PoolSettings, tree: u64, c: &Call, f: &Forest) -> u32 {
    match tree_refusal(tree) {
        0 => refusal(&ps.of(tree as usize), c, f.roots[tree as usize].depth(), f.unused.len()),
        n => n,
    }
}

/// A key is followed by a smaller one.
pub fn descend(keys: &[u64]) -> bool {
    keys.windows(2).any(|w| w[1] < w[0])
}

/// The unused nodes that refusal 7 asks for.
pub fn needed(n: usize, d: usize) -> usize {
    n * d.max(2) + 4
}

/// Of a batch on a tree of this depth, in a pool with so many unused nodes.
pub fn refusal(st: &Settings, c: &Call, depth: usize, unused: usize) -> u32 {
    let n = c.keys.len();
    let each = c.operation == Operation::SetEach;
    if n > st.order {
        3
    } else if each && (c.places.len() != n || c.sizes.len() != n) {
        4
    } else if descend(&c.keys) {
        5
    } else if n == 0 || c.operation == Operation::Remove {
        0
    } else if depth >= 8 {
        6
    } else if unused < needed(n, depth) {
        7
    } else {
        0
    }
}

pub fn get_refusal(tree: u64, keys: &[u64]) -> u32 {
    match tree_refusal(tree) {
        0 if descend(keys) => 5,
        n => n,
    }
}
