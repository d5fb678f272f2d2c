//! The image of a forest in a pool's bytes, and an opened pool (docs/POOL.md).
use crate::forest::Forest;
use crate::tree::{Items, Node};
use crate::{Limits, PoolSettings, Totals};

/// The layout's number, which the first word holds.
pub const LAYOUT: u64 = 2;
/// Words before the first slot.
pub const HEADER: usize = 8;

pub fn slot_words(ps: &PoolSettings) -> usize {
    2 + 6 * ps.larger_order()
}

/// The first word of a slot.
pub fn slot_at(ps: &PoolSettings, slot: usize) -> usize {
    HEADER + slot * slot_words(ps)
}

/// The kinds of a leaf and of an interior in a tree; 0 is an unused slot.
pub fn kinds(tree: usize) -> [u64; 2] {
    [[1, 2], [3, 4]][tree]
}

fn tree_in_limits(l: &Limits) -> bool {
    (4..=32).contains(&l.order) && (1..=(l.order + 1) / 2).contains(&l.minimum)
}

pub fn in_limits(ps: &PoolSettings) -> bool {
    (8..=16_384).contains(&ps.nodes) && ps.trees.iter().all(tree_in_limits)
}

/// The exact length, of settings in limits.
pub fn length(ps: &PoolSettings) -> usize {
    8 * slot_at(ps, ps.nodes)
}

/// The length, and 0 of settings out of limits.
pub fn length_or_none(numbers: [u64; 5]) -> u64 {
    settings(numbers).map_or(0, |ps| length(&ps) as u64)
}

/// Nodes, order and minimum of tree 0, and of tree 1.
pub fn settings(numbers: [u64; 5]) -> Option<PoolSettings> {
    let mut small = [0; 5];
    for (n, number) in small.iter_mut().zip(numbers) {
        *n = usize::try_from(number).ok()?;
    }
    let [nodes, order0, minimum0, order1, minimum1] = small;
    let trees = [Limits { order: order0, minimum: minimum0 }, Limits { order: order1, minimum: minimum1 }];
    Some(PoolSettings { nodes, trees }).filter(in_limits)
}

pub fn put(bytes: &mut [u8], word: usize, value: u64) {
    bytes[8 * word..8 * word + 8].copy_from_slice(&value.to_le_bytes());
}

pub fn word(bytes: &[u8], at: usize) -> u64 {
    u64::from_le_bytes(bytes[8 * at..8 * at + 8].try_into().expect("eight bytes"))
}

/// The words before the first slot: beside each tree's settings stands a word that is zero.
pub fn header(ps: &PoolSettings) -> [u64; HEADER] {
    let [nodes, order0, minimum0, order1, minimum1] = ps.numbers();
    [LAYOUT, nodes, order0, minimum0, 0, order1, minimum1, 0]
}

/// A node of a tree and all below it put in their slots; its separator and totals.
fn put_node(ps: &PoolSettings, tree: usize, n: &Node, bytes: &mut [u8]) -> (u64, Totals) {
    let at = slot_at(ps, n.slot);
    let [leaf, interior] = kinds(tree);
    put(bytes, at + 1, n.len() as u64);
    match &n.items {
        Items::Entries(es) => {
            put(bytes, at, leaf);
            for (i, e) in es.iter().enumerate() {
                put_row(bytes, at, i, [e.key, e.place, u64::from(e.size)]);
            }
        }
        Items::Nodes(ns) => {
            put(bytes, at, interior);
            for (i, c) in ns.iter().enumerate() {
                let (key, t) = put_node(ps, tree, c, bytes);
                put_row(bytes, at, i, [key, child_word(c.slot, t), t.size]);
            }
        }
    }
    (n.greatest_key(), n.totals())
}

/// The middle word of an interior's row.
pub fn child_word(slot: usize, t: Totals) -> u64 {
    ((slot as u64) << 40) + (t.live << 20) + t.dead
}

fn put_row(bytes: &mut [u8], at: usize, i: usize, row: [u64; 3]) {
    for (j, value) in row.into_iter().enumerate() {
        put(bytes, at + 2 + 3 * i + j, value);
    }
}

pub fn image(ps: &PoolSettings, f: &Forest) -> Vec<u8> {
    let mut bytes = vec![0; length(ps)];
    for (i, value) in header(ps).into_iter().enumerate() {
        put(&mut bytes, i, value);
    }
    for (tree, root) in f.roots.iter().enumerate() {
        put_node(ps, tree, root, &mut bytes);
    }
    bytes
}
