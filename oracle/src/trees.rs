//! Sound trees to start from: every small one, and random ones of any depth, also such as no batch leaves behind.
use crate::random::Random;
use plain::forest::Forest;
use plain::tree::{Items, Node};
use plain::Entry;

/// Every third entry is dead, and sizes differ.
pub fn entry_for(key: u64) -> Entry {
    Entry { key, place: if key.is_multiple_of(3) { 0 } else { key.wrapping_add(256).max(1) }, size: (key % 5) as u32 * 8 }
}

/// All ways to cut a list into parts of 1 to `most`.
fn cuts<T: Clone>(items: &[T], most: usize) -> Vec<Vec<Vec<T>>> {
    if items.is_empty() {
        return vec![vec![]];
    }
    let mut out = vec![];
    for first in 1..=most.min(items.len()) {
        for later in cuts(&items[first..], most) {
            out.push(std::iter::once(items[..first].to_vec()).chain(later).collect());
        }
    }
    out
}

/// All trees of one depth over some keys, all their slots 0.
pub fn all(keys: &[u64], order: usize, depth: usize) -> Vec<Node> {
    let entries: Vec<Entry> = keys.iter().map(|&k| entry_for(k)).collect();
    if depth == 1 {
        return if keys.len() <= order { vec![Node::leaf(0, entries)] } else { vec![] };
    }
    let mut levels: Vec<Vec<Node>> = cuts(&entries, order).into_iter().map(|c| c.into_iter().map(|es| Node::leaf(0, es)).collect()).collect();
    for _ in 2..depth {
        levels.retain(|l| l.len() >= 2);
        levels = levels.iter().flat_map(|l| cuts(l, order)).map(|c| c.into_iter().map(|ns| Node::interior(0, ns)).collect()).collect();
    }
    levels.into_iter().filter(|l| (2..=order).contains(&l.len())).map(|l| Node::interior(0, l)).collect()
}

/// All trees up to a depth.
pub fn up_to(keys: &[u64], order: usize, depth: usize) -> Vec<Node> {
    (1..=depth).flat_map(|d| all(keys, order, d)).collect()
}

fn give_slots(n: &mut Node, slots: &mut impl Iterator<Item = usize>) {
    if let Items::Nodes(ns) = &mut n.items {
        for n in ns {
            n.slot = slots.next().expect("a slot for each node");
            give_slots(n, slots);
        }
    }
}

/// Two trees with their roots in slots 0 and 1 and the other nodes in preorder, tree 0's first, or in any slots.
pub fn planted(mut roots: [Node; 2], nodes: usize, random: Option<&mut Random>) -> Forest {
    let mut slots: Vec<usize> = (2..nodes).collect();
    if let Some(r) = random {
        r.shuffle(&mut slots);
    }
    let used = roots.iter().map(Node::nodes).sum::<usize>() - 2;
    let mut unused = slots.split_off(used);
    unused.sort_unstable();
    let mut slots = slots.into_iter();
    for (slot, root) in roots.iter_mut().enumerate() {
        root.slot = slot;
        give_slots(root, &mut slots);
    }
    Forest { roots, unused }
}

/// A tree that has this number, and the one beside it, in their order.
pub fn pair<T>(tree: u64, this: T, other: T) -> [T; 2] {
    if tree == 0 {
        [this, other]
    } else {
        [other, this]
    }
}

pub fn empty() -> Node {
    Node::leaf(0, vec![])
}

/// A tree of two leaves at depth 8, each below six nodes of one child, beside an empty one.
pub fn deepest(tree: u64, nodes: usize) -> Forest {
    let chain = |k| (0..6).fold(Node::leaf(0, vec![entry_for(k)]), |n, _| Node::interior(0, vec![n]));
    planted(pair(tree, Node::interior(0, vec![chain(1), chain(2)]), empty()), nodes, None)
}

/// A random tree of a depth with at most so many nodes; its keys ascend by gaps up to `gap`.
pub fn random(r: &mut Random, order: usize, depth: usize, most: usize, gap: usize) -> Node {
    let mut key = r.below(3) as u64;
    let mut left = most.max(2 * depth).saturating_sub(2 * depth - 1);
    grow(r, order, depth, true, gap, &mut key, &mut left)
}

/// `left` nodes may be taken beyond the fewest that the tree needs.
fn grow(r: &mut Random, order: usize, depth: usize, root: bool, gap: usize, key: &mut u64, left: &mut usize) -> Node {
    if depth == 1 {
        let n = if root { r.below(order + 1) } else { some(r, order) };
        let es = (0..n).map(|_| {
            *key += r.between(1, gap) as u64;
            Entry { key: *key, place: if r.one_in(4) { 0 } else { r.next() }, size: if r.one_in(3) { r.next() as u32 } else { r.below(50) as u32 } }
        });
        return Node::leaf(0, es.collect());
    }
    let fewest = if root { 2 } else { 1 };
    let mut n = some(r, order).max(fewest);
    while n > fewest && *left < (n - fewest) * (depth - 1) {
        n -= 1;
    }
    *left -= (n - fewest) * (depth - 1);
    Node::interior(0, (0..n).map(|_| grow(r, order, depth - 1, false, gap, key, left)).collect())
}

/// A tree over some entries, all its slots 0: each level is cut at random into nodes of `fewest` to order, until one is left.
pub fn loose(r: &mut Random, entries: &[Entry], fewest: usize, order: usize) -> Node {
    loop {
        let mut level: Vec<Node> = parts(r, entries.to_vec(), fewest, order).into_iter().map(|es| Node::leaf(0, es)).collect();
        while level.len() > 1 {
            level = parts(r, level, fewest, order).into_iter().map(|ns| Node::interior(0, ns)).collect();
        }
        let root = level.pop().unwrap_or_else(empty);
        if root.depth() <= 8 {
            return root;
        }
    }
}

fn parts<T>(r: &mut Random, items: Vec<T>, fewest: usize, order: usize) -> Vec<Vec<T>> {
    let mut out = vec![];
    let mut items = items.into_iter().peekable();
    while items.peek().is_some() {
        let n = r.between(fewest, order);
        out.push(items.by_ref().take(n).collect());
    }
    out
}

/// 1 to order, the ends more often.
fn some(r: &mut Random, order: usize) -> usize {
    match r.below(6) {
        0 => 1,
        1 => order,
        2 => r.between(1, 2),
        _ => r.between(1, order),
    }
}
