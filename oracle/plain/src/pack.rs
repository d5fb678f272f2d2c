//! Packing, level by level and from below: the entries are cut into leaves of `order`, these into parents of `order`, and so on until one node is
//! left; then slots are given out in a preorder walk, to tree 0 first. The definition goes the other way, from the root down.
use crate::forest::Forest;
use crate::tree::{Items, Node};
use crate::{Entry, PoolSettings};

/// Nodes cut into parents of `order`, the last of what is left.
fn parents(level: Vec<Node>, order: usize) -> Vec<Node> {
    let mut nodes = level.into_iter().peekable();
    let mut above = vec![];
    while nodes.peek().is_some() {
        above.push(Node::interior(0, nodes.by_ref().take(order).collect()));
    }
    above
}

/// The packed tree over some entries, all its slots 0.
pub fn packed(order: usize, es: &[Entry]) -> Node {
    let mut level: Vec<Node> = es.chunks(order).map(|part| Node::leaf(0, part.to_vec())).collect();
    while level.len() > 1 {
        level = parents(level, order);
    }
    level.pop().unwrap_or_else(|| Node::leaf(0, vec![]))
}

/// Slots in preorder: the root's is given, the others are the next ones.
pub fn seat(root: &mut Node, slot: usize, next: &mut usize) {
    root.slot = slot;
    if let Items::Nodes(ns) = &mut root.items {
        for n in ns {
            let slot = *next;
            *next += 1;
            seat(n, slot, next);
        }
    }
}

/// A new forest is two empty leaves.
pub fn is_new(y: &Forest) -> bool {
    y.roots.iter().all(|root| matches!(&root.items, Items::Entries(es) if es.is_empty()))
}

/// Both packed trees, their slots not given out yet.
fn both(pu: &PoolSettings, x: &Forest) -> [Node; 2] {
    [0, 1].map(|tree| packed(pu.trees[tree].order, &x.roots[tree].entries()))
}

/// How many nodes both packed trees have together.
pub fn needed(pu: &PoolSettings, x: &Forest) -> usize {
    both(pu, x).iter().map(Node::nodes).sum()
}

/// Refusals 17, 18 and 7 in this order, of a source x and a target y with their settings; 0 where none applies.
pub fn refusal(ps: &PoolSettings, pu: &PoolSettings, x: &Forest, y: &Forest) -> u32 {
    if ps.trees != pu.trees {
        17
    } else if !is_new(y) {
        18
    } else if pu.nodes < needed(pu, x) {
        7
    } else {
        0
    }
}

/// What the target holds after a packing that no refusal stops: the roots in slots 0 and 1, then the other nodes of tree 0, then those of
/// tree 1.
pub fn pack(pu: &PoolSettings, x: &Forest) -> Forest {
    let mut roots = both(pu, x);
    let mut next = 2;
    for (slot, root) in roots.iter_mut().enumerate() {
        seat(root, slot, &mut next);
    }
    Forest { roots, unused: (next..pu.nodes).collect() }
}
