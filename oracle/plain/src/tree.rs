//! Nodes of any level with their separators and totals, which are worked out and not stored; and the index, a tree with the unused slots of
//! its pool.
use crate::{Entry, Totals};

#[derive(Clone, Debug, PartialEq, Eq)]
pub struct Node {
    pub slot: usize,
    pub items: Items,
}

#[derive(Clone, Debug, PartialEq, Eq)]
pub enum Items {
    Entries(Vec<Entry>),
    Nodes(Vec<Node>),
}

#[derive(Clone, Debug, PartialEq, Eq)]
pub struct Index {
    pub root: Node,
    /// Of the whole pool; ascending, so that the lowest is the first.
    pub unused: Vec<usize>,
}

impl Items {
    pub fn len(&self) -> usize {
        match self {
            Items::Entries(v) => v.len(),
            Items::Nodes(v) => v.len(),
        }
    }
    pub fn is_empty(&self) -> bool {
        self.len() == 0
    }
    /// The items from `at` on go; the first `at` stay.
    pub fn drop_from(&mut self, at: usize) -> Items {
        match self {
            Items::Entries(v) => Items::Entries(v.split_off(at)),
            Items::Nodes(v) => Items::Nodes(v.split_off(at)),
        }
    }
    pub fn followed_by(self, behind: Items) -> Items {
        match (self, behind) {
            (Items::Entries(mut a), Items::Entries(b)) => {
                a.extend(b);
                Items::Entries(a)
            }
            (Items::Nodes(mut a), Items::Nodes(b)) => {
                a.extend(b);
                Items::Nodes(a)
            }
            _ => unreachable!("siblings have one level"),
        }
    }
}

impl Node {
    pub fn leaf(slot: usize, entries: Vec<Entry>) -> Node {
        Node { slot, items: Items::Entries(entries) }
    }
    pub fn interior(slot: usize, nodes: Vec<Node>) -> Node {
        Node { slot, items: Items::Nodes(nodes) }
    }
    pub fn len(&self) -> usize {
        self.items.len()
    }
    pub fn is_empty(&self) -> bool {
        self.items.is_empty()
    }
    /// A node's separator: the greatest key below it; 0 of an empty node.
    pub fn greatest_key(&self) -> u64 {
        match &self.items {
            Items::Entries(v) => v.last().map_or(0, |e| e.key),
            Items::Nodes(v) => v.last().map_or(0, |n| n.greatest_key()),
        }
    }
    pub fn totals(&self) -> Totals {
        match &self.items {
            Items::Entries(v) => v.iter().fold(Totals::default(), |t, e| plus(t, adds(e))),
            Items::Nodes(v) => v.iter().fold(Totals::default(), |t, n| plus(t, n.totals())),
        }
    }
    /// A lone leaf is depth 1.
    pub fn depth(&self) -> usize {
        match &self.items {
            Items::Entries(_) => 1,
            Items::Nodes(v) => 1 + v.first().map_or(0, |n| n.depth()),
        }
    }
    pub fn entries(&self) -> Vec<Entry> {
        let mut out = vec![];
        self.add_entries(&mut out);
        out
    }
    fn add_entries(&self, out: &mut Vec<Entry>) {
        match &self.items {
            Items::Entries(v) => out.extend(v),
            Items::Nodes(v) => v.iter().for_each(|n| n.add_entries(out)),
        }
    }
    /// Number of nodes.
    pub fn nodes(&self) -> usize {
        match &self.items {
            Items::Entries(_) => 1,
            Items::Nodes(v) => 1 + v.iter().map(|n| n.nodes()).sum::<usize>(),
        }
    }
    /// Equal but for the slots.
    pub fn same_shape(&self, other: &Node) -> bool {
        match (&self.items, &other.items) {
            (Items::Entries(a), Items::Entries(b)) => a == b,
            (Items::Nodes(a), Items::Nodes(b)) => a.len() == b.len() && a.iter().zip(b).all(|(a, b)| a.same_shape(b)),
            _ => false,
        }
    }
    /// The keys, in parentheses for each node.
    pub fn picture(&self) -> String {
        match &self.items {
            Items::Entries(v) => format!("({})", v.iter().map(|e| e.key.to_string()).collect::<Vec<_>>().join(" ")),
            Items::Nodes(v) => format!("({})", v.iter().map(|n| n.picture()).collect::<Vec<_>>().join(" ")),
        }
    }
}

/// A dead entry is counted, but its size is not.
pub fn adds(e: &Entry) -> Totals {
    match e.place {
        0 => Totals { live: 0, dead: 1, size: 0 },
        _ => Totals { live: 1, dead: 0, size: u64::from(e.size) },
    }
}

pub fn plus(a: Totals, b: Totals) -> Totals {
    Totals { live: a.live + b.live, dead: a.dead + b.dead, size: a.size + b.size }
}

/// The lowest unused slot, taken.
pub fn take_lowest(unused: &mut Vec<usize>) -> usize {
    if unused.is_empty() {
        0
    } else {
        unused.remove(0)
    }
}

/// A freed slot takes its place among the unused ones.
pub fn release(slot: usize, unused: &mut Vec<usize>) {
    let at = unused.partition_point(|&u| u <= slot);
    unused.insert(at, slot);
}
