//! The forest that a pool's bytes hold, where they are sound: read from both roots down, tested, and its image compared byte by byte.
//! The image settles stored separators and totals, the header's zero words, zeros behind the rows, and zeros in unused slots.
use crate::forest::Forest;
use crate::pool::{image, kinds, length, settings, slot_at, word, HEADER, LAYOUT};
use crate::tree::{Items, Node};
use crate::{Entry, PoolSettings};

struct Reader<'p> {
    ps: PoolSettings,
    bytes: &'p [u8],
    /// From either root.
    reached: Vec<bool>,
}

impl Reader<'_> {
    fn row(&self, slot: usize, i: usize) -> [u64; 3] {
        let at = slot_at(&self.ps, slot) + 2 + 3 * i;
        [word(self.bytes, at), word(self.bytes, at + 1), word(self.bytes, at + 2)]
    }

    /// The node of a tree in a slot, `level` 1 being the root's. Its kind is one of the tree's own, and no slot is reached a second time.
    fn node(&mut self, tree: usize, slot: usize, level: usize) -> Option<Node> {
        if level > 8 || slot >= self.ps.nodes || std::mem::replace(&mut self.reached[slot], true) {
            return None;
        }
        let at = slot_at(&self.ps, slot);
        let (kind, count) = (word(self.bytes, at), word(self.bytes, at + 1));
        let is_leaf = kinds(tree).iter().position(|&k| k == kind)? == 0;
        let least = match (is_leaf, level) {
            (true, 1) => 0,
            (false, 1) => 2,
            _ => 1,
        };
        if count < least || count > self.ps.trees[tree].order as u64 {
            return None;
        }
        let rows = (0..count as usize).map(|i| self.row(slot, i)).collect::<Vec<_>>();
        let items = if is_leaf {
            Items::Entries(
                rows.into_iter().map(|[key, place, size]| Some(Entry { key, place, size: u32::try_from(size).ok()? })).collect::<Option<_>>()?,
            )
        } else {
            Items::Nodes(rows.into_iter().map(|r| self.node(tree, (r[1] >> 40) as usize, level + 1)).collect::<Option<_>>()?)
        };
        Some(Node { slot, items })
    }

    /// A tree whose leaves have one depth and whose keys ascend.
    fn tree(&mut self, tree: usize) -> Option<Node> {
        let root = self.node(tree, tree, 1)?;
        let sorted = root.entries().windows(2).all(|w| w[0].key < w[1].key);
        (level_at(&root, root.depth()) && sorted).then_some(root)
    }
}

/// Every leaf at this depth.
fn level_at(n: &Node, depth: usize) -> bool {
    match &n.items {
        Items::Entries(_) => depth == 1,
        Items::Nodes(ns) => depth > 1 && ns.iter().all(|n| level_at(n, depth - 1)),
    }
}

/// The settings and the forest of a sound pool; none where it is not sound.
pub fn forest_of(bytes: &[u8]) -> Option<(PoolSettings, Forest)> {
    read(bytes).filter(|(ps, f)| image(ps, f) == bytes)
}

/// The same, whatever separators, totals and zeros say.
pub fn read(bytes: &[u8]) -> Option<(PoolSettings, Forest)> {
    if bytes.len() < 8 * HEADER || word(bytes, 0) != LAYOUT {
        return None;
    }
    let ps = settings([1, 2, 3, 5, 6].map(|i| word(bytes, i)))?;
    if bytes.len() != length(&ps) {
        return None;
    }
    let mut reader = Reader { ps, bytes, reached: vec![false; ps.nodes] };
    let roots = [reader.tree(0)?, reader.tree(1)?];
    let unused = (0..ps.nodes).filter(|&s| !reader.reached[s]).collect();
    Some((ps, Forest { roots, unused }))
}
