//! Two trees over one set of slots. The rules of change are of one tree: it is taken out as an index, with the unused slots, and put back. Those of
//! look and frame need no more than its root.
use crate::tree::{Index, Node};
use crate::{Call, Counts, PoolSettings};

#[derive(Clone, Debug, PartialEq, Eq)]
pub struct Forest {
    /// The root of tree 0, in slot 0, and that of tree 1, in slot 1. Roots never move.
    pub roots: [Node; 2],
    /// Ascending. What either tree frees, the other may take.
    pub unused: Vec<usize>,
}

impl Forest {
    /// Two empty leaves.
    pub fn new(nodes: usize) -> Forest {
        Forest { roots: [0, 1].map(|slot| Node::leaf(slot, vec![])), unused: (2..nodes).collect() }
    }
    /// One of the trees, with the slots that neither uses, taken out: an empty leaf is left, and no slot.
    pub fn take(&mut self, tree: usize) -> Index {
        Index { root: std::mem::replace(&mut self.roots[tree], Node::leaf(tree, vec![])), unused: std::mem::take(&mut self.unused) }
    }
    /// That tree and the unused slots are these from here on; the other tree is as it was.
    pub fn replant(&mut self, tree: usize, x: Index) {
        self.roots[tree] = x.root;
        self.unused = x.unused;
    }
    /// A batch on one of the trees that no refusal stops.
    pub fn batch(&mut self, ps: &PoolSettings, tree: usize, c: &Call) -> Counts {
        let (x, counts) = crate::change::batch(&ps.of(tree), c, self.take(tree));
        self.replant(tree, x);
        counts
    }
    /// Nodes in use.
    pub fn nodes(&self) -> usize {
        self.roots.iter().map(Node::nodes).sum()
    }
}
