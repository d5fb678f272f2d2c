//! What document 02 asks of a packed pool, read from its bytes alone (docs/POOL.md) and without the plain rules: in each tree every node of a level
//! full but the last; the roots in slots 0 and 1, the other nodes of tree 0 behind them in preorder, then those of tree 1, and nothing behind
//! these; and the entries of a tree, left to right.
use crate::session::Difference;

/// A pool that is sound, by its words.
struct Pool<'p> {
    bytes: &'p [u8],
    nodes: usize,
    orders: [usize; 2],
}

impl<'p> Pool<'p> {
    fn new(bytes: &'p [u8]) -> Pool<'p> {
        let mut p = Pool { bytes, nodes: 0, orders: [0; 2] };
        (p.nodes, p.orders) = (p.word(1) as usize, [p.word(2) as usize, p.word(5) as usize]);
        p
    }
    fn word(&self, at: usize) -> u64 {
        u64::from_le_bytes(self.bytes[8 * at..8 * at + 8].try_into().expect("eight bytes"))
    }
    fn slot(&self, slot: usize) -> usize {
        8 + slot * (2 + 6 * self.orders[0].max(self.orders[1]))
    }
    /// Kinds 1 and 3 are leaves, 2 and 4 interiors.
    fn is_leaf(&self, slot: usize) -> bool {
        self.word(self.slot(slot)) % 2 == 1
    }
    fn len(&self, slot: usize) -> usize {
        self.word(self.slot(slot) + 1) as usize
    }
    fn rows(&self, slot: usize) -> &'p [u8] {
        let first = 8 * (self.slot(slot) + 2);
        &self.bytes[first..first + 24 * self.len(slot)]
    }
    /// A child's slot stands in the upper 24 bits of its row's middle word.
    fn children(&self, slot: usize) -> impl Iterator<Item = usize> + 'p {
        self.rows(slot).chunks_exact(24).map(|row| usize::from(row[13]) + 256 * usize::from(row[14]) + 65_536 * usize::from(row[15]))
    }

    /// The slots of each level of a tree, left to right, the root's first.
    fn levels(&self, tree: usize) -> Vec<Vec<usize>> {
        let mut levels = vec![vec![tree]];
        while let Some(above) = levels.last().filter(|l| !self.is_leaf(l[0])) {
            let below = above.iter().flat_map(|&slot| self.children(slot)).collect();
            levels.push(below);
        }
        levels
    }
    fn preorder(&self, slot: usize, out: &mut Vec<usize>) {
        out.push(slot);
        if !self.is_leaf(slot) {
            self.children(slot).for_each(|c| self.preorder(c, out));
        }
    }
    fn entries(&self, tree: usize) -> Vec<u8> {
        let levels = self.levels(tree);
        levels[levels.len() - 1].iter().flat_map(|&leaf| self.rows(leaf)).copied().collect()
    }

    /// Every level of a tree has as few nodes as can be, full but the last.
    fn is_full(&self, tree: usize) -> Result<(), Difference> {
        let order = self.orders[tree];
        let mut items = self.entries(tree).len() / 24;
        for level in self.levels(tree).iter().rev() {
            let lengths: Vec<usize> = level.iter().map(|&slot| self.len(slot)).collect();
            let (last, others) = lengths.split_last().expect("no level is empty");
            if others.iter().any(|&n| n != order) || !(items.min(1)..=order).contains(last) {
                return Err(format!("packed, a level of tree {tree} that is not full: {lengths:?}"));
            }
            if level.len() != items.div_ceil(order).max(1) {
                return Err(format!("packed, a level of tree {tree} of {} nodes over {items}", level.len()));
            }
            items = level.len();
        }
        Ok(())
    }
}

/// The entries of a tree of a sound pool, 24 bytes each, as a get writes them.
pub fn entries(pool: &[u8], tree: usize) -> Vec<u8> {
    Pool::new(pool).entries(tree)
}

/// Whether a sound pool is packed.
pub fn is_packed(pool: &[u8]) -> Result<(), Difference> {
    let p = Pool::new(pool);
    let (mut first, mut second) = (vec![], vec![]);
    p.preorder(0, &mut first);
    p.preorder(1, &mut second);
    p.is_full(0)?;
    p.is_full(1)?;
    let (behind_first, used) = (first.len() + 1, first.len() + second.len());
    if !first.iter().copied().eq([0].into_iter().chain(2..behind_first)) || !second.iter().copied().eq([1].into_iter().chain(behind_first..used)) {
        return Err(format!("packed, not in preorder: {first:?}, {second:?}"));
    }
    if (p.slot(used)..p.slot(p.nodes)).any(|at| p.word(at) != 0) {
        return Err("packed, something behind the last node".to_string());
    }
    Ok(())
}
