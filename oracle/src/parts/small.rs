//! Short batches on every small tree.
use super::sequences::{batches, calls};
use super::{Found, Work};
use crate::script::Step;
use crate::session::Session;
use crate::trees;
use plain::tree::Node;
use plain::{Call, Limits};
use std::time::Instant;

impl Work<'_> {
    /// Every tree over few keys, smallest first; every batch of up to three keys of theirs and between them, on the smallest two in a row.
    pub(super) fn small_trees(&mut self, until: Instant) -> Result<(), Found> {
        for n in 0..=(if self.long { 9 } else { 8 }) {
            let most = match (n, self.long) {
                (0..=4, _) | (5, true) => 3,
                (5..=6, _) | (7, true) => 2,
                _ => 1,
            };
            let in_a_row = if n <= 2 || (n == 3 && self.long) { 2 } else { 1 };
            for (order, minimum) in [(4, 2), (5, 3), (4, 1), (5, 2), (5, 1)] {
                let keys: Vec<u64> = (1..=n).map(|i| 2 * i).collect();
                let all: Vec<u64> = (1..=2 * n + 1).collect();
                let batches = batches(&all, most);
                for root in trees::up_to(&keys, order, 3) {
                    if Instant::now() > until {
                        println!("  (out of time at trees of {n} entries)");
                        return Ok(());
                    }
                    self.on_small_tree(Limits { order, minimum }, root, &batches, in_a_row, until)?;
                }
            }
        }
        Ok(())
    }

    fn on_small_tree(&mut self, limits: Limits, root: Node, batches: &[Vec<u64>], in_a_row: usize, until: Instant) -> Result<(), Found> {
        let most = batches.iter().map(Vec::len).max().unwrap_or(0);
        let unused = plain::refuse::needed(most, root.depth());
        let all: Vec<Call> = batches.iter().flat_map(|b| calls(b, b.len() < 2)).collect();
        self.on_pool(limits, root.clone(), unused, &all, in_a_row, until)?;
        // one unused node fewer: the longest batches are refused
        let longest = batches.last().map(|b| calls(b, true)).unwrap_or_default();
        self.on_pool(limits, root, unused - 1, &longest, 1, until)
    }

    fn on_pool(&mut self, limits: Limits, root: Node, unused: usize, calls: &[Call], in_a_row: usize, until: Instant) -> Result<(), Found> {
        let (tree, ps, f) = self.beside(limits, root, unused);
        let steps: Vec<Step> = calls.iter().map(|c| Step::batch(tree, c.clone())).collect();
        let s = Self::fail(ps, Some(&f), &[], Session::new(self.lib, ps, Some(&f)))?;
        self.onward(&s, Some(&f), &steps, in_a_row, &mut vec![], until)
    }
}
