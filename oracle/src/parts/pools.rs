//! Random calls on pools of random settings, new or holding two random trees.
use super::{Found, Work};
use crate::session::Session;
use crate::trees;
use crate::walk::{Mood, Walk};
use plain::forest::Forest;
use plain::tree::Node;
use plain::{Limits, PoolSettings};
use std::time::Instant;

impl Work<'_> {
    /// Settings around each boundary; a third of the pools small, so that the table's refusals come often; the trees often of two orders.
    pub(super) fn settings(&mut self) -> PoolSettings {
        let r = &mut self.random;
        let largest = if self.long && r.one_in(40) { 16_384 } else { 1024 };
        let nodes = r.pick(&[8, 9, 16, 17, 31, 64, 100, 128, 250, largest]);
        let first = self.limits();
        let second = if self.random.one_in(3) { first } else { self.limits() };
        PoolSettings { nodes, trees: [first, second] }
    }

    fn limits(&mut self) -> Limits {
        let r = &mut self.random;
        let order = r.pick(&[4, 4, 5, 6, 7, 8, 9, 15, 16, 17, 31, 32, r.clone().between(4, 32)]);
        let top = (order + 1) / 2;
        Limits { order, minimum: r.pick(&[1, 2, top, top, (top + 1) / 2, r.clone().between(1, top)]).min(top) }
    }

    pub(super) fn random_pools(&mut self, until: Instant) -> Result<(), Found> {
        let mut pools = 0;
        while Instant::now() < until {
            let ps = self.settings();
            let start = if self.random.one_in(2) { None } else { Some(self.random_forest(&ps)) };
            let mut s = Self::fail(ps, None, &[], Session::new(self.lib, ps, start.as_ref()))?;
            let mut walk = Walk::random(&mut self.random, &ps);
            let mut steps = vec![];
            let turns = self.random.pick(&[10, 60, 300]).min(40_000 / ps.nodes + 8);
            let moods = [self.random.pick(&[Mood::Grow, Mood::Churn]), Mood::Churn, Mood::Clear, Mood::Grow];
            for turn in 0..turns {
                let mood = moods[4 * turn / turns];
                let step =
                    if self.random.one_in(3) { walk.look(&mut self.random, s.forest()) } else { walk.batch(&mut self.random, s.forest(), mood) };
                steps.push(step);
                let last = steps.last().expect("a step").clone();
                Self::fail(ps, start.as_ref(), &steps, s.step(&last))?;
            }
            for root in s.forest().iter().flat_map(|f| &f.roots) {
                self.tally.count(&format!("random pools, a tree of depth {} at the end", root.depth()));
            }
            self.tally.add(&s.tally);
            pools += 1;
        }
        println!("  ({pools} pools)");
        Ok(())
    }

    /// Two random trees, of any depths that fit together.
    pub(super) fn random_forest(&mut self, ps: &PoolSettings) -> Forest {
        let first = self.random_tree(ps.trees[0].order, ps.nodes - 1);
        let second = self.random_tree(ps.trees[1].order, ps.nodes - first.nodes());
        trees::planted([first, second], ps.nodes, Some(&mut self.random))
    }

    fn random_tree(&mut self, order: usize, room: usize) -> Node {
        let r = &mut self.random;
        loop {
            let depth = r.between(1, 8);
            let most = r.between(1, room);
            let gap = r.pick(&[1, 2, 5, 1000]);
            let root = trees::random(r, order, depth, most, gap);
            if root.nodes() <= room {
                return root;
            }
        }
    }
}
