//! Pools damaged by hand.
use super::{Found, Work};
use crate::damage::{eight_nodes, Damage};
use crate::trees;
use plain::forest::Forest;
use plain::tree::Node;
use plain::PoolSettings;
use std::time::Instant;

impl Work<'_> {
    pub(super) fn damaged_pools(&mut self, until: Instant) -> Result<(), Found> {
        let tally = eight_nodes(self.lib, &mut self.random).map_err(|(s, d)| (Some(s), d))?;
        self.tally.add(&tally);
        let deep = || trees::all(&[1, 2, 3, 4, 5, 6, 7, 8], 4, 3).swap_remove(40);
        let flat = trees::all(&[1, 2, 3, 4, 5], 4, 2).swap_remove(0);
        let ps = PoolSettings::alike(deep().nodes() + flat.nodes() + 3, 4, 2);
        self.damage(ps, &trees::planted([deep(), flat], ps.nodes, None), 1)?;
        self.exchanged(deep())?;
        while Instant::now() < until {
            let mut ps = self.settings();
            ps.nodes = self.random.pick(&[8, 9, 16, 17, 31]);
            let f = self.random_forest(&ps);
            self.damage(ps, &f, plain::pool::length(&ps) / 800 + 1)?;
        }
        Ok(())
    }

    /// A pool that holds one tree twice, with children exchanged.
    fn exchanged(&mut self, root: Node) -> Result<(), Found> {
        let ps = PoolSettings::alike(2 * root.nodes() + 2, 4, 2);
        let mut d = Damage::new(self.lib, ps, &trees::planted([root.clone(), root], ps.nodes, Some(&mut self.random)));
        let done = d.exchanged(&mut self.random);
        self.tally.add(d.tally());
        done.map_err(|(s, d)| (Some(s), d))
    }

    /// One pool in all ways, and every word of it, or one in so many.
    fn damage(&mut self, ps: PoolSettings, f: &Forest, every: usize) -> Result<(), Found> {
        let r = &mut self.random;
        let mut d = Damage::new(self.lib, ps, f);
        let done = d
            .each_word(r, every)
            .and_then(|()| d.header(r))
            .and_then(|()| d.kinds(r))
            .and_then(|()| d.crossed(r))
            .and_then(|()| d.more(r, 400))
            .and_then(|()| d.old_sums(r))
            .and_then(|()| d.one_tree(r));
        self.tally.add(d.tally());
        done.map_err(|(s, d)| (Some(s), d))
    }
}
