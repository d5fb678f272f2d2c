//! Every lookup of every small tree.
use super::sequences::batches;
use super::{Found, Work};
use crate::script::Step;
use crate::session::Session;
use crate::trees;
use plain::{Bound, Limits, Request};
use std::time::Instant;

impl Work<'_> {
    /// Every get of up to three keys and every scan, with every room, of every tree over few keys.
    pub(super) fn small_looks(&mut self, until: Instant) -> Result<(), Found> {
        for n in 0..=(if self.long { 5 } else { 4 }) {
            let keys: Vec<u64> = (1..=n).map(|i| 2 * i).collect();
            let all: Vec<u64> = (1..=2 * n + 1).collect();
            let mut bounds = vec![Bound::Unbounded];
            bounds.extend(all.iter().flat_map(|&k| [Bound::Included(k), Bound::Excluded(k)]));
            for root in trees::up_to(&keys, 4, 4) {
                let unused = self.random.below(3);
                let (tree, ps, f) = self.beside(Limits { order: 4, minimum: 2 }, root, unused);
                let mut steps = vec![Step::Totals { tree }];
                for ks in batches(&all, 3) {
                    steps.extend((0..=ks.len() + 1).map(|r| Step::Get { tree, keys: ks.clone(), room: 24 * r }));
                }
                for &start in &bounds {
                    for &end in &bounds {
                        for (down, least) in [(false, 0), (true, 0), (false, 16), (true, 17), (false, 33)] {
                            let request = Request { start, end, down, least };
                            steps.extend((0..=n as usize).map(|r| Step::Scan { tree, request, room: 24 * r }));
                        }
                    }
                }
                steps.extend((0..=ps.nodes as u64).map(|i| Step::Frame { tree, i, room: 500 }));
                let mut s = Self::fail(ps, Some(&f), &[], Session::new(self.lib, ps, Some(&f)))?;
                for step in &steps {
                    if Instant::now() > until {
                        println!("  (out of time at trees of {n} entries)");
                        self.tally.add(&s.tally);
                        return Ok(());
                    }
                    Self::fail(ps, Some(&f), std::slice::from_ref(step), s.step(step))?;
                }
                self.tally.add(&s.tally);
            }
        }
        Ok(())
    }
}
