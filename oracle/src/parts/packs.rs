//! Packing: every kind of target, every small tree, every number of entries about which a level ends, and worn pools.
use super::{Found, Work};
use crate::script::Step;
use crate::session::Session;
use crate::trees::{self, entry_for};
use crate::walk::{Mood, Walk};
use crate::worn::{worn, Room, Target};
use plain::forest::Forest;
use plain::pool::length;
use plain::tree::Node;
use plain::{Call, Entry, Limits, PoolSettings};
use std::time::Instant;

/// Entries of the even keys.
fn entries(n: usize) -> Vec<Entry> {
    (1..=n as u64).map(|i| entry_for(2 * i)).collect()
}

impl Work<'_> {
    pub(super) fn packs(&mut self, until: Instant) -> Result<(), Found> {
        self.every_target()?;
        self.packs_small_trees(until)?;
        self.packs_counts(until)?;
        self.packs_worn(until)
    }

    /// So many entries in nodes of `fewest` to order.
    fn loose(&mut self, n: usize, fewest: usize, limits: Limits) -> (PoolSettings, Forest) {
        let root = trees::loose(&mut self.random, &entries(n), fewest, limits.order);
        self.scattered(root, limits)
    }

    /// A tree beside another one in a pool that has room for a few nodes more, in any slots.
    fn scattered(&mut self, root: Node, limits: Limits) -> (PoolSettings, Forest) {
        let unused = self.random.below(4);
        let (_, ps, f) = self.beside(limits, root, unused);
        (ps, f)
    }

    /// Steps on the pool of a forest.
    fn steps(&mut self, ps: PoolSettings, f: &Forest, steps: &[Step]) -> Result<(), Found> {
        let mut s = Self::fail(ps, Some(f), &[], Session::new(self.lib, ps, Some(f)))?;
        for (i, step) in steps.iter().enumerate() {
            Self::fail(ps, Some(f), &steps[..=i], s.step(step))?;
        }
        self.tally.add(&s.tally);
        Ok(())
    }

    fn pack(&mut self, target: Target, ps: &PoolSettings, f: &Forest, onward: bool) -> Step {
        Step::Pack { target: target.script(&mut self.random, ps, f), onward }
    }

    /// Targets to which none, one or several of 2, 17, 18 and 7 apply, for a source that is sound or not.
    fn every_target(&mut self) -> Result<(), Found> {
        for (order, minimum) in [(4, 2), (5, 1), (9, 5), (32, 16)] {
            let (ps, f) = self.loose(8 * order, 1, Limits { order, minimum });
            let words = length(&ps) / 8;
            for target in Target::all() {
                let pack = self.pack(target, &ps, &f, false);
                self.steps(ps, &f, std::slice::from_ref(&pack))?;
                for damage in [Step::Put { word: 0, value: 1 }, Step::Put { word: words - 1, value: 1 }, Step::Resize { len: 8 * words - 8 }] {
                    self.steps(ps, &f, &[damage, pack.clone()])?;
                }
            }
            let pack = self.pack(Target::new(Room::Exact), &ps, &f, false);
            for len in [0, 1, 8, 32, 63, 64, 65] {
                self.steps(ps, &f, &[Step::Resize { len }, pack.clone()])?;
            }
        }
        Ok(())
    }

    /// Every tree over few entries, smallest first; then a key is set and one removed.
    fn packs_small_trees(&mut self, until: Instant) -> Result<(), Found> {
        for n in 0..=(if self.long { 8 } else { 6 }) {
            let keys: Vec<u64> = (1..=n).map(|i| 2 * i).collect();
            for (order, minimum) in [(4, 2), (5, 3), (4, 1)] {
                for root in trees::up_to(&keys, order, 4) {
                    if Instant::now() > until {
                        println!("  (out of time at trees of {n} entries)");
                        return Ok(());
                    }
                    let (ps, f) = self.scattered(root, Limits { order, minimum });
                    let pack = self.pack(Target::new(Room::Exact), &ps, &f, true);
                    let k = self.random.between(1, 2 * n as usize + 1) as u64;
                    let tree = self.random.below(2) as u64;
                    let then = [Call::set(&[k], 7, 7), Call::remove(&[k + k % 2])].map(|c| Step::batch(tree, c));
                    self.steps(ps, &f, &[&[pack][..], &then].concat())?;
                }
            }
        }
        Ok(())
    }

    /// Every number of entries at orders 4 and 5, up to where a fourth level has begun; at the other orders those at which a node or a level
    /// is just full.
    fn packs_counts(&mut self, until: Instant) -> Result<(), Found> {
        for order in 4..=32 {
            let cube = order * order * order;
            let counts: Vec<usize> = match order {
                4 | 5 => (0..=cube + order * order + 2).collect(),
                _ => {
                    let nodes = [1, 2, 8, order - 1, order, order + 1, if order < 8 { order * order } else { 9 }];
                    nodes.iter().flat_map(|n| [n * order - 1, n * order, n * order + 1]).collect()
                }
            };
            for n in counts {
                if Instant::now() > until {
                    println!("  (out of time at order {order}, {n} entries)");
                    return Ok(());
                }
                let minimum = self.random.between(1, (order + 1) / 2);
                let (ps, f) = self.loose(n, 1, Limits { order, minimum });
                self.with_each_room(ps, &f)?;
            }
        }
        // as deep as packing goes
        for (order, n) in [(4, 16_384), (4, 16_385), (16, 4097), (32, 32_769)] {
            if Instant::now() < until {
                let (ps, f) = self.loose(n, order - 1, Limits { order, minimum: 1 });
                self.with_each_room(ps, &f)?;
            }
        }
        Ok(())
    }

    fn with_each_room(&mut self, ps: PoolSettings, f: &Forest) -> Result<(), Found> {
        for room in [Room::Exact, Room::Less, Room::More] {
            let pack = self.pack(Target::new(room), &ps, f, false);
            self.steps(ps, f, &[pack])?;
        }
        Ok(())
    }

    fn packs_worn(&mut self, until: Instant) -> Result<(), Found> {
        let mut pools = 0;
        while pools == 0 || Instant::now() < until {
            let ps = self.settings();
            let f = if self.random.one_in(4) { self.random_forest(&ps) } else { worn(&mut self.random, &ps) };
            self.packs_at_random(ps, &f)?;
            pools += 1;
        }
        println!("  ({pools} worn pools)");
        Ok(())
    }

    /// Packed into some targets; then on with one of them, random calls among further packings; at last, sometimes, damaged.
    fn packs_at_random(&mut self, ps: PoolSettings, f: &Forest) -> Result<(), Found> {
        let mut s = Self::fail(ps, Some(f), &[], Session::new(self.lib, ps, Some(f)))?;
        let mut walk = Walk::random(&mut self.random, &ps);
        let mut steps = vec![];
        let turns = self.random.pick(&[4, 12, 30]);
        for turn in 0..turns {
            let (now, held) = (s.settings, s.forest().cloned());
            walk.settings = now;
            let step = match turn {
                0 | 1 => self.pack_at_random(&now, held.as_ref().unwrap_or(f), false),
                2 => {
                    let room = self.random.pick(&[Room::More, Room::Exact]);
                    self.pack(Target::new(room), &now, held.as_ref().unwrap_or(f), true)
                }
                _ if turn + 2 == turns && self.random.one_in(3) => {
                    Step::Put { word: self.random.below(s.pool().len() / 8), value: self.random.below(5) as u64 }
                }
                _ if turn + 1 == turns || self.random.one_in(6) => self.pack_at_random(&now, held.as_ref().unwrap_or(f), true),
                _ if self.random.one_in(4) => walk.look(&mut self.random, s.forest()),
                _ => {
                    let mood = self.random.pick(&[Mood::Grow, Mood::Churn, Mood::Clear]);
                    walk.batch(&mut self.random, s.forest(), mood)
                }
            };
            steps.push(step.clone());
            Self::fail(ps, Some(f), &steps, s.step(&step))?;
        }
        self.tally.add(&s.tally);
        Ok(())
    }

    /// Into any target, sometimes one of a wrong length.
    fn pack_at_random(&mut self, ps: &PoolSettings, f: &Forest, onward: bool) -> Step {
        let mut target = Target::random(&mut self.random).script(&mut self.random, ps, f);
        if self.random.one_in(12) {
            let n = length(&target.settings);
            target.steps.push(Step::Resize { len: self.random.pick(&[0, 8, 32, 63, 64, n - 8, n - 1, n + 1, n + 8]) });
        }
        Step::Pack { target, onward }
    }
}
