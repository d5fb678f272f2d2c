//! Trees of every depth up to 8 in which one more key splits every node on its way, the root too; and what follows.
use super::{Found, Work};
use crate::script::Step;
use crate::session::Session;
use crate::trees;
use crate::walk::{Keys, Mood, Walk};
use plain::tree::{Items, Node};
use plain::{Call, Limits};
use std::time::Instant;

/// A node of depth h with one child a level.
fn chain(h: usize) -> Node {
    (1..h).fold(Node::leaf(0, vec![trees::entry_for(0)]), |n, _| Node::interior(0, vec![n]))
}

/// A node of depth h with `order` items and as little below them as can be.
fn full(h: usize, order: usize) -> Node {
    match h {
        1 => Node::leaf(0, vec![trees::entry_for(0); order]),
        _ => Node::interior(0, (0..order).map(|_| chain(h - 1)).collect()),
    }
}

/// A full node of depth h, its child `at` such a node again, with full ones beside that; the leaf is full.
fn way(h: usize, order: usize, at: usize) -> Node {
    if h == 1 {
        return full(1, order);
    }
    let child = |i: usize| match i.abs_diff(at) {
        0 => way(h - 1, order, at),
        1 => full(h - 1, order),
        _ => chain(h - 1),
    };
    Node::interior(0, (0..order).map(child).collect())
}

/// Keys ascend by ten.
fn give_keys(n: &mut Node, key: &mut u64) {
    match &mut n.items {
        Items::Nodes(ns) => ns.iter_mut().for_each(|n| give_keys(n, key)),
        Items::Entries(es) => {
            for e in es {
                *key += 10;
                *e = trees::entry_for(*key);
            }
        }
    }
}

/// The keys of the leaf at the end of the way.
fn leaf_keys(n: &Node, at: usize) -> Vec<u64> {
    match &n.items {
        Items::Entries(es) => es.iter().map(|e| e.key).collect(),
        Items::Nodes(ns) => leaf_keys(&ns[at], at),
    }
}

impl Work<'_> {
    pub(super) fn deep(&mut self, until: Instant) -> Result<(), Found> {
        for (order, minimum) in [(4, 2), (4, 1), (5, 3), (5, 1), (6, 2)] {
            for h in 1..=8 {
                for at in [0, 1, order - 1] {
                    if Instant::now() > until {
                        println!("  (out of time at order {order}, depth {h})");
                        return Ok(());
                    }
                    let mut root = way(h, order, at);
                    give_keys(&mut root, &mut 0);
                    let ks = leaf_keys(&root, at);
                    let unused = plain::refuse::needed(order, h) + self.random.below(3);
                    self.batches_about(Limits { order, minimum }, root, unused, &ks)?;
                }
            }
        }
        Ok(())
    }

    /// Short batches about some keys, each followed by random calls.
    fn batches_about(&mut self, limits: Limits, root: Node, unused: usize, ks: &[u64]) -> Result<(), Found> {
        let before = root.depth();
        let (tree, ps, f) = self.beside(limits, root, unused);
        let (low, high) = (ks[0], ks[ks.len() - 1]);
        let calls = [
            Call::set(&[low - 5], 9, 9),
            Call::set(&[high + 5], 9, 9),
            Call::set(&[low + 1], 9, 9),
            Call::set(&[low + 1, low + 2, high - 1, high + 5], 9, 9),
            Call::set(&[1, low + 1, high + 5, u64::MAX], 9, 9),
            Call::remove(&ks[..2]),
            Call::remove(ks),
        ];
        for c in calls {
            let mut s = Self::fail(ps, Some(&f), &[], Session::new(self.lib, ps, Some(&f)))?;
            let mut steps = vec![Step::batch(tree, c)];
            let mut walk = Walk { settings: ps, keys: [Keys::Below(high + 20); 2] };
            for turn in 0..12 {
                let step = steps[turn].clone();
                Self::fail(ps, Some(&f), &steps, s.step(&step))?;
                let after = s.forest().map_or(0, |f| f.roots[tree as usize].depth());
                if turn == 0 {
                    self.tally.count(&format!("full ways, from depth {before} to {after}"));
                }
                let mood = self.random.pick(&[Mood::Churn, Mood::Clear]);
                steps.push(match turn % 3 {
                    2 => walk.look(&mut self.random, s.forest()),
                    _ => walk.batch(&mut self.random, s.forest(), mood),
                });
            }
            self.tally.add(&s.tally);
        }
        Ok(())
    }
}
