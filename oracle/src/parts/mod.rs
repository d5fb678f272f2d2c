//! The parts of the comparison, each until its time is up; every part ends at the first difference.
use crate::library::Library;
use crate::random::Random;
use crate::script::{Script, Step};
use crate::session::Difference;
use crate::tally::Tally;
use crate::trees;
use plain::forest::Forest;
use plain::tree::Node;
use plain::{Limits, PoolSettings};
use std::time::Instant;

mod damaged;
mod deep;
mod frames;
mod looks;
mod openings;
mod packs;
mod pools;
mod portions;
mod sequences;
mod small;
mod table;

/// What shows a difference, where it is a script; and the difference.
pub type Found = (Option<Script>, Difference);
pub type Part<'l> = fn(&mut Work<'l>, Instant) -> Result<(), Found>;

pub struct Work<'l> {
    pub lib: &'l dyn Library,
    pub random: Random,
    pub tally: Tally,
    /// Exhaustive parts go further.
    pub long: bool,
}

impl<'l> Work<'l> {
    pub fn new(lib: &'l dyn Library, seed: u64, long: bool) -> Work<'l> {
        Work { lib, random: Random::new(seed), tally: Tally::default(), long }
    }

    /// Each part with its name and the share of the time at which it ends.
    pub fn parts() -> [(&'static str, f64, Part<'l>); 11] {
        [
            ("settings and lengths when opening", 0.02, Work::openings),
            ("refusals in the table's order", 0.04, Work::table),
            ("sequences of short batches from a new pool", 0.14, Work::sequences),
            ("short batches on every small tree", 0.38, Work::small_trees),
            ("lookups of every small tree", 0.47, Work::small_looks),
            ("full ways down, of every depth", 0.54, Work::deep),
            ("random calls on random pools", 0.71, Work::random_pools),
            ("portions: listings of small trees and of random pools", 0.81, Work::portions),
            ("packing small trees and worn pools", 0.91, Work::packs),
            ("damaged pools", 0.96, Work::damaged_pools),
            ("frames", 1.0, Work::frames),
        ]
    }

    /// A difference with the script that shows it.
    fn fail<T>(settings: PoolSettings, start: Option<&Forest>, steps: &[Step], r: Result<T, Difference>) -> Result<T, Found> {
        r.map_err(|d| (Some(Script { settings, start: start.cloned(), steps: steps.to_vec() }), d))
    }

    /// A tree as one of two in a pool, in any slots: which of them it is, the settings, with so many unused nodes or as many as make eight of all,
    /// and what the pool holds. The other tree is a small one, often of another order.
    fn beside(&mut self, limits: Limits, root: Node, unused: usize) -> (u64, PoolSettings, Forest) {
        let r = &mut self.random;
        let (order, minimum) = r.pick(&[(limits.order, limits.minimum), (4, 2), (5, 3), (7, 1), (9, 5)]);
        let others = Limits { order, minimum };
        let depth = r.pick(&[1, 1, 2, 3]);
        let other = trees::random(r, order, depth, 6, 5);
        let tree = r.below(2) as u64;
        let nodes = (root.nodes() + other.nodes() + unused).max(8);
        let ps = PoolSettings { nodes, trees: trees::pair(tree, limits, others) };
        (tree, ps, trees::planted(trees::pair(tree, root, other), nodes, Some(r)))
    }
}
