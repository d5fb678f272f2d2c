//! Worn pools, and pools to pack them into.
use crate::random::Random;
use crate::script::{Script, Step};
use crate::walk::{reference, Keys};
use plain::forest::Forest;
use plain::pack::needed;
use plain::pool::{length, slot_at};
use plain::refuse::batch_refusal;
use plain::tree::Node;
use plain::{Call, Limits, PoolSettings};

/// A forest grown by random batches on either tree, often until one is refused for want of nodes or by its depth; then thinned by removals, and
/// some of what is left made dead.
pub fn worn(r: &mut Random, ps: &PoolSettings) -> Forest {
    let mut f = grown(r, ps);
    for tree in 0..2 {
        let order = ps.trees[tree].order;
        let share = r.pick(&[2, 5, 7, 9]);
        for c in some_keys(r, &f.roots[tree], share).chunks(r.between(1, order)).map(Call::remove) {
            f.batch(ps, tree, &c);
        }
        for keys in some_keys(r, &f.roots[tree], 2).chunks(r.between(1, order)) {
            let c = Call::set(keys, 0, r.below(50) as u32);
            if batch_refusal(ps, tree as u64, &c, &f) == 0 {
                f.batch(ps, tree, &c);
            }
        }
    }
    f
}

fn grown(r: &mut Random, ps: &PoolSettings) -> Forest {
    let mut f = Forest::new(ps.nodes);
    let mut sources = [0, 1].map(|tree| Keys::random(r, &ps.of(tree)));
    let most = ps.nodes * ps.larger_order();
    let mut left = if r.one_in(3) { r.below(most + 1) } else { most };
    // of ten batches so many are on tree 1
    let share = r.pick(&[1, 5, 5, 9]);
    while left > 0 {
        let tree = usize::from(r.below(10) < share);
        let mut keys: Vec<u64> = (0..r.between(1, ps.trees[tree].order).min(left)).map(|_| sources[tree].one(r)).collect();
        keys.sort_unstable();
        left -= keys.len();
        let (places, sizes): (Vec<u64>, Vec<u32>) = keys.iter().map(|_| reference(r)).map(|r| (r.place, r.size)).unzip();
        let c = Call::set_each(&keys, &places, &sizes);
        if batch_refusal(ps, tree as u64, &c, &f) != 0 {
            break;
        }
        f.batch(ps, tree, &c);
    }
    f
}

/// So many of ten of the keys held.
fn some_keys(r: &mut Random, root: &Node, of_ten: usize) -> Vec<u64> {
    root.entries().iter().map(|e| e.key).filter(|_| r.below(10) < of_ten).collect()
}

/// How many nodes a target has, beside those that the packed tree needs.
#[derive(Clone, Copy, Debug, PartialEq)]
pub enum Room {
    More,
    Exact,
    Less,
}

/// What stands in a target.
#[derive(Clone, Copy, Debug, PartialEq)]
pub enum Held {
    Nothing,
    /// What was set there is removed again.
    Emptied,
    Entries,
}

/// What a target is like.
#[derive(Clone, Copy, Debug)]
pub struct Target {
    pub room: Room,
    pub held: Held,
    pub other_order: bool,
    pub other_minimum: bool,
    pub damaged: bool,
}

impl Target {
    /// A new pool.
    pub fn new(room: Room) -> Target {
        Target { room, held: Held::Nothing, other_order: false, other_minimum: false, damaged: false }
    }

    /// Of any kind; most are such as are packed into.
    pub fn random(r: &mut Random) -> Target {
        Target {
            room: r.pick(&[Room::More, Room::Exact, Room::Exact, Room::Less]),
            held: r.pick(&[Held::Nothing, Held::Nothing, Held::Emptied, Held::Emptied, Held::Entries]),
            other_order: r.one_in(10),
            other_minimum: r.one_in(10),
            damaged: r.one_in(12),
        }
    }

    pub fn all() -> Vec<Target> {
        let mut all = vec![];
        for room in [Room::More, Room::Exact, Room::Less] {
            for held in [Held::Nothing, Held::Emptied, Held::Entries] {
                for flags in 0..8 {
                    all.push(Target { room, held, other_order: flags & 1 != 0, other_minimum: flags & 2 != 0, damaged: flags & 4 != 0 });
                }
            }
        }
        all
    }

    /// Such a target for a forest of these settings: its settings, and what is done to it from its opening on. What differs, or is held, is of one
    /// tree or the other. No pool has fewer than 8 nodes.
    pub fn script(self, r: &mut Random, ps: &PoolSettings, f: &Forest) -> Script {
        let needed = needed(ps, f);
        let nodes = match self.room {
            Room::More => needed + r.pick(&[1, 2, 8, 30]),
            Room::Exact => needed,
            Room::Less => needed - 1,
        };
        let mut settings = PoolSettings { nodes: nodes.clamp(8, 16_384), ..*ps };
        let tree = r.below(2);
        settings.trees[tree] = self.limits(r, &ps.trees[tree]);
        Script { settings, start: None, steps: self.steps(r, &settings) }
    }

    fn limits(self, r: &mut Random, l: &Limits) -> Limits {
        let order = match (self.other_order, l.order) {
            (false, o) => o,
            (true, 4) => 5,
            (true, o) => o - 1,
        };
        let top = (order + 1) / 2;
        let minimum = match (self.other_minimum, l.minimum.min(top)) {
            (false, m) => m,
            (true, 1) => r.between(2, top),
            (true, m) => r.between(1, m - 1),
        };
        Limits { order, minimum }
    }

    fn steps(self, r: &mut Random, ps: &PoolSettings) -> Vec<Step> {
        let mut steps = vec![];
        let mut all = vec![];
        let tree = r.below(2);
        let order = ps.trees[tree].order;
        if self.held != Held::Nothing {
            // one key always has room in a new pool
            let mut n = 1;
            for _ in 0..r.between(1, 3) {
                let mut keys: Vec<u64> = (0..n).map(|_| r.below(100) as u64).collect();
                keys.sort_unstable();
                steps.push(Step::batch(tree as u64, Call::set(&keys, r.below(3) as u64, 9)));
                all.extend(keys);
                n = r.between(1, order);
            }
        }
        if self.held == Held::Emptied {
            all.sort_unstable();
            steps.extend(all.chunks(order).map(|keys| Step::batch(tree as u64, Call::remove(keys))));
        }
        if self.damaged {
            // behind the rows that a sound node may have: in a root's slot, or the last word
            let (last, most) = (length(ps) / 8 - 1, ps.larger_order());
            steps.push(Step::Put { word: r.pick(&[last, slot_at(ps, tree) + r.clone().between(2 + 3 * most, 1 + 6 * most)]), value: 1 });
        }
        steps
    }
}
