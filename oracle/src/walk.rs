//! Random calls, of every length around each boundary.
use crate::random::Random;
use crate::script::{Cursor, Step};
use plain::forest::Forest;
use plain::frame::frames_of;
use plain::tree::Node;
use plain::{Action, Bound, Call, Expectation, Operation, PoolSettings, Reference, Request, Settings};

/// Where keys come from.
#[derive(Clone, Copy, Debug)]
pub enum Keys {
    Below(u64),
    Ascending(u64),
    Any,
    Ends,
}

/// What batches mostly do.
#[derive(Clone, Copy, Debug)]
pub enum Mood {
    Grow,
    Churn,
    Clear,
}

impl Keys {
    pub fn random(r: &mut Random, st: &Settings) -> Keys {
        match r.below(6) {
            0 => Keys::Below(3 * st.order as u64),
            1 => Keys::Below(1000),
            2 => Keys::Below((st.nodes * st.order) as u64),
            3 => Keys::Ascending(0),
            4 => Keys::Ends,
            _ => Keys::Any,
        }
    }
    pub(crate) fn one(&mut self, r: &mut Random) -> u64 {
        match self {
            Keys::Below(n) => r.below(*n as usize) as u64,
            Keys::Ascending(next) => {
                *next += r.between(1, 3) as u64;
                *next
            }
            Keys::Any => r.next(),
            Keys::Ends => r.pick(&[0, u64::MAX - 300, 1 << 63, (1 << 63) - 300]).wrapping_add(r.below(301) as u64),
        }
    }
}

pub(crate) fn reference(r: &mut Random) -> Reference {
    let (place, size) = (r.next(), r.next() as u32);
    Reference { place: r.pick(&[0, 1, 2, place, place, u64::MAX]), size: r.pick(&[0, 1, 16, 17, size, u32::MAX]) }
}

fn length(r: &mut Random, order: usize) -> usize {
    match r.below(12) {
        0 => r.below(2),
        1..=3 => 1,
        4 => order,
        5 => r.between(order - 1, order + 1),
        _ => r.between(1, order),
    }
}

/// Ascending keys: from the source, or a run of those that the tree holds.
fn keys(r: &mut Random, n: usize, source: &mut Keys, root: Option<&Node>, held: bool) -> Vec<u64> {
    let es = root.map(Node::entries).unwrap_or_default();
    let mut ks: Vec<u64> = if held && !es.is_empty() {
        let from = r.below(es.len());
        let near = r.one_in(2);
        (0..n).map(|i| if near { es[(from + i).min(es.len() - 1)].key } else { es[r.below(es.len())].key }).collect()
    } else {
        (0..n).map(|_| source.one(r)).collect()
    };
    if n > 1 && r.one_in(4) {
        let (a, b) = (r.below(n), r.below(n));
        ks[a] = ks[b];
    }
    ks.sort_unstable();
    ks
}

pub fn batch(r: &mut Random, st: &Settings, root: Option<&Node>, source: &mut Keys, mood: Mood) -> Call {
    let n = length(r, st.order);
    let removes = match mood {
        Mood::Grow => 10,
        Mood::Churn => 45,
        Mood::Clear => 85,
    };
    let remove = r.below(100) < removes;
    let held = if remove { !r.one_in(6) } else { r.one_in(8) };
    let mut ks = keys(r, n, source, root, held);
    if n > 1 && r.one_in(40) {
        let (a, b) = (r.below(n), r.below(n));
        ks.swap(a, b);
    }
    let operation = match (remove, r.below(8)) {
        (true, 0) => Operation::Compare(expectation(r, root, &ks), Action::Remove),
        (true, _) => Operation::Remove,
        (false, 0) => Operation::Compare(expectation(r, root, &ks), Action::Set(reference(r))),
        (false, 1) => Operation::Compare(Expectation::Absent, Action::Set(reference(r))),
        (false, 2) => Operation::Set(reference(r)),
        (false, _) => Operation::SetEach,
    };
    let lent = |r: &mut Random| match r.below(60) {
        0 => n.saturating_sub(1),
        1 => n + 1,
        2 => 0,
        _ => n,
    };
    let (p, s) = if operation == Operation::SetEach || r.one_in(9) { (lent(r), lent(r)) } else { (0, 0) };
    Call { operation, places: (0..p).map(|_| reference(r).place).collect(), sizes: (0..s).map(|_| reference(r).size).collect(), keys: ks }
}

/// Absent, or what one of the keys holds, or something else.
fn expectation(r: &mut Random, root: Option<&Node>, ks: &[u64]) -> Expectation {
    let es = root.map(Node::entries).unwrap_or_default();
    let held = ks.first().and_then(|k| es.iter().find(|e| e.key == *k)).map(|e| e.reference());
    match (r.below(4), held) {
        (0, _) => Expectation::Absent,
        (1, Some(h)) => Expectation::Holds(Reference { place: h.place, size: h.size ^ 1 }),
        (_, Some(h)) => Expectation::Holds(h),
        _ => Expectation::Holds(reference(r)),
    }
}

/// Room in bytes for about n entries of so many bytes.
fn room(r: &mut Random, n: usize, width: usize) -> usize {
    let entries = r.pick(&[0, 1, n / 2, n.saturating_sub(1), n, n + 1]);
    (entries * width + r.pick(&[0, 0, 0, 1, width - 1])).saturating_sub(r.below(2) * r.below(2))
}

fn near(r: &mut Random, root: Option<&Node>, source: &mut Keys) -> u64 {
    let es = root.map(Node::entries).unwrap_or_default();
    if es.is_empty() || r.one_in(5) {
        return source.one(r);
    }
    let k = es[r.below(es.len())].key;
    r.pick(&[k, k, k.wrapping_add(1), k.wrapping_sub(1)])
}

fn bound(r: &mut Random, root: Option<&Node>, source: &mut Keys) -> Bound {
    match r.below(4) {
        0 => Bound::Unbounded,
        1 => Bound::Excluded(near(r, root, source)),
        _ => Bound::Included(near(r, root, source)),
    }
}

fn least(r: &mut Random) -> u32 {
    r.pick(&[0, 0, 1, 16, 17, 1000, u32::MAX])
}

/// The words of a start. A flag that is set may be any number but 0, and what is not read may be anything.
fn start_words(r: &mut Random, b: Bound) -> [u64; 3] {
    let [one, other] = [0, 1].map(|_| r.pick(&[1, 1, 1, 2, 7, 9, 256, 1 << 32, u64::MAX]));
    match b {
        Bound::Unbounded => r.pick(&[[0, 0, 0], [0, one, other]]),
        Bound::Included(k) => [one, other, k],
        Bound::Excluded(k) => [one, 0, k],
    }
}

pub fn cursor(r: &mut Random, root: Option<&Node>, source: &mut Keys) -> Cursor {
    let (start, end) = (bound(r, root, source), bound(r, root, source));
    Cursor { from: start_words(r, start), end, least: least(r) }
}

pub fn look(r: &mut Random, tree: u64, root: Option<&Node>, source: &mut Keys) -> Step {
    let held = root.map_or(0, |root| root.entries().len());
    let most = if r.one_in(3) { held } else { held.min(6) };
    match r.below(12) {
        0 => Step::Totals { tree },
        1..=3 => {
            let n = r.pick(&[0, 1, 2, 5, 40]);
            let mut ks: Vec<u64> = (0..n).map(|_| near(r, root, source)).collect();
            if !r.one_in(12) {
                ks.sort_unstable();
            }
            Step::Get { tree, room: room(r, n, 24), keys: ks }
        }
        4..=7 => {
            let (start, end) = (bound(r, root, source), bound(r, root, source));
            let request = Request { start, end, down: r.one_in(2), least: least(r) };
            Step::Scan { tree, request, room: room(r, most, 24) }
        }
        8..=9 => Step::Portion { tree, cursor: cursor(r, root, source), room: room(r, most, 24) },
        _ => frame(r, tree, root),
    }
}

fn frame(r: &mut Random, tree: u64, root: Option<&Node>) -> Step {
    let frames = root.map(frames_of).unwrap_or_default();
    let i = match r.below(12) {
        0 => frames.len() as u64,
        1 => u64::MAX,
        _ => r.below(frames.len() + 1) as u64,
    };
    let n = frames.get(i as usize).map_or(2, |f| f.line().len());
    Step::Frame { tree, i, room: r.pick(&[0, 1, n - 1, n, n, n + 1, n + 40]) }
}

/// A tree's number; now and then one that no tree has.
pub fn some_tree(r: &mut Random) -> u64 {
    if r.one_in(24) {
        r.pick(&[2, 3, 4, 256, 1 << 32, u64::MAX])
    } else {
        r.below(2) as u64
    }
}

/// Random calls on a pool of two trees, each with keys from a source of its own. A call that names neither is such as one of them would get.
pub struct Walk {
    pub settings: PoolSettings,
    pub keys: [Keys; 2],
}

impl Walk {
    pub fn random(r: &mut Random, ps: &PoolSettings) -> Walk {
        Walk { settings: *ps, keys: [0, 1].map(|tree| Keys::random(r, &ps.of(tree))) }
    }
    pub fn batch(&mut self, r: &mut Random, f: Option<&Forest>, mood: Mood) -> Step {
        let tree = some_tree(r);
        let i = (tree % 2) as usize;
        Step::batch(tree, batch(r, &self.settings.of(i), f.map(|f| &f.roots[i]), &mut self.keys[i], mood))
    }
    pub fn look(&mut self, r: &mut Random, f: Option<&Forest>) -> Step {
        let tree = some_tree(r);
        let i = (tree % 2) as usize;
        look(r, tree, f.map(|f| &f.roots[i]), &mut self.keys[i])
    }
}
