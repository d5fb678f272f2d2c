//! What the published module does from an empty tree on: sequences of batches after which its list is not the plain one, made smaller.
use crate::random::Random;
use crate::variants::caught;
use crate::walk::{batch, Keys, Mood};
use plain::list::plain_batch;
use plain::tree::Node;
use plain::{Call, Entry, Operation, Settings};

/// The tree after some calls from an empty one, or how it failed.
pub type Run = fn(&Settings, &[Call]) -> Result<Node, String>;

macro_rules! run {
    ($name:ident, $krate:ident) => {
        pub fn $name(st: &Settings, calls: &[Call]) -> Result<Node, String> {
            caught(|| {
                let mut tree = $krate::Tree::open(st.order, st.minimum);
                for c in calls {
                    tree.batch(&c.keys, c.operation, &c.references())?;
                }
                Ok(tree.shape())
            })
        }
    };
}

run!(first, nebari_v1);
run!(second, nebari_v2);
run!(third, nebari_v3);

pub fn plain_list(calls: &[Call]) -> Vec<Entry> {
    let mut list = vec![];
    for c in calls {
        plain_batch(c, &mut list);
    }
    list
}

/// The list after the calls is not the plain one.
pub fn wrong_list(run: Run, st: &Settings, calls: &[Call]) -> bool {
    run(st, calls).map(|n| n.entries()) != Ok(plain_list(calls))
}

/// A node above the order.
pub fn too_long(run: Run, st: &Settings, calls: &[Call]) -> bool {
    fn longest(n: &Node) -> usize {
        match &n.items {
            plain::tree::Items::Entries(v) => v.len(),
            plain::tree::Items::Nodes(v) => v.iter().map(longest).max().unwrap_or(0).max(v.len()),
        }
    }
    run(st, calls).map_or(true, |n| longest(&n) > st.order)
}

pub type Bad = fn(Run, &Settings, &[Call]) -> bool;

/// Some calls of sets and removals, as a caller might make them.
fn random_calls(r: &mut Random, st: &Settings) -> Vec<Call> {
    let mut root = Node::leaf(0, vec![]);
    let wide = (3 * st.order * st.order) as u64;
    let mut keys = Keys::Below(r.pick(&[8 * st.order as u64, wide]));
    let turns = r.pick(&[20, 60, 150]);
    (0..turns)
        .map(|turn| {
            let mood = if turn * 2 < turns { Mood::Grow } else { r.pick(&[Mood::Churn, Mood::Clear, Mood::Clear]) };
            let mut c = batch(r, st, Some(&root), &mut keys, mood);
            c.keys.truncate(st.order);
            c.keys.sort_unstable();
            c.keys.dedup();
            let c = if c.operation == Operation::Remove { Call::remove(&c.keys) } else { Call::set(&c.keys, 1, 1) };
            let mut list = root.entries();
            plain_batch(&c, &mut list);
            root = Node::leaf(0, list);
            c
        })
        .collect()
}

/// Fewer calls, then fewer keys, as long as it stays bad.
fn shrink(run: Run, bad: Bad, st: &Settings, mut calls: Vec<Call>) -> Vec<Call> {
    loop {
        let mut smaller = vec![];
        for i in 0..calls.len() {
            let mut c = calls.clone();
            c.remove(i);
            smaller.push(c);
            for k in 0..calls[i].keys.len() {
                let mut c = calls.clone();
                c[i].keys.remove(k);
                smaller.push(c);
            }
        }
        match smaller.into_iter().find(|c| bad(run, st, c)) {
            Some(c) => calls = c,
            None => return calls,
        }
    }
}

/// Sequences tried, how many were bad, and the one with the fewest keys after making the first few smaller.
pub fn search(r: &mut Random, tries: usize, run: Run, bad: Bad) -> (usize, Option<(Settings, Vec<Call>)>) {
    let (mut count, mut best): (usize, Option<(Settings, Vec<Call>)>) = (0, None);
    let size = |calls: &[Call]| calls.iter().map(|c| c.keys.len()).sum::<usize>();
    for _ in 0..tries {
        let order = r.pick(&[4, 4, 5, 6, 7, 8]);
        let st = Settings { nodes: 0, order, minimum: r.between((order + 1) / 4, (order + 1) / 2).max(1) };
        let calls = random_calls(r, &st);
        if bad(run, &st, &calls) {
            count += 1;
            if count <= 25 {
                let calls = shrink(run, bad, &st, calls);
                if best.as_ref().is_none_or(|b| size(&calls) < size(&b.1)) {
                    best = Some((st, calls));
                }
            }
        }
    }
    (count, best)
}
