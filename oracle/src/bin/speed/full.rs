//! The soundness test on full pools, beside a sum of the same bytes as 64-bit words.
use crate::clock::{nanos, readings};
use oracle::random::Random;
use oracle::{trees, Library};
use plain::forest::Forest;
use plain::pool::image;
use plain::tree::Node;
use plain::{Bound, Entry, PoolSettings, Request};
use std::hint::black_box;
use std::time::Duration;

/// Where the nodes of a full pool lie.
#[derive(Clone, Copy)]
pub enum Layout {
    /// One behind another, as a walk over the tree comes to them.
    InOrder,
    /// Anywhere, as after many changes.
    Scattered,
}

pub fn table(lib: &dyn Library, time: Duration) {
    println!("| order | nodes | slots | entries | depth | pool KB | soundness test µs | sum of words µs | ratio | list of all entries µs |");
    println!("|---|---|---|---|---|---|---|---|---|---|");
    for order in [4, 16, 32] {
        for nodes in [16, 64, 1024, 16_384] {
            for layout in [Layout::InOrder, Layout::Scattered] {
                row(lib, time, PoolSettings::alike(nodes, order, order / 2), layout);
            }
        }
    }
}

/// What the test costs is what totals cost, which only reads the root's rows besides. The list is a scan of everything, less the test.
fn row(lib: &dyn Library, time: Duration, ps: PoolSettings, layout: Layout) {
    let forest = full(&ps, layout);
    let entries = forest.roots[0].entries().len();
    let pool = image(&ps, &forest);
    let mut out = vec![0; 24 * entries];
    let all = Request { start: Bound::Unbounded, end: Bound::Unbounded, down: false, least: 0 };
    let (mut totals, mut told) = ([0; 3], [0; 3]);
    let sum = readings(time, || nanos(|| _ = black_box(summed(black_box(&pool))))).median();
    let test = readings(time, || nanos(|| assert_eq!(black_box(lib.totals(&pool, 0, &mut totals)), 0))).median();
    let scan = readings(time, || nanos(|| assert_eq!(black_box(lib.scan(&pool, 0, &all, &mut out, &mut told)), 0))).median();
    println!(
        "| {} | {} | {} | {entries} | {} | {:.1} | {:.2} | {:.2} | {:.1} | {:.2} |",
        ps.trees[0].order,
        ps.nodes,
        match layout {
            Layout::InOrder => "in order",
            Layout::Scattered => "scattered",
        },
        forest.roots[0].depth(),
        pool.len() as f64 / 1024.0,
        test / 1000.0,
        sum / 1000.0,
        test / sum,
        (scan - test) / 1000.0
    );
}

fn summed(pool: &[u8]) -> u64 {
    pool.chunks_exact(8).fold(0u64, |s, w| s.wrapping_add(u64::from_le_bytes(w.try_into().expect("eight"))))
}

/// In tree 0, full leaves, and interiors as full as they can be alike, as many as fit: at most a few slots stay unused. One entry in four is dead.
/// Tree 1 is one empty leaf.
pub fn full(ps: &PoolSettings, layout: Layout) -> Forest {
    let order = ps.trees[0].order;
    let mut leaves = 1;
    while nodes_over(leaves + 1, order) < ps.nodes {
        leaves += 1;
    }
    let mut level: Vec<Node> = (0..leaves).map(|i| Node::leaf(0, (0..order).map(|j| entry((i * order + j) as u64)).collect())).collect();
    while level.len() > 1 {
        level = parents(level, order);
    }
    let mut random = Random::new(5);
    trees::planted([level.remove(0), trees::empty()], ps.nodes, matches!(layout, Layout::Scattered).then_some(&mut random))
}

fn entry(i: u64) -> Entry {
    Entry { key: 2 * i + 1, place: if i % 4 == 3 { 0 } else { 256 }, size: 16 }
}

/// How many nodes a tree with so many leaves has.
fn nodes_over(leaves: usize, order: usize) -> usize {
    if leaves == 1 {
        1
    } else {
        leaves + nodes_over(leaves.div_ceil(order), order)
    }
}

/// The next level above: as few nodes as hold them, filled alike.
fn parents(level: Vec<Node>, order: usize) -> Vec<Node> {
    let (n, above) = (level.len(), level.len().div_ceil(order));
    let mut nodes = level.into_iter();
    (0..above).map(|i| Node::interior(0, nodes.by_ref().take(n * (i + 1) / above - n * i / above).collect())).collect()
}
