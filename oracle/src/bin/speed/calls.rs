//! Own times of batches, gets and scans, beside the third variant of the published module and BTreeMap; and bytes an entry.
//!
//! A call's own time is the call less a call refused as 3, which costs the soundness test alone; such a call is timed before it and after
//! it, and half of each is taken off.
use crate::clock::{nanos, readings, taken, turns, Readings};
use nebari_v3::Tree;
use oracle::random::Random;
use oracle::Library;
use plain::forest::Forest;
use plain::pool::image;
use plain::{Bound, Call, Operation, PoolSettings, Reference, Request};
use std::collections::BTreeMap;
use std::hint::black_box;
use std::time::Duration;

pub const KEYS: usize = 4;
pub const LISTED: usize = 10;
type Map = BTreeMap<u64, Reference>;

/// The three stores, filled alike.
pub struct Filled {
    pub settings: PoolSettings,
    pub forest: Forest,
    pub pool: Vec<u8>,
    tree: Tree,
    pub map: Map,
    pub held: Vec<u64>,
    heap: [usize; 2],
}

pub fn table(lib: &dyn Library, time: Duration) {
    println!(
        "| order | nodes | keys | entries | depth | bytes an entry: pool, oracle, map | set ns: own, oracle, map | remove ns | get ns | scan ns |"
    );
    println!("|---|---|---|---|---|---|---|---|---|---|");
    each_pool(time, |f, ascending, own| row(lib, f, ascending, own, time));
}

/// A row for each of the filled stores: whether their keys ascend, and how long own times are taken of them.
pub fn each_pool(time: Duration, mut row: impl FnMut(Filled, bool, Duration)) {
    for order in [4, 16, 32] {
        for nodes in [64, 1024, 16_384] {
            for ascending in [false, true] {
                let ps = PoolSettings::alike(nodes, order, order / 2);
                // own times are small differences of large ones where the pool is large, and need more readings
                row(fill(ps, ascending), ascending, if nodes == 16_384 { 10 * time } else { time });
            }
        }
    }
}

fn row(lib: &dyn Library, mut f: Filled, ascending: bool, own: Duration, time: Duration) {
    let [set, remove] = batches(lib, &mut f, ascending, own, time);
    let (get, scan) = (gets(lib, &mut f, own, time), scans(lib, &mut f, own, time));
    let n = f.held.len();
    println!(
        "| {} | {} | {} | {n} | {} | {}, {}, {} | {set} | {remove} | {get} | {scan} |",
        f.settings.trees[0].order,
        f.settings.nodes,
        if ascending { "ascending" } else { "random" },
        f.forest.roots[0].depth(),
        f.pool.len() / n,
        f.heap[0] / n,
        f.heap[1] / n,
    );
}

/// Own time with how far it may be off, the oracle's and the map's.
fn figures(own: &Readings, oracle: &Readings, map: &Readings) -> String {
    format!("{:.0} ±{:.0}, {:.0}, {:.0}", own.median(), own.off(), oracle.median(), map.median())
}

/// The r-th key of some: spread over all 64 bits, or ascending.
fn key(ascending: bool, i: u64) -> u64 {
    if ascending {
        2 * i + 2
    } else {
        Random::new(i).next() | 1
    }
}

/// Tree 0 filled by batches of KEYS until half of the nodes are used, or depth 8, at which no more is set, comes near. Tree 1 is one empty leaf.
fn fill(ps: PoolSettings, ascending: bool) -> Filled {
    let mut forest = Forest::new(ps.nodes);
    let mut calls = vec![];
    let mut next = 0;
    let order = ps.trees[0].order;
    while forest.unused.len() * 2 > ps.nodes && (forest.roots[0].depth() < 7 || forest.roots[0].len() + 1 < order) {
        let mut keys: Vec<u64> = (0..KEYS as u64).map(|i| key(ascending, next + i)).collect();
        next += KEYS as u64;
        keys.sort_unstable();
        let c = Call::set(&keys, 256, 16);
        if plain::refuse::batch_refusal(&ps, 0, &c, &forest) != 0 {
            break;
        }
        forest.batch(&ps, 0, &c);
        calls.push(keys);
    }
    let r = Reference { place: 256, size: 16 };
    let before = taken();
    let mut tree = Tree::open(order, ps.trees[0].minimum);
    for keys in &calls {
        tree.batch(keys, Operation::Set(r), &[]).expect("done");
    }
    let with_tree = taken();
    let map: Map = calls.iter().flatten().map(|&k| (k, r)).collect();
    let heap = [with_tree - before, taken() - with_tree];
    let held = forest.roots[0].entries().iter().map(|e| e.key).collect();
    Filled { settings: ps, pool: image(&ps, &forest), forest, tree, map, held, heap }
}

fn sorted(r: &mut Random, n: usize, mut one: impl FnMut(&mut Random) -> u64) -> Vec<u64> {
    let mut v: Vec<u64> = (0..n).map(|_| one(r)).collect();
    v.sort_unstable();
    v
}

/// A call that ends after the soundness test.
pub fn refused(lib: &dyn Library, pool: &mut [u8], long: &[u64]) -> f64 {
    let mut counts = [0; 4];
    nanos(|| assert_eq!(black_box(lib.remove(pool, 0, long, &mut counts)), 3))
}

/// The own time of a call.
pub fn own(lib: &dyn Library, pool: &mut [u8], long: &[u64], call: impl FnOnce(&mut [u8])) -> f64 {
    let before = refused(lib, pool, long);
    let whole = nanos(|| call(pool));
    whole - (before + refused(lib, pool, long)) / 2.0
}

/// Setting new keys, and removing them again.
fn batches(lib: &dyn Library, f: &mut Filled, ascending: bool, own_time: Duration, time: Duration) -> [String; 2] {
    let long = vec![0; f.settings.trees[0].order + 1];
    let mut r = Random::new(7);
    let top = *f.held.last().expect("filled");
    let fresh = |r: &mut Random| -> Vec<u64> {
        if ascending {
            (1..=KEYS as u64).map(|i| top + 2 * i).collect()
        } else {
            sorted(r, KEYS, |r| r.next() & !1)
        }
    };
    let mut counts = [0; 4];
    let filled = f.pool.clone();
    let x = Reference { place: 256, size: 16 };
    let [mut set, mut gone, mut tree_set, mut tree_gone, mut map_set, mut map_gone]: [Readings; 6] = Default::default();
    turns(own_time, |turn| {
        // worn by many turns, a small pool might run short of nodes
        if turn % 8 == 0 {
            f.pool.copy_from_slice(&filled);
        }
        let keys = fresh(&mut r);
        set.add(own(lib, &mut f.pool, &long, |p| assert_eq!(lib.set(p, 0, &keys, 256, 16, &mut counts), 0)));
        gone.add(own(lib, &mut f.pool, &long, |p| assert_eq!(lib.remove(p, 0, &keys, &mut counts), 0)));
    });
    turns(time, |_| {
        let keys = fresh(&mut r);
        tree_set.add(nanos(|| drop(black_box(f.tree.batch(&keys, Operation::Set(x), &[])))));
        tree_gone.add(nanos(|| drop(black_box(f.tree.batch(&keys, Operation::Remove, &[])))));
    });
    turns(time, |_| {
        let keys = fresh(&mut r);
        map_set.add(nanos(|| keys.iter().for_each(|k| _ = black_box(f.map.insert(*k, x)))));
        map_gone.add(nanos(|| keys.iter().for_each(|k| _ = black_box(f.map.remove(k)))));
    });
    [figures(&set, &tree_set, &map_set), figures(&gone, &tree_gone, &map_gone)]
}

fn gets(lib: &dyn Library, f: &mut Filled, own_time: Duration, time: Duration) -> String {
    let long = vec![0; f.settings.trees[0].order + 1];
    let mut r = Random::new(8);
    let mut out = vec![0; 24 * LISTED];
    let mut told = [0; 2];
    let some = |r: &mut Random| sorted(r, LISTED, |r| f.held[r.below(f.held.len())]);
    let own = readings(own_time, || {
        let keys = some(&mut r);
        own(lib, &mut f.pool, &long, |p| assert_eq!(lib.get(p, 0, &keys, &mut out, &mut told), 0))
    });
    let tree = readings(time, || {
        let keys = some(&mut r);
        nanos(|| drop(black_box(f.tree.get(&keys, LISTED))))
    });
    let map = readings(time, || {
        let keys = some(&mut r);
        nanos(|| keys.iter().for_each(|k| _ = black_box(f.map.get(k).copied())))
    });
    figures(&own, &tree, &map)
}

fn scans(lib: &dyn Library, f: &mut Filled, own_time: Duration, time: Duration) -> String {
    let long = vec![0; f.settings.trees[0].order + 1];
    let mut r = Random::new(9);
    let mut out = vec![0; 24 * LISTED];
    let mut told = [0; 3];
    let from = |r: &mut Random| f.held[r.below(f.held.len())];
    let request = |key| Request { start: Bound::Included(key), end: Bound::Unbounded, down: false, least: 0 };
    let own = readings(own_time, || {
        let q = request(from(&mut r));
        own(lib, &mut f.pool, &long, |p| assert_eq!(lib.scan(p, 0, &q, &mut out, &mut told), 0))
    });
    let tree = readings(time, || {
        let q = request(from(&mut r));
        nanos(|| drop(black_box(f.tree.scan(&q, LISTED))))
    });
    let map = readings(time, || {
        let k = from(&mut r);
        nanos(|| drop(black_box(f.map.range(k..).filter(|e| e.1.place != 0).take(LISTED).map(|e| *e.0).collect::<Vec<_>>())))
    });
    figures(&own, &tree, &map)
}
