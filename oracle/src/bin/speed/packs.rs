//! Packing full pools and worn ones into pools of as many nodes. Beside it a BTreeMap of the same entries, which is walked and built anew, and a copy
//! of the target's bytes.
//!
//! The soundness test's share is what totals of the two pools cost, the target being new.
use crate::clock::{nanos, readings};
use crate::full::{full, Layout};
use oracle::Library;
use plain::forest::Forest;
use plain::pack::packed;
use plain::pool::image;
use plain::tree::{Items, Node};
use plain::{PoolSettings, Reference};
use std::collections::BTreeMap;
use std::hint::black_box;
use std::time::Duration;

type Map = BTreeMap<u64, Reference>;

pub fn table(lib: &dyn Library, time: Duration) {
    println!("| order | nodes | pool | entries | nodes used, packed | depth, packed | pack µs | of it both tests µs | map µs | copy µs |");
    println!("|---|---|---|---|---|---|---|---|---|---|");
    for order in [4, 16, 32] {
        for nodes in [1024, 16_384] {
            let ps = PoolSettings::alike(nodes, order, order / 2);
            let (in_order, scattered) = (full(&ps, Layout::InOrder), full(&ps, Layout::Scattered));
            row(lib, time, ps, "full", &in_order, mapped(&in_order));
            let mut worn = scattered;
            let mut map = mapped(&worn);
            thin(&mut worn.roots[0], &mut map);
            row(lib, time, ps, "worn", &worn, map);
        }
    }
}

fn mapped(f: &Forest) -> Map {
    f.roots[0].entries().iter().map(|e| (e.key, e.reference())).collect()
}

/// Every second entry of each leaf goes, and goes out of the map.
fn thin(n: &mut Node, map: &mut Map) {
    match &mut n.items {
        Items::Nodes(ns) => ns.iter_mut().for_each(|n| thin(n, map)),
        Items::Entries(es) => {
            let mut stays = false;
            es.retain(|e| {
                stays = !stays;
                if !stays {
                    map.remove(&e.key);
                }
                stays
            });
        }
    }
}

fn row(lib: &dyn Library, time: Duration, ps: PoolSettings, pool: &str, f: &Forest, map: Map) {
    let (source, new) = (image(&ps, f), image(&ps, &Forest::new(ps.nodes)));
    let tree = &f.roots[0];
    let entries = tree.entries();
    assert_eq!(map.len(), entries.len());
    let mut target = new.clone();
    let mut totals = [0; 3];
    let pack = readings(time, || {
        target.copy_from_slice(&new);
        nanos(|| assert_eq!(black_box(lib.pack(&source, &mut target)), 0))
    });
    let tests = readings(time, || [&source, &new].into_iter().map(|pool| nanos(|| assert_eq!(black_box(lib.totals(pool, 0, &mut totals)), 0))).sum());
    let built = readings(time, || {
        let mut anew = Map::new();
        // what it held before is nothing, and what it holds then is dropped when the time is taken
        nanos(|| anew = black_box(&map).iter().map(|(k, r)| (*k, *r)).collect())
    });
    let copied = readings(time, || nanos(|| black_box(&mut target).copy_from_slice(black_box(&source))));
    let root = packed(ps.trees[0].order, &entries);
    println!(
        "| {} | {} | {pool} | {} | {}, {} | {}, {} | {:.1} | {:.1} | {:.1} | {:.1} |",
        ps.trees[0].order,
        ps.nodes,
        entries.len(),
        tree.nodes(),
        root.nodes(),
        tree.depth(),
        root.depth(),
        pack.median() / 1000.0,
        tests.median() / 1000.0,
        built.median() / 1000.0,
        copied.median() / 1000.0
    );
}
