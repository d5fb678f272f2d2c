//! Portions of ten on the pools of the calls: the own time of one from any place, beside a scan from the same start and a BTreeMap that is resumed
//! there; and the whole list in such portions, each with its soundness test, beside one scan of all and the map ten by ten.
use crate::calls::{each_pool, own, refused, Filled, LISTED};
use crate::clock::{long_readings, nanos, readings, turns, Readings};
use oracle::library::words;
use oracle::random::Random;
use oracle::Library;
use plain::{Bound, Reference, Request};
use std::hint::black_box;
use std::ops::Bound::{Excluded, Unbounded};
use std::time::Duration;

pub fn table(lib: &dyn Library, time: Duration) {
    println!(
        "| order | nodes | keys | entries | depth | test µs | portion ns: own | scan ns: own | map ns | whole list µs: portions | one scan | map |"
    );
    println!("|---|---|---|---|---|---|---|---|---|---|---|---|");
    each_pool(time, |f, ascending, own_time| row(lib, f, ascending, own_time, time));
}

fn row(lib: &dyn Library, mut f: Filled, ascending: bool, own_time: Duration, time: Duration) {
    let long = vec![0; f.settings.trees[0].order + 1];
    let test = readings(time, || refused(lib, &mut f.pool, &long));
    let [portion, scan] = tens(lib, &mut f, &long, own_time);
    let (map, all) = (tens_of_map(&f, time), whole(lib, &f, time));
    println!(
        "| {} | {} | {} | {} | {} | {:.2} | {:.0} ±{:.0} | {:.0} ±{:.0} | {:.0} | {} |",
        f.settings.trees[0].order,
        f.settings.nodes,
        if ascending { "ascending" } else { "random" },
        f.held.len(),
        f.forest.roots[0].depth(),
        test.median() / 1000.0,
        portion.median(),
        portion.off(),
        scan.median(),
        scan.off(),
        map.median(),
        all.map(|r| format!("{:.1}", r.median() / 1000.0)).join(" | ")
    );
}

fn some_key(r: &mut Random, f: &Filled) -> u64 {
    f.held[r.below(f.held.len())]
}

fn upwards(start: Bound) -> Request {
    Request { start, end: Bound::Unbounded, down: false, least: 0 }
}

/// A portion and a scan from the same start.
fn tens(lib: &dyn Library, f: &mut Filled, long: &[u64], time: Duration) -> [Readings; 2] {
    let mut r = Random::new(10);
    let mut out = vec![0; 24 * LISTED];
    let (mut shown, mut told) = ([0; 4], [0; 3]);
    let [mut portion, mut scan]: [Readings; 2] = Default::default();
    turns(time, |_| {
        let start = Bound::Excluded(some_key(&mut r, f));
        let (mut from, q) = (words(start), upwards(start));
        portion.add(own(lib, &mut f.pool, long, |p| assert_eq!(lib.portion(p, 0, &mut from, q.end, 0, &mut out, &mut shown), 0)));
        scan.add(own(lib, &mut f.pool, long, |p| assert_eq!(lib.scan(p, 0, &q, &mut out, &mut told), 0)));
    });
    [portion, scan]
}

/// Ten of the map from behind a key on, or from its beginning, in place of those before.
fn ten(f: &Filled, behind: Option<u64>, out: &mut Vec<(u64, Reference)>) {
    out.clear();
    let start = behind.map_or(Unbounded, Excluded);
    out.extend(f.map.range((start, Unbounded)).filter(|e| e.1.place != 0).take(LISTED).map(|(k, r)| (*k, *r)));
}

fn tens_of_map(f: &Filled, time: Duration) -> Readings {
    let mut r = Random::new(10);
    let mut out = Vec::with_capacity(LISTED);
    readings(time, || {
        let key = some_key(&mut r, f);
        nanos(|| ten(f, black_box(Some(key)), black_box(&mut out)))
    })
}

/// All that is held: in portions, by one scan, and by the map ten by ten.
fn whole(lib: &dyn Library, f: &Filled, time: Duration) -> [Readings; 3] {
    let n = f.held.len();
    let (mut out, mut shown) = (vec![0; 24 * LISTED], [0; 4]);
    let portions = long_readings(time, || {
        let (mut from, mut listed) = (words(Bound::Unbounded), 0);
        let taken = nanos(|| loop {
            assert_eq!(lib.portion(&f.pool, 0, &mut from, Bound::Unbounded, 0, &mut out, &mut shown), 0);
            listed += shown[0] as usize;
            if shown[3] == 1 {
                break;
            }
        });
        assert_eq!(listed, n);
        taken
    });
    let (mut room, mut told, q) = (vec![0; 24 * n], [0; 3], upwards(Bound::Unbounded));
    let scan = long_readings(time, || nanos(|| assert_eq!(black_box(lib.scan(&f.pool, 0, &q, &mut room, &mut told)), 0)));
    let mut tens = Vec::with_capacity(LISTED);
    let map = long_readings(time, || {
        let mut listed = 0;
        let taken = nanos(|| {
            ten(f, None, &mut tens);
            while let Some((last, _)) = black_box(&tens).last().copied() {
                listed += tens.len();
                ten(f, Some(last), &mut tens);
            }
        });
        assert_eq!(listed, n);
        taken
    });
    [portions, scan, map]
}
