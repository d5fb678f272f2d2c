//! What multi-get and scan list, and which nodes a scan opens.
use crate::tree::{Items, Node};
use crate::{Bound, Entry, Listing, Request, Scanned};

fn listing(room: usize, mut due: Vec<Entry>) -> Listing {
    let more = room < due.len();
    due.truncate(room);
    Listing { written: due, more }
}

/// One entry for each key that is present, dead ones too, equal keys each time.
pub fn get_all(keys: &[u64], room: usize, root: &Node) -> Listing {
    let es = root.entries();
    let found = keys.iter().filter_map(|k| es.binary_search_by_key(k, |e| e.key).ok().map(|i| es[i])).collect();
    listing(room, found)
}

fn starts(b: Bound, k: u64) -> bool {
    match b {
        Bound::Unbounded => true,
        Bound::Included(a) => a <= k,
        Bound::Excluded(a) => a < k,
    }
}

fn ends(b: Bound, k: u64) -> bool {
    match b {
        Bound::Unbounded => true,
        Bound::Included(a) => k <= a,
        Bound::Excluded(a) => k < a,
    }
}

/// A live entry in range, of size at least s.
fn due(q: &Request, e: &Entry) -> bool {
    e.place != 0 && starts(q.start, e.key) && ends(q.end, e.key) && q.least <= e.size
}

fn due_in(q: &Request, es: &[Entry]) -> Vec<Entry> {
    let mut list: Vec<Entry> = es.iter().filter(|e| due(q, e)).copied().collect();
    if q.down {
        list.reverse();
    }
    list
}

/// The children that the loop comes to: forwards it ends once the previous separator is past the end, backwards it has no such test.
fn reached<'n>(q: &Request, ns: &'n [Node]) -> Vec<&'n Node> {
    if q.down {
        return ns.iter().rev().collect();
    }
    let past = ns.iter().position(|n| !ends(q.end, n.greatest_key()));
    ns[..past.map_or(ns.len(), |i| i + 1)].iter().collect()
}

/// A child is skipped if its separator fails the start bound or the total size of its live entries is below s.
fn entered(q: &Request, n: &Node) -> bool {
    starts(q.start, n.greatest_key()) && u64::from(q.least) <= n.totals().size
}

/// For each node in the order of opening, how many entries it adds to the list.
fn openings(q: &Request, n: &Node, out: &mut Vec<usize>) {
    match &n.items {
        Items::Entries(es) => out.push(due_in(q, es).len()),
        Items::Nodes(ns) => {
            out.push(0);
            reached(q, ns).into_iter().filter(|n| entered(q, n)).for_each(|n| openings(q, n, out));
        }
    }
}

/// With the output full, the count ends with the node that holds the next entry due.
fn count_to(mut room: usize, nodes: &[usize]) -> u64 {
    let mut opened = 0;
    for &n in nodes {
        opened += 1;
        if room < n {
            break;
        }
        room -= n;
    }
    opened
}

pub fn scan(q: &Request, room: usize, root: &Node) -> Scanned {
    let mut opened = vec![];
    openings(q, root, &mut opened);
    Scanned { listed: listing(room, due_in(q, &root.entries())), opened: count_to(room, &opened) }
}
