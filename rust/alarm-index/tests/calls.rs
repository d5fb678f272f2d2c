//! Every call through the archive that is linked: what it answers, and that a refusal leaves the lent bytes as they were.
use alarm_index::{
    pool_len, raw, write_interior, write_leaf, Action, Branch, Counts, Direction, Entry, Expectation, Frame, Limits, Listing, Operation,
    Pool, Reference, Refusal, Settings, Sift, Totals, Tree, View, ENTRY_LEN, FRAME_ENTRIES, LAYOUT, LINE_LEN,
};
use std::ops::Bound::{self, Excluded, Included, Unbounded};

use alarm_index::Tree::{First, Second};

const LIMITS: Limits = Limits { order: 4, minimum: 2 };
const DESK: Settings = Settings { nodes: 16, first: LIMITS, second: LIMITS };
const LEN: usize = pool_len(16, 4, 4);
const TREES: [Tree; 2] = [First, Second];

fn entry(key: u64) -> Entry {
    Entry { key, place: 256 + key, size: 16 }
}

/// The desk's pool with the keys 1 to 5 in its first tree, key k at place 256 + k and of size 16: leaves 1, 2, 3 and 4, 5. In its second tree is
/// key 9, of size 7.
fn p() -> [u8; LEN] {
    let mut bytes = [170; LEN];
    let mut pool = Pool::open(&mut bytes, DESK).expect("opened");
    pool.set_each(First, &[1, 2, 3, 4], &[257, 258, 259, 260], &[16; 4]).expect("done");
    pool.set_each(First, &[5], &[261], &[16]).expect("done");
    pool.set(Second, &[9], Reference { place: 265, size: 7 }).expect("done");
    bytes
}

fn counts(added: u64, replaced: u64, removed: u64, nothing: u64) -> Counts {
    Counts { added, replaced, removed, nothing }
}

/// Keys, whether another was due, and nodes opened.
fn seen(bytes: &[u8], range: impl std::ops::RangeBounds<u64>, direction: Direction, sift: Sift, room: usize) -> (Vec<u64>, bool, u64) {
    let mut out = vec![0; room * ENTRY_LEN];
    let s = View::new(bytes).scan(First, range, direction, sift, &mut out).expect("scanned");
    (s.entries.map(|e| e.key).collect(), s.more, s.opened)
}

#[test]
fn lengths() {
    for (nodes, first, second) in [(8, 4, 4), (16, 4, 5), (1000, 7, 4), (16_384, 32, 32)] {
        let limits = |order: usize| Limits { order: order as u64, minimum: 1 };
        let settings = Settings { nodes: nodes as u64, first: limits(first), second: limits(second) };
        assert_eq!(settings.pool_len(), Some(pool_len(nodes, first, second)));
    }
    let wrong = Limits { minimum: 3, ..LIMITS };
    assert_eq!(Settings { first: wrong, ..DESK }.pool_len(), None);
    assert_eq!(Settings { second: wrong, ..DESK }.pool_len(), None);
    assert_eq!((LEN, pool_len(16_384, 32, 32)), (3392, 25_428_032));
    assert_eq!(p()[..8], LAYOUT.to_le_bytes());
}

#[test]
fn opening_is_refused() {
    let mut bytes = [170; LEN];
    assert_eq!(Pool::open(&mut bytes[1..], DESK).err(), Some(Refusal::WrongSetting));
    let wrong = Limits { order: 3, ..LIMITS };
    assert_eq!(Pool::open(&mut bytes, Settings { first: wrong, ..DESK }).err(), Some(Refusal::WrongSetting));
    assert_eq!(Pool::open(&mut bytes, Settings { second: wrong, ..DESK }).err(), Some(Refusal::WrongSetting));
    assert_eq!(Pool::open(&mut [], DESK).err(), Some(Refusal::WrongSetting));
    assert_eq!(bytes, [170; LEN]);
}

#[test]
fn bytes_that_are_no_pool() {
    let mut bytes = [170; LEN];
    for tree in TREES {
        assert_eq!(View::new(&bytes).totals(tree), Err(Refusal::NotSound));
        assert_eq!(View::new(&[]).totals(tree), Err(Refusal::NotSound));
        assert_eq!(View::new(&bytes).get(tree, &[1], &mut []).err(), Some(Refusal::NotSound));
        assert_eq!(View::new(&bytes).scan(tree, .., Direction::Up, Sift::All, &mut []).err(), Some(Refusal::NotSound));
        assert_eq!(View::new(&bytes).portion(tree, Unbounded, Unbounded, Sift::All, &mut []).err(), Some(Refusal::NotSound));
        assert_eq!(View::new(&bytes).frame(tree, 0, &mut []), Err(Refusal::NotSound));
        assert_eq!(Pool::new(&mut bytes).remove(tree, &[1]), Err(Refusal::NotSound));
    }
    assert_eq!(bytes, [170; LEN]);

    // a pool of one tree, as it was up to version 2
    let mut before = p();
    before[0] = 1;
    assert_eq!(View::new(&before).totals(First), Err(Refusal::NotSound));
}

/// What is done to one tree leaves the other's entries and nodes as they were, but not the number of unused nodes.
#[test]
fn two_trees() {
    let mut bytes = p();
    let r = Reference { place: 300, size: 20 };
    assert_eq!(Pool::new(&mut bytes).set(Second, &[1, 2], r), Ok(counts(2, 0, 0, 0)));
    assert_eq!(View::new(&bytes).totals(First), Ok(Totals { live: 5, dead: 0, size: 80 }));
    assert_eq!(View::new(&bytes).totals(Second), Ok(Totals { live: 3, dead: 0, size: 47 }));
    assert_eq!((leaves(&bytes, First), leaves(&bytes, Second)), (vec![vec![1, 2, 3], vec![4, 5]], vec![vec![1, 2, 9]]));
    let mut out = [0; ENTRY_LEN];
    let got = View::new(&bytes).get(Second, &[2, 3], &mut out).expect("got");
    assert!(got.entries.eq([Entry { key: 2, place: 300, size: 20 }]));

    // of eight nodes six are unused, which one key asks for; a tree that is split takes two of them from the other
    let mut small = [0; pool_len(8, 4, 4)];
    let mut pool = Pool::open(&mut small, Settings { nodes: 8, ..DESK }).expect("opened");
    (1..=5).for_each(|k| assert_eq!(pool.set(Second, &[k], r), Ok(counts(1, 0, 0, 0))));
    assert_eq!(pool.set(First, &[1], r), Err(Refusal::TooFewNodes));
    assert_eq!(pool.remove(Second, &[4]), Ok(counts(0, 0, 1, 0)));
    assert_eq!(pool.set(First, &[1], r), Ok(counts(1, 0, 0, 0)));

    // each has its own order
    let mut wide = [0; pool_len(16, 4, 5)];
    let settings = Settings { second: Limits { order: 5, minimum: 3 }, ..DESK };
    let mut pool = Pool::open(&mut wide, settings).expect("opened");
    assert_eq!(pool.set(First, &[1, 2, 3, 4, 5], r), Err(Refusal::BatchTooLong));
    assert_eq!(pool.set(Second, &[1, 2, 3, 4, 5], r), Ok(counts(5, 0, 0, 0)));
}

#[test]
fn trees_by_number() {
    for (number, tree) in (0..).zip(TREES) {
        assert_eq!((tree.number(), u64::from(tree), Tree::from_number(number)), (number, number, Some(tree)));
    }
    assert_eq!((Tree::from_number(2), Tree::from_number(u64::MAX)), (None, None));
}

#[test]
fn batches() {
    let mut bytes = p();
    let mut pool = Pool::new(&mut bytes);
    let r = Reference { place: 300, size: 20 };
    assert_eq!(pool.set(First, &[5, 6, 6], r), Ok(counts(1, 2, 0, 0)));
    assert_eq!(pool.remove(First, &[6, 7]), Ok(counts(0, 0, 1, 1)));
    assert_eq!(pool.compare(First, &[4, 5], Expectation::Holds(r), Action::Set(entry(5).reference())), Ok(counts(0, 1, 0, 1)));
    assert_eq!(pool.compare(First, &[5, 6], Expectation::Absent, Action::Set(r)), Ok(counts(1, 0, 0, 1)));
    assert_eq!(pool.compare(First, &[6], Expectation::Holds(r), Action::Remove), Ok(counts(0, 0, 1, 0)));
    for none in [
        Operation::Set(r),
        Operation::SetEach { places: &[], sizes: &[] },
        Operation::Remove,
        Operation::Compare(Expectation::Absent, Action::Remove),
    ] {
        assert_eq!(pool.batch(First, &[], none), Ok(counts(0, 0, 0, 0)));
    }
    assert_eq!(bytes, p());
}

#[test]
fn batches_are_refused() {
    let mut bytes = p();
    let mut pool = Pool::new(&mut bytes);
    let r = Reference::default();
    assert_eq!(pool.set(First, &[1, 2, 3, 4, 5], r), Err(Refusal::BatchTooLong));
    assert_eq!(pool.set_each(First, &[1, 2], &[1], &[1, 2]), Err(Refusal::ReferencesDiffer));
    assert_eq!(pool.set_each(First, &[1, 2], &[1, 2], &[1]), Err(Refusal::ReferencesDiffer));
    assert_eq!(pool.remove(First, &[2, 1]), Err(Refusal::KeysDescend));
    assert_eq!(bytes, p());

    let mut small = [0; pool_len(8, 4, 4)];
    let mut pool = Pool::open(&mut small, Settings { nodes: 8, ..DESK }).expect("opened");
    assert_eq!(pool.set(First, &[1, 2], r), Err(Refusal::TooFewNodes));
    assert_eq!(pool.set(First, &[1], r), Ok(counts(1, 0, 0, 0)));
}

#[test]
fn packs() {
    let source = p();
    let mut bytes = [170; LEN];
    let mut target = Pool::open(&mut bytes, DESK).expect("opened");
    assert_eq!(View::new(&source).pack_into(&mut target), Ok(()));
    assert_eq!(View::new(&source).pack_into(&mut target), Err(Refusal::TargetNotNew));
    assert_eq!((leaves(&bytes, First), leaves(&bytes, Second)), (vec![vec![1, 2, 3, 4], vec![5]], vec![vec![9]]));
    assert_eq!(source, p());

    let packed = bytes;
    let mut again = Pool::open(&mut bytes, DESK).expect("opened");
    assert_eq!(View::new(&packed).pack_into(&mut again), Ok(()));
    assert_eq!(bytes, packed);

    // 5 set again leaves its leaf below the minimum, and the two are evened out
    assert_eq!(Pool::new(&mut bytes).set(First, &[5], entry(5).reference()), Ok(counts(0, 1, 0, 0)));
    assert_eq!(leaves(&bytes, First), [vec![1, 2, 3], vec![4, 5]]);

    // a pool is new when both its trees are emptied
    Pool::new(&mut bytes).remove(First, &[1, 2, 3]).expect("done");
    Pool::new(&mut bytes).remove(First, &[4, 5]).expect("done");
    assert_eq!(View::new(&source).pack_into(&mut Pool::new(&mut bytes)), Err(Refusal::TargetNotNew));
    Pool::new(&mut bytes).remove(Second, &[9]).expect("done");
    assert_eq!(View::new(&source).pack_into(&mut Pool::new(&mut bytes)), Ok(()));
    assert_eq!(bytes, packed);
}

/// The keys of each leaf.
fn leaves(bytes: &[u8], tree: Tree) -> Vec<Vec<u64>> {
    let mut line = [0; LINE_LEN];
    let frames = (0..).map_while(|i| View::new(bytes).frame(tree, i, &mut line).ok().map(|l| Frame::read(l).expect("read")));
    frames.filter_map(|f| if let Frame::Leaf(rows) = f { Some(rows.iter().map(|e| e.key).collect()) } else { None }).collect()
}

#[test]
fn packing_is_refused() {
    let mut source = [0; pool_len(32, 4, 4)];
    let mut pool = Pool::open(&mut source, Settings { nodes: 32, ..DESK }).expect("opened");
    (1..=21).for_each(|k| assert_eq!(pool.set(First, &[k], entry(k).reference()), Ok(counts(1, 0, 0, 0))));
    let mut bytes = [0; pool_len(10, 5, 5)];
    let mut refused = |settings: Settings, holds: bool| {
        let bytes = &mut bytes[..settings.pool_len().expect("in limits")];
        let mut target = Pool::open(bytes, settings).expect("opened");
        if holds {
            target.set(Second, &[7], Reference::default()).expect("done");
        }
        let before = bytes.to_vec();
        let refusal = View::new(&source).pack_into(&mut Pool::new(bytes)).err();
        assert_eq!(refusal.is_some(), bytes == before);
        refusal
    };
    let small = Settings { nodes: 9, ..DESK };
    for other in [Limits { order: 5, ..LIMITS }, Limits { minimum: 1, ..LIMITS }] {
        assert_eq!(refused(Settings { first: other, ..small }, true), Some(Refusal::SettingsDiffer));
        assert_eq!(refused(Settings { second: other, ..small }, true), Some(Refusal::SettingsDiffer));
    }
    assert_eq!(refused(small, true), Some(Refusal::TargetNotNew));
    assert_eq!(refused(small, false), Some(Refusal::TooFewNodes));
    assert_eq!(refused(Settings { nodes: 10, ..DESK }, false), None);

    let not_new = &mut p();
    assert_eq!(View::new(&[]).pack_into(&mut Pool::new(not_new)), Err(Refusal::NotSound));
    assert_eq!(View::new(&source).pack_into(&mut Pool::new(&mut not_new[1..])), Err(Refusal::NotSound));
    assert_eq!(*not_new, p());
}

#[test]
fn totals_and_dead_entries() {
    let mut bytes = p();
    assert_eq!(View::new(&bytes).totals(First), Ok(Totals { live: 5, dead: 0, size: 80 }));
    Pool::new(&mut bytes).set(First, &[2], Reference { place: 0, size: 5 }).expect("done");
    assert_eq!(View::new(&bytes).totals(First), Ok(Totals { live: 4, dead: 1, size: 64 }));
    let mut out = [0; ENTRY_LEN];
    let got = View::new(&bytes).get(First, &[2], &mut out).expect("got");
    assert_eq!(got.entries.map(|e| (e, e.is_live())).collect::<Vec<_>>(), [(Entry { key: 2, place: 0, size: 5 }, false)]);
    assert_eq!(seen(&bytes, .., Direction::Up, Sift::All, 9).0, [1, 3, 4, 5]);
}

#[test]
fn gets() {
    let bytes = p();
    let mut out = [7; 3 * ENTRY_LEN];
    let got = View::new(&bytes).get(First, &[2, 2, 9], &mut out).expect("got");
    assert_eq!((got.entries.len(), got.more), (2, false));
    assert!(got.entries.eq([entry(2), entry(2)]));
    assert_eq!(out[2 * ENTRY_LEN..], [7; ENTRY_LEN]);
    assert_eq!(View::new(&bytes).get(First, &[2, 1], &mut out).err(), Some(Refusal::KeysDescend));
    let full = View::new(&bytes).get(First, &[1, 2], &mut out[..2 * ENTRY_LEN - 1]).expect("got");
    assert!(full.more && full.entries.eq([entry(1)]));
}

#[test]
fn scans() {
    let p = p();
    let (up, down) = (Direction::Up, Direction::Down);
    assert_eq!(seen(&p, (Excluded(3), Included(5)), up, Sift::All, 9), (vec![4, 5], false, 2));
    assert_eq!(seen(&p, (Excluded(3), Included(5)), down, Sift::All, 9), (vec![5, 4], false, 2));
    assert_eq!(seen(&p, 1..=2, up, Sift::All, 9), (vec![1, 2], false, 2));
    assert_eq!(seen(&p, 1..3, down, Sift::All, 9), (vec![2, 1], false, 3));
    assert_eq!(seen(&p, 4.., up, Sift::All, 9).0, [4, 5]);
    assert_eq!(seen(&p, (Unbounded, Excluded(1)), up, Sift::All, 9).0, []);
    assert_eq!(seen(&p, (Included(5), Included(1)), up, Sift::All, 9), (vec![], false, 1));
    assert_eq!(seen(&p, .., up, Sift::SizeAtLeast(17), 9).0, []);
    assert_eq!(seen(&p, .., up, Sift::SizeAtLeast(16), 9).0, [1, 2, 3, 4, 5]);
    assert_eq!(seen(&p, .., up, Sift::All, 0), (vec![], true, 2));
}

/// Keys, whether another was due, nodes opened, where the next portion starts, and whether the listing has ended.
type Told = (Vec<u64>, bool, u64, Bound<u64>, bool);

fn portion(bytes: &[u8], start: Bound<u64>, end: Bound<u64>, sift: Sift, room: usize) -> Told {
    let mut out = vec![0; room * ENTRY_LEN];
    let p = View::new(bytes).portion(First, start, end, sift, &mut out).expect("sound");
    (p.entries.map(|e| e.key).collect(), p.more, p.opened, p.next, p.ended)
}

#[test]
fn portions() {
    let p = p();
    let of = |start, room| portion(&p, start, Unbounded, Sift::All, room);
    assert_eq!(of(Unbounded, 2), (vec![1, 2], true, 2, Excluded(2), false));
    assert_eq!(of(Excluded(2), 2), (vec![3, 4], true, 3, Excluded(4), false));
    assert_eq!(of(Excluded(4), 2), (vec![5], false, 2, Excluded(5), true));
    assert_eq!(of(Excluded(5), 2), (vec![], false, 1, Excluded(5), true));
    // a full one ends it too
    assert_eq!(of(Unbounded, 5), (vec![1, 2, 3, 4, 5], false, 3, Excluded(5), true));
    // without room it never ends
    assert_eq!(of(Unbounded, 0), (vec![], true, 2, Unbounded, false));
    assert_eq!(of(Included(4), 0), (vec![], true, 2, Included(4), false));
    assert_eq!(of(Excluded(5), 0), (vec![], false, 1, Excluded(5), false));

    assert_eq!(portion(&p, Included(2), Excluded(4), Sift::All, 9), (vec![2, 3], false, 3, Excluded(3), true));
    assert_eq!(portion(&p, Included(2), Included(4), Sift::All, 2), (vec![2, 3], true, 3, Excluded(3), false));
    assert_eq!(portion(&p, Included(5), Included(1), Sift::All, 9), (vec![], false, 1, Included(5), true));
    assert_eq!(portion(&p, Unbounded, Unbounded, Sift::SizeAtLeast(17), 9), (vec![], false, 3, Unbounded, true));

    let mut out = [7; ENTRY_LEN + 1];
    let pens = View::new(&p).portion(Second, Unbounded, Unbounded, Sift::All, &mut out).expect("sound");
    assert!(pens.entries.eq([Entry { key: 9, place: 265, size: 7 }]));
    assert_eq!(out[ENTRY_LEN], 7);
}

/// No key is greater, and still it is shown once.
#[test]
fn the_greatest_key_in_a_portion() {
    let mut bytes = p();
    Pool::new(&mut bytes).set(First, &[u64::MAX], Reference { place: 300, size: 20 }).expect("done");
    let of = |start| portion(&bytes, start, Unbounded, Sift::All, 1);
    assert_eq!(of(Excluded(4)), (vec![5], true, 2, Excluded(5), false));
    assert_eq!(of(Excluded(5)), (vec![u64::MAX], false, 2, Excluded(u64::MAX), true));
    assert_eq!(of(Excluded(u64::MAX)), (vec![], false, 1, Excluded(u64::MAX), true));
}

/// The keys of the next portion; none after the end.
fn keys_of(listing: &mut Listing, bytes: &[u8], room: usize) -> Option<Vec<u64>> {
    let mut out = vec![0; room * ENTRY_LEN];
    let portion = listing.next(View::new(bytes), &mut out).expect("sound");
    portion.map(|p| p.entries.map(|e| e.key).collect())
}

#[test]
fn a_listing() {
    let p = p();
    let mut listing = Listing::new(First, 2.., Sift::All);
    assert_eq!(keys_of(&mut listing, &p, 1), Some(vec![2]));
    assert_eq!(keys_of(&mut listing, &p, 0), Some(vec![]));
    assert_eq!(listing.next(View::new(&p[1..]), &mut []).err(), Some(Refusal::NotSound));
    assert_eq!(keys_of(&mut listing.clone(), &p, 9), Some(vec![3, 4, 5]));
    assert_eq!(keys_of(&mut listing, &p, 3), Some(vec![3, 4, 5]));
    assert_eq!((keys_of(&mut listing, &p, 3), keys_of(&mut listing, &p, 0)), (None, None));

    let mut nothing = Listing::new(First, 6.., Sift::All);
    assert_eq!((keys_of(&mut nothing, &p, 1), keys_of(&mut nothing, &p, 1)), (Some(vec![]), None));
}

#[test]
fn a_listing_with_batches_between() {
    let mut bytes = p();
    let r = Reference { place: 300, size: 20 };
    let mut listing = Listing::new(First, .., Sift::All);
    assert_eq!(keys_of(&mut listing, &bytes, 2), Some(vec![1, 2]));

    // the last that was shown goes, and with it one that was due: the two leaves become one; 0 comes in too late, and 6 in time
    let mut pool = Pool::new(&mut bytes);
    assert_eq!(pool.remove(First, &[2, 4]), Ok(counts(0, 0, 2, 0)));
    assert_eq!(pool.set(First, &[0, 6], r), Ok(counts(2, 0, 0, 0)));
    assert_eq!(keys_of(&mut listing, &bytes, 2), Some(vec![3, 5]));

    // the other tree has no part in it
    let mut pool = Pool::new(&mut bytes);
    assert_eq!(pool.set(Second, &[4, 7], r), Ok(counts(2, 0, 0, 0)));
    assert_eq!(pool.remove(Second, &[9]), Ok(counts(0, 0, 1, 0)));
    let next = portion(&bytes, Excluded(5), Unbounded, Sift::All, 2);
    assert_eq!(next, (vec![6], false, 2, Excluded(6), true));
    assert_eq!((keys_of(&mut listing, &bytes, 2), keys_of(&mut listing, &bytes, 2)), (Some(vec![6]), None));

    // after the end there is a portion from there
    Pool::new(&mut bytes).set(First, &[7], r).expect("done");
    assert_eq!(portion(&bytes, Excluded(6), Unbounded, Sift::All, 2), (vec![7], false, 2, Excluded(7), true));
}

#[test]
fn a_list_of_entries() {
    let bytes = p();
    let list = |start, end, len| -> Result<Vec<Entry>, Refusal> {
        View::new(&bytes).list(First, (start, end), Sift::All, &mut vec![0; len]).collect()
    };
    // no room for an entry, for one, for two, for all, and for more
    for len in [0, ENTRY_LEN - 1, ENTRY_LEN, 2 * ENTRY_LEN + 1, 5 * ENTRY_LEN, 9 * ENTRY_LEN] {
        assert_eq!(list(Unbounded, Unbounded, len), Ok((1..=5).map(entry).collect()));
        assert_eq!(list(Excluded(2), Excluded(5), len), Ok(vec![entry(3), entry(4)]));
        assert_eq!(list(Included(6), Unbounded, len), Ok(vec![]));
    }
    let mut out = [7; ENTRY_LEN];
    let mut refused = View::new(&bytes[1..]).list(First, .., Sift::All, &mut out);
    assert_eq!((refused.next(), refused.next()), (Some(Err(Refusal::NotSound)), None));
    assert_eq!(out, [7; ENTRY_LEN]);
    let mut large = View::new(&bytes).list(Second, .., Sift::SizeAtLeast(7), &mut out);
    assert_eq!((large.next(), large.next(), large.next()), (Some(Ok(Entry { key: 9, place: 265, size: 7 })), None, None));
    assert_eq!(View::new(&bytes).list(Second, .., Sift::SizeAtLeast(8), &mut out).next(), None);
}

#[test]
fn entries_from_both_ends() {
    let bytes = p();
    let mut out = [0; 9 * ENTRY_LEN];
    let mut entries = View::new(&bytes).scan(First, .., Direction::Up, Sift::All, &mut out).expect("scanned").entries;
    assert_eq!((entries.next(), entries.next_back(), entries.len()), (Some(entry(1)), Some(entry(5)), 3));
    assert_eq!((entries.nth(1), entries.next(), entries.next(), entries.next_back()), (Some(entry(3)), Some(entry(4)), None, None));
}

#[test]
fn frames() {
    let bytes = p();
    let mut line = [b'~'; LINE_LEN];
    let leaf = "0100000000000000040000000000000104000000100000000000000005000000000000010500000010";
    assert_eq!(View::new(&bytes).frame(First, 2, &mut line), Ok(leaf.as_bytes()));
    assert_eq!(line[leaf.len()..], [b'~'; LINE_LEN][leaf.len()..]);
    assert_eq!(View::new(&bytes).frame(First, 3, &mut line), Err(Refusal::NoNode));
    assert_eq!(View::new(&bytes).frame(First, 2, &mut line[..81]), Err(Refusal::LineTooShort));
    let Ok(Frame::Leaf(rows)) = Frame::read(leaf.as_bytes()) else { panic!("a leaf") };
    assert_eq!(*rows, [entry(4), entry(5)]);

    let root = View::new(&bytes).frame(First, 0, &mut line).expect("written").to_vec();
    let frame = Frame::read(&root).expect("read");
    let Frame::Interior(rows) = frame else { panic!("an interior") };
    let branch = |key, child, live| Branch { key, child, live, dead: 0, size: 16 * u64::from(live) };
    assert_eq!(*rows, [branch(3, 1, 3), branch(5, 2, 2)]);
    assert_eq!(frame.write(&mut line), Ok(&root[..]));
}

#[test]
fn frames_are_refused() {
    let read = |line: &str| Frame::read(line.as_bytes()).map(|_| ()).unwrap_err();
    let leaf = "0100000000000000040000000000000104000000100000000000000005000000000000010500000010";
    assert_eq!(read(""), Refusal::LineEmpty);
    assert_eq!((read("011"), read("0G")), (Refusal::LineNotHex, Refusal::LineNotHex));
    assert_eq!(read(&format!("{leaf}00000000")), Refusal::LineNotWhole);
    assert_eq!(read(&format!("{leaf}{}", &leaf[2..])), Refusal::KeysNotAscending);
    assert_eq!(read("02"), Refusal::UnknownHeader);
    let mut line = [b'~'; LINE_LEN];
    let entries: Vec<Entry> = (0..33).map(entry).collect();
    assert_eq!(write_leaf(&entries, &mut line), Err(Refusal::TooManyEntries));
    assert_eq!(write_leaf(&[entry(2), entry(2)], &mut line), Err(Refusal::KeysNotAscending));
    assert_eq!(write_interior(&[Branch::default()], &mut line[..57]), Err(Refusal::LineTooShort));
    assert_eq!(line, [b'~'; LINE_LEN]);
    let longest: Vec<Branch> = (0..FRAME_ENTRIES as u64).map(|key| Branch { key, ..Branch::default() }).collect();
    assert_eq!(write_interior(&longest, &mut line).map(<[u8]>::len), Ok(LINE_LEN));
    assert_eq!(read(&format!("01{}", "0".repeat(40 * 33))), Refusal::TooManyEntries);
}

#[test]
fn numbers() {
    assert_eq!(Refusal::from_number(0), None);
    for n in 1..=21 {
        let refusal = Refusal::from_number(n).expect("a refusal");
        assert_eq!((refusal.number(), u32::from(refusal)), (n, n));
        assert_eq!(matches!(refusal, Refusal::Other(_)), n > 19);
        assert!(refusal.to_string().starts_with(&format!("refused as {n}: ")));
    }
    let error: &dyn std::error::Error = &Refusal::TooDeep;
    assert_eq!(error.to_string(), "refused as 6: the tree has depth 8, and the batch is no Remove");
}

/// What the typed calls are built on leaves its small buffers as they were where it is refused.
#[test]
fn the_raw_calls() {
    let bytes = p();
    let (mut totals, mut told, mut len) = ([7; 3], [7; 2], 7);
    assert_eq!((raw::totals(&bytes[1..], 2, &mut totals), totals), (2, [7; 3]));
    for tree in [2, 3, 1 << 32, u64::MAX] {
        assert_eq!((raw::totals(&bytes, tree, &mut totals), totals), (19, [7; 3]));
        assert_eq!((raw::get(&bytes, tree, &[2, 1], &mut [], &mut told), told), (19, [7; 2]));
    }
    assert_eq!((raw::get(&bytes, 0, &[2, 1], &mut [], &mut told), told), (5, [7; 2]));
    assert_eq!((raw::frame(&bytes, 0, 3, &mut [], &mut len), len), (14, 7));
    assert_eq!((raw::totals(&bytes, 0, &mut totals), totals), (0, [5, 0, 80]));
    assert_eq!((raw::totals(&bytes, 1, &mut totals), totals), (0, [1, 0, 7]));
    assert_eq!(raw::pack(&bytes, &mut p()), 18);
}

/// A refused portion leaves what it was lent, and one that shows nothing its start, to the flags.
#[test]
fn the_raw_portion() {
    let bytes = p();
    // the answer, the start afterwards, what was told, and whether the output is as it was
    let portion = |bytes: &[u8], tree, mut from, end, len| {
        let (mut out, mut told) = ([7; ENTRY_LEN], [7; 4]);
        let number = raw::portion(bytes, tree, &mut from, end, 0, &mut out[..len], &mut told);
        (number, from, told, out == [7; ENTRY_LEN])
    };
    for tree in [2, 3, 1 << 32, u64::MAX] {
        assert_eq!(portion(&bytes, tree, [7, 7, 3], Unbounded, 24), (19, [7, 7, 3], [7; 4], true));
        assert_eq!(portion(&bytes[1..], tree, [7, 7, 3], Unbounded, 24), (2, [7, 7, 3], [7; 4], true));
    }
    assert_eq!(portion(&bytes, 0, [7, 7, 3], Unbounded, 0), (0, [7, 7, 3], [0, 1, 2, 0], true));
    assert_eq!(portion(&bytes, 0, [0, 7, 9], Unbounded, 0), (0, [0, 7, 9], [0, 1, 2, 0], true));
    assert_eq!(portion(&bytes, 0, [7, 7, 9], Unbounded, 23), (0, [7, 7, 9], [0, 0, 1, 0], true));
    assert_eq!(portion(&bytes, 0, [7, 7, 9], Unbounded, 24), (0, [7, 7, 9], [0, 0, 1, 1], true));
    assert_eq!(portion(&bytes, 0, [7, 0, 3], Excluded(4), 24), (0, [7, 0, 3], [0, 0, 2, 1], true));

    assert_eq!(portion(&bytes, 0, [7, 7, 3], Unbounded, 24), (0, [1, 0, 3], [1, 1, 3, 0], false));
    assert_eq!(portion(&bytes, 0, [7, 0, 3], Included(4), 24), (0, [1, 0, 4], [1, 0, 2, 1], false));
    assert_eq!(portion(&bytes, 0, [0, 7, 9], Unbounded, 24), (0, [1, 0, 1], [1, 1, 2, 0], false));
}
