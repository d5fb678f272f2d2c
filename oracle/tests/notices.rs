//! The comparison notices a library that is wrong in one thing.
use oracle::before::old_sums;
use oracle::library::{words, Comparison, Library, RawFrame};
use oracle::packed::{entries, is_packed};
use oracle::parts::Work;
use oracle::script::{Cursor, Step};
use oracle::shrink::shrink;
use oracle::stand_in::StandIn;
use oracle::watch::{Shown, Watch};
use oracle::{eight, trees};
use plain::forest::Forest;
use plain::list::plain_batch;
use plain::pack::{self, is_new, needed, packed, seat};
use plain::pool::{image, length, put, settings, slot_at, word, HEADER};
use plain::refuse::{batch_refusal, descend, refusal};
use plain::sound::{forest_of, read};
use plain::tree::{Items, Node};
use plain::{Bound, Call, Counts, Entry, Limits, PoolSettings, Request};
use std::time::{Duration, Instant};

/// Each fault is named once, so each is tried; those of listing, of packing and of soundness show in the part of portions, of packing, or of damage.
macro_rules! faults {
    ($($other:ident)*, of listing: $($of_listing:ident)*, of packing: $($of_packing:ident)*, of soundness: $($of_soundness:ident)*) => {
        #[derive(Clone, Copy, Debug, PartialEq)]
        enum Fault {
            None,
            $($other,)*
            $($of_listing,)*
            $($of_packing,)*
            $($of_soundness,)*
        }
        use Fault::*;
        const OTHERS: &[Fault] = &[$($other),*];
        const OF_LISTING: &[Fault] = &[$($of_listing),*];
        const OF_PACKING: &[Fault] = &[$($of_packing),*];
        const OF_SOUNDNESS: &[Fault] = &[$($of_soundness),*];
    };
}

faults! {
    RefusesAll
    StoresNothing
    CountsReplacedAsAdded
    TellsCountsWhenRefused
    ChangesPoolWhenRefused
    TakesHighestSlot
    LeavesAFreedWord
    ForgetsSix
    TouchesBehindEntries
    MoreWhenJustFull
    OpensOneTooMany
    ListsTheDead
    HidesTheDeadFromGet
    TestsFiveFirst
    LeavesOldEntriesInAFrame
    TouchesBehindALine
    ReadsCapitals
    WritesDisorder
    OpensWithAnyMinimum
    CountsDeadSizes
    OpensByAllSizes
    IgnoresTheTree
    TestsNineteenAfterThree
    TestsNineteenFirst
    TakesAnyTreeForASecond
    CountsUnusedForEachTree
    CountsWithTheOtherDepth
    TakesTheFirstOrderForBoth
    GivesEachTreeItsHalf
    ScansTheOtherTree
    GetsFromTheOtherTree
    FramesTheOtherTree
    TouchesTheOtherTree
    PortionTestsNineteenFirst
    WritesTheStartWhenRefused
    TellsAPortionWhenRefused,
    of listing:
    EndsWithRoomLeftAlone
    EndsWithoutRoom
    EndsWhereMoreIsDue
    StartsAtTheLastKey
    StartsBehindTheFirstKey
    StartsWhereItDid
    StartsAtTheNextNumber
    StartsBehindTheNextNumber
    WritesAStartThatStays
    OpensForTheWholeScan
    ShowsTheOtherTree,
    of packing:
    LeavesOfOrderLessOne
    ShortLeafFirst
    NumbersLevelByLevel
    PacksTheLiveAlone
    ComparesOrdersAlone
    AsksIfNewFirst
    AsksForRoomFirst
    AsksForANodeMore
    DeadEntriesAreNew
    TestsTheSourceAlone
    WritesTheTargetWhenRefused
    PacksTheSecondTreeFirst
    PacksTheFirstTreeAlone
    ComparesTheFirstTreeAlone
    AsksIfTheFirstIsNew
    CountsTheFirstTreeAlone,
    of soundness:
    TakesAWordBehindTheRows
    TakesOldSums
    TakesAPoolOfOneTree
    TakesAnyZeroWord
    TakesEitherKind
    CountsNodesAlone
}

struct Wrong(Fault);

impl Wrong {
    fn is(&self, f: Fault) -> bool {
        self.0 == f
    }

    /// The tree that a call is taken to name, with this fault.
    fn tree(&self, tree: u64) -> u64 {
        match self.0 {
            IgnoresTheTree => 0,
            TakesAnyTreeForASecond => tree.min(1),
            _ => tree,
        }
    }

    /// The number of a batch on a sound pool, with this fault.
    fn batch_refusal(&self, ps: &PoolSettings, tree: u64, c: &Call, f: &Forest) -> u32 {
        let mut taken = *ps;
        match self.0 {
            TestsNineteenAfterThree if c.keys.len() > ps.larger_order() => 3,
            TestsFiveFirst if descend(&c.keys) && c.keys.len() < 4 => 5,
            TakesTheFirstOrderForBoth => {
                taken.trees[1] = ps.trees[0];
                batch_refusal(&taken, tree, c, f)
            }
            // as if all that the other tree does not use were its own
            CountsUnusedForEachTree if tree < 2 => {
                let root = &f.roots[tree as usize];
                refusal(&ps.of(tree as usize), c, root.depth(), ps.nodes - root.nodes())
            }
            CountsWithTheOtherDepth if matches!(batch_refusal(ps, tree, c, f), 0 | 7) => {
                refusal(&ps.of(tree as usize), c, f.roots[1 - tree as usize].depth(), f.unused.len())
            }
            _ => batch_refusal(ps, tree, c, f),
        }
    }

    /// A batch, with this fault.
    fn done(&self, pool: &mut [u8], tree: u64, c: &Call, counts: &mut [u64; 4]) -> u32 {
        let before = pool.to_vec();
        if self.is(RefusesAll) {
            return 7;
        }
        if self.is(TestsNineteenFirst) && tree > 1 {
            return 19;
        }
        let tree = self.tree(tree);
        let Some((ps, mut f)) = forest_of(pool) else { return 2 };
        let number = self.batch_refusal(&ps, tree, c, &f);
        if number == 0 {
            *counts = self.changed(&ps, tree as usize, c, &mut f).numbers();
            pool.copy_from_slice(&image(&ps, &f));
        }
        match (self.0, number) {
            (StoresNothing, 0) => pool.copy_from_slice(&before),
            (CountsReplacedAsAdded, 0) => *counts = [counts[0] + counts[1], 0, counts[2], counts[3]],
            (TellsCountsWhenRefused, 5) => *counts = [0; 4],
            (ChangesPoolWhenRefused, 7) => pool[0] ^= 1,
            (LeavesAFreedWord, 0) if counts[2] > 0 => {
                let freed = (HEADER..pool.len() / 8).rev().find(|&i| word(pool, i) == 0 && word(&before, i) != 0);
                if let Some(i) = freed {
                    put(pool, i, word(&before, i));
                }
            }
            (ForgetsSix, 6) => return 7,
            _ => {}
        }
        number
    }

    /// What a batch that is done does, with this fault.
    fn changed(&self, ps: &PoolSettings, tree: usize, c: &Call, f: &mut Forest) -> Counts {
        let mut x = f.take(tree);
        match self.0 {
            TakesHighestSlot => x.unused.reverse(),
            // slots go out by halves: the lower one to tree 0, the upper one to tree 1
            GivesEachTreeItsHalf => x.unused.sort_by_key(|&slot| (slot < ps.nodes / 2) == (tree == 1)),
            _ => {}
        }
        let (x, counts) = plain::change::batch(&ps.of(tree), c, x);
        f.replant(tree, x);
        f.unused.sort_unstable();
        if let (TouchesTheOtherTree, Items::Entries(es)) = (self.0, &mut f.roots[1 - tree].items) {
            es.iter_mut().for_each(|e| e.place = e.place.max(1));
        }
        counts
    }

    /// What a portion that is done leaves in the small buffers, with this fault.
    fn shown(&self, pool: &[u8], tree: u64, c: &Cursor, from: &mut [u64; 3], out: &[u8], told: &mut [u64; 4]) {
        let written = told[0] as usize;
        match self.0 {
            EndsWithRoomLeftAlone => told[3] = (written < out.len() / 24).into(),
            EndsWithoutRoom => told[3] = 1 - told[1],
            EndsWhereMoreIsDue => told[3] = told[1],
            OpensForTheWholeScan => {
                let (_, f) = forest_of(pool).expect("sound");
                told[2] = plain::look::scan(&c.request(), usize::MAX, &f.roots[tree as usize]).opened;
            }
            WritesAStartThatStays if written == 0 => *from = words(c.request().start),
            StartsAtTheLastKey if written > 0 => from[1] = 1,
            StartsBehindTheFirstKey if written > 0 => from[2] = word(out, 0),
            StartsWhereItDid => *from = c.from,
            StartsAtTheNextNumber if written > 0 => *from = [1, 1, from[2].wrapping_add(1)],
            StartsBehindTheNextNumber if written > 0 => from[2] = from[2].wrapping_add(1),
            _ => {}
        }
    }

    /// The refusal of a packing, with this fault.
    fn pack_refusal(&self, ps: &PoolSettings, pu: &PoolSettings, x: &Forest, y: &Forest) -> u32 {
        let right = pack::refusal(ps, pu, x, y);
        let nodes = needed(pu, x);
        let orders = |ps: &PoolSettings| ps.trees.map(|l| l.order);
        match self.0 {
            ComparesOrdersAlone if orders(ps) == orders(pu) => pack::refusal(pu, pu, x, y),
            ComparesTheFirstTreeAlone if ps.trees[0] == pu.trees[0] => pack::refusal(pu, pu, x, y),
            AsksIfNewFirst if !is_new(y) => 18,
            AsksIfTheFirstIsNew if right == 18 && y.roots[0].is_empty() => 0,
            AsksForRoomFirst if pu.nodes < nodes && right == 18 => 7,
            AsksForANodeMore if pu.nodes == nodes && right == 0 => 7,
            CountsTheFirstTreeAlone if right == 7 && pu.nodes > packed(pu.trees[0].order, &x.roots[0].entries()).nodes() => 0,
            DeadEntriesAreNew if y.roots.iter().all(|root| root.totals().live == 0) => pack::refusal(ps, pu, x, &Forest::new(pu.nodes)),
            _ => right,
        }
    }

    /// One packed tree, its slots not given out yet, with this fault.
    fn packed_tree(&self, tree: usize, order: usize, es: Vec<Entry>) -> Node {
        match self.0 {
            LeavesOfOrderLessOne => packed(order - 1, &es),
            ShortLeafFirst if !es.is_empty() => {
                let (short, full) = es.split_at((es.len() - 1) % order + 1);
                let mut level: Vec<Node> = std::iter::once(short).chain(full.chunks(order)).map(|part| Node::leaf(0, part.to_vec())).collect();
                while level.len() > 1 {
                    level = level.chunks(order).map(|part| Node::interior(0, part.to_vec())).collect();
                }
                level.remove(0)
            }
            PacksTheLiveAlone => packed(order, &es.into_iter().filter(|e| e.place != 0).collect::<Vec<_>>()),
            PacksTheFirstTreeAlone if tree == 1 => trees::empty(),
            _ => packed(order, &es),
        }
    }

    /// What is packed, with this fault.
    fn packed(&self, pu: &PoolSettings, x: &Forest) -> Forest {
        let mut roots = [0, 1].map(|tree| self.packed_tree(tree, pu.trees[tree].order, x.roots[tree].entries()));
        let mut next = 2;
        let order = if self.is(PacksTheSecondTreeFirst) { [1, 0] } else { [0, 1] };
        for tree in order {
            if self.is(NumbersLevelByLevel) {
                number_by_level(&mut roots[tree], tree, &mut next);
            } else {
                seat(&mut roots[tree], tree, &mut next);
            }
        }
        Forest { roots, unused: (next..pu.nodes).collect() }
    }

    /// The pool that a call is taken to be lent, with this fault: one that is sound, where it takes this one for sound.
    fn taken(&self, pool: &[u8]) -> Vec<u8> {
        let mut mended = pool.to_vec();
        match self.0 {
            TakesAWordBehindTheRows if pool.len() >= 8 => put(&mut mended, pool.len() / 8 - 1, 0),
            TakesAnyZeroWord if pool.len() >= 64 => [4, 7].into_iter().for_each(|at| put(&mut mended, at, 0)),
            TakesOldSums => {
                let with_old_sums = |ps: &PoolSettings, f: &Forest| {
                    let mut old = image(ps, f);
                    for step in old_sums(ps, f) {
                        if let Step::Put { word, value } = step {
                            put(&mut old, word, value);
                        }
                    }
                    old
                };
                if let Some((ps, f)) = read(pool).filter(|(ps, f)| with_old_sums(ps, f) == pool) {
                    mended = image(&ps, &f);
                }
            }
            TakesAPoolOfOneTree => mended = of_one_tree(pool).unwrap_or(mended),
            TakesEitherKind => mended = with_kinds(pool).unwrap_or(mended),
            CountsNodesAlone => mended = with_even_numbers(pool).unwrap_or(mended),
            _ => {}
        }
        mended
    }
}

/// A pool of layout 1 as one of two trees, the second an empty leaf. Where the first slot behind the root is in use it is left alone.
fn of_one_tree(pool: &[u8]) -> Option<Vec<u8>> {
    let words: Vec<u64> = pool.chunks_exact(8).map(|w| u64::from_le_bytes(w.try_into().expect("eight"))).collect();
    let &[1, nodes, order, minimum, ..] = &words[..] else { return Option::None };
    let width = 2 + 6 * usize::try_from(order).ok()?;
    if words.len() != 4 + usize::try_from(nodes).ok()? * width || words.get(4 + width) != Some(&0) {
        return Option::None;
    }
    let mut mended = vec![2, nodes, order, minimum, 0, order, minimum, 0];
    mended.extend(&words[4..]);
    mended[8 + width] = 3;
    Some(mended.into_iter().flat_map(u64::to_le_bytes).collect())
}

/// A pool in which what is reached from a root has this root's kinds.
fn with_kinds(pool: &[u8]) -> Option<Vec<u8>> {
    let ps = settings([1, 2, 3, 5, 6].map(|at| if pool.len() >= 64 { word(pool, at) } else { 0 })).filter(|ps| length(ps) == pool.len())?;
    let mut mended = pool.to_vec();
    for tree in 0..2 {
        let mut slots = vec![tree];
        let mut seen = 0;
        while let Some(slot) = slots.pop().filter(|&slot| slot < ps.nodes && seen < ps.nodes) {
            seen += 1;
            let at = slot_at(&ps, slot);
            let (kind, count) = (word(pool, at), word(pool, at + 1).min(ps.larger_order() as u64) as usize);
            if (1..=4).contains(&kind) {
                put(&mut mended, at, (kind + 1) % 2 + 1 + 2 * tree as u64);
            }
            if kind % 2 == 0 {
                slots.extend((0..count).map(|i| (word(pool, at + 3 + 3 * i) >> 40) as usize));
            }
        }
    }
    Some(mended)
}

/// The eight-node pool as one that is sound: the leaf that nobody names goes, and each tree has a leaf of its own.
fn with_even_numbers(pool: &[u8]) -> Option<Vec<u8>> {
    let bytes = |words: Vec<u64>| words.into_iter().flat_map(u64::to_le_bytes).collect::<Vec<u8>>();
    eight::KINDS.into_iter().find(|&(second, fifth)| bytes(eight::words(second, fifth)) == pool)?;
    Some(image(&PoolSettings::alike(8, 4, 2), &Forest::new(8)))
}

/// No entry is dead, so each size counts.
fn revive(n: &mut Node) {
    match &mut n.items {
        Items::Entries(es) => es.iter_mut().for_each(|e| e.place = e.place.max(1)),
        Items::Nodes(ns) => ns.iter_mut().for_each(revive),
    }
}

fn number_by_level(root: &mut Node, slot: usize, next: &mut usize) {
    root.slot = slot;
    let mut level = vec![root];
    while !level.is_empty() {
        let mut below = vec![];
        for n in level {
            if let Items::Nodes(ns) = &mut n.items {
                for n in ns {
                    n.slot = *next;
                    *next += 1;
                    below.push(n);
                }
            }
        }
        level = below;
    }
}

impl Library for Wrong {
    fn name(&self) -> String {
        format!("{:?}", self.0)
    }
    fn pool_len(&self, settings: [u64; 5]) -> u64 {
        StandIn.pool_len(settings)
    }
    fn open(&self, pool: &mut [u8], mut settings: [u64; 5]) -> u32 {
        if self.is(OpensWithAnyMinimum) {
            settings[4] = 1;
        }
        StandIn.open(pool, settings)
    }
    fn totals(&self, pool: &[u8], tree: u64, totals: &mut [u64; 3]) -> u32 {
        let number = StandIn.totals(&self.taken(pool), self.tree(tree), totals);
        if self.is(CountsDeadSizes) && number == 0 {
            let f = forest_of(pool).expect("sound").1;
            totals[2] = f.roots[tree as usize].entries().iter().map(|e| u64::from(e.size)).sum();
        }
        number
    }
    fn set(&self, pool: &mut [u8], tree: u64, keys: &[u64], place: u64, size: u32, counts: &mut [u64; 4]) -> u32 {
        self.done(pool, tree, &Call::set(keys, place, size), counts)
    }
    fn set_each(&self, pool: &mut [u8], tree: u64, keys: &[u64], places: &[u64], sizes: &[u32], counts: &mut [u64; 4]) -> u32 {
        self.done(pool, tree, &Call::set_each(keys, places, sizes), counts)
    }
    fn remove(&self, pool: &mut [u8], tree: u64, keys: &[u64], counts: &mut [u64; 4]) -> u32 {
        self.done(pool, tree, &Call::remove(keys), counts)
    }
    fn compare(&self, pool: &mut [u8], tree: u64, keys: &[u64], how: Comparison, counts: &mut [u64; 4]) -> u32 {
        StandIn.compare(pool, tree, keys, how, counts)
    }
    fn get(&self, pool: &[u8], tree: u64, keys: &[u64], out: &mut [u8], told: &mut [u64; 2]) -> u32 {
        let tree = if self.is(GetsFromTheOtherTree) && tree < 2 { 1 - tree } else { self.tree(tree) };
        let number = StandIn.get(pool, tree, keys, out, told);
        if number == 0 {
            let n = 24 * told[0] as usize;
            match self.0 {
                TouchesBehindEntries if out.len() > n => out[n] = 0,
                MoreWhenJustFull if n == out.len() => told[1] = 1,
                HidesTheDeadFromGet if n >= 24 && out[n - 16..n - 8] == [0; 8] => told[0] -= 1,
                _ => {}
            }
        }
        number
    }
    fn scan(&self, pool: &[u8], tree: u64, q: &Request, out: &mut [u8], told: &mut [u64; 3]) -> u32 {
        let tree = if self.is(ScansTheOtherTree) && tree < 2 { 1 - tree } else { self.tree(tree) };
        let number = StandIn.scan(pool, tree, q, out, told);
        if number != 0 {
            return number;
        }
        let mut root = forest_of(pool).expect("sound").1.take(tree as usize).root;
        match self.0 {
            OpensOneTooMany if q.down && told[1] == 1 => told[2] += 1,
            ListsTheDead => told[0] = told[0].max((root.entries().len() as u64).min(out.len() as u64 / 24).min(1)),
            // where no more is due each node that is entered counts
            OpensByAllSizes if told[1] == 0 => {
                revive(&mut root);
                told[2] = plain::look::scan(q, usize::MAX, &root).opened;
            }
            _ => {}
        }
        number
    }
    fn portion(&self, pool: &[u8], tree: u64, from: &mut [u64; 3], end: Bound, least: u32, out: &mut [u8], told: &mut [u64; 4]) -> u32 {
        if self.is(PortionTestsNineteenFirst) && tree > 1 {
            return 19;
        }
        let tree = if self.is(ShowsTheOtherTree) && tree < 2 { 1 - tree } else { self.tree(tree) };
        let c = Cursor { from: *from, end, least };
        let number = StandIn.portion(pool, tree, from, end, least, out, told);
        match (self.0, number) {
            (_, 0) => self.shown(pool, tree, &c, from, out, told),
            (WritesTheStartWhenRefused, _) => *from = [0; 3],
            (TellsAPortionWhenRefused, _) => *told = [0; 4],
            _ => {}
        }
        number
    }
    fn frame(&self, pool: &[u8], tree: u64, i: u64, line: &mut [u8], len: &mut u64) -> u32 {
        let tree = if self.is(FramesTheOtherTree) && tree < 2 { 1 - tree } else { self.tree(tree) };
        let number = StandIn.frame(pool, tree, i, line, len);
        if self.is(TouchesBehindALine) && number == 0 && line.len() > *len as usize {
            line[*len as usize] = b'\n';
        }
        number
    }
    fn read_frame(&self, line: &[u8], frame: &mut RawFrame) -> u32 {
        let old = frame.clone();
        let lower = line.to_ascii_lowercase();
        let number = StandIn.read_frame(if self.is(ReadsCapitals) { &lower } else { line }, frame);
        if self.is(LeavesOldEntriesInAFrame) && number == 0 && frame.head[1] < 32 {
            frame.keys[31] = old.keys[31];
        }
        number
    }
    fn write_leaf(&self, count: u64, keys: &[u64; 32], places: &[u64; 32], sizes: &[u32; 32], line: &mut [u8], len: &mut u64) -> u32 {
        match StandIn.write_leaf(count, keys, places, sizes, line, len) {
            12 if self.is(WritesDisorder) => 0,
            n => n,
        }
    }
    fn write_interior(&self, count: u64, f: &RawFrame, line: &mut [u8], len: &mut u64) -> u32 {
        StandIn.write_interior(count, f, line, len)
    }
    fn pack(&self, source: &[u8], target: &mut [u8]) -> u32 {
        let Some((ps, x)) = forest_of(source) else { return 2 };
        let Some((pu, y)) = forest_of(target) else { return if self.is(TestsTheSourceAlone) { 18 } else { 2 } };
        match self.pack_refusal(&ps, &pu, &x, &y) {
            0 => {
                let y = self.packed(&pu, &x);
                if y.nodes() <= pu.nodes {
                    target.copy_from_slice(&image(&pu, &y));
                }
                0
            }
            n => {
                if self.is(WritesTheTargetWhenRefused) && n == 7 {
                    target[8 * HEADER] ^= 1;
                }
                n
            }
        }
    }
}

/// How the name of the part begins that shows a fault; of all parts where it may be any.
fn part_of(f: Fault) -> &'static str {
    if OF_LISTING.contains(&f) {
        "portions"
    } else if OF_PACKING.contains(&f) {
        "packing"
    } else if OF_SOUNDNESS.contains(&f) {
        "damaged"
    } else {
        ""
    }
}

/// The difference that the parts find, each within a second or so.
fn noticed(f: Fault) -> Option<String> {
    let lib = Wrong(f);
    let mut work = Work::new(&lib, 3, false);
    for (what, _, part) in Work::parts() {
        if !what.starts_with(part_of(f)) {
            continue;
        }
        if let Err((script, difference)) = part(&mut work, Instant::now() + Duration::from_millis(700)) {
            return Some(match script {
                Some(s) => shrink(&lib, s).1,
                Option::None => difference,
            });
        }
    }
    Option::None
}

#[test]
fn each_fault_is_noticed() {
    for &f in OTHERS.iter().chain(OF_LISTING).chain(OF_PACKING).chain(OF_SOUNDNESS) {
        let found = noticed(f);
        println!("{f:?}: {}", found.as_deref().unwrap_or("NOT NOTICED"));
        assert!(found.is_some(), "{f:?} is not noticed");
    }
}

#[test]
fn no_fault_none_noticed() {
    assert_eq!(noticed(None), Option::None);
}

/// What is asked of a packed pool is seen in its bytes, without the plain rules.
#[test]
fn bytes_tell_what_is_packed() {
    let ps = PoolSettings { nodes: 24, trees: [Limits { order: 4, minimum: 2 }, Limits { order: 5, minimum: 2 }] };
    let lists = [18, 22].map(|n| (1..=n).map(|key| Entry { key, place: key, size: 1 }).collect::<Vec<_>>());
    let x = Forest { roots: [0, 1].map(|tree| packed(ps.trees[tree].order, &lists[tree])), unused: vec![] };
    let seen = |f: Fault| is_packed(&image(&ps, &Wrong(f).packed(&ps, &x)));
    assert_eq!(seen(None), Ok(()));
    for (tree, list) in lists.iter().enumerate() {
        assert_eq!(entries(&image(&ps, &Wrong(None).packed(&ps, &x)), tree), oracle::stand_in::entry_bytes(list));
    }
    for f in [LeavesOfOrderLessOne, ShortLeafFirst, NumbersLevelByLevel, PacksTheSecondTreeFirst] {
        assert!(seen(f).is_err(), "{f:?} is not seen");
    }
}

/// A listing of the keys 1 to 9, and what is seen of it without a session: now and then a portion without room, else portions of three, and behind
/// each of these the given keys removed.
fn watched(f: Fault, from: [u64; 3], gone: &[u64]) -> Result<(), String> {
    let lib = Wrong(f);
    let ps = PoolSettings::alike(16, 4, 2);
    let mut list: Vec<Entry> = (1..=9).map(|key| Entry { key, place: key, size: 1 }).collect();
    let mut pool = image(&ps, &trees::planted([packed(4, &list), trees::empty()], ps.nodes, Option::None));
    let mut c = Cursor { from, end: Bound::Unbounded, least: 0 };
    let mut watch = Watch::new(&c);
    for size in [0, 3, 0, 3, 3, 3, 3] {
        let (mut out, mut told, mut next) = (vec![0; 24 * size], [0; 4], c.from);
        assert_eq!(lib.portion(&pool, 0, &mut next, c.end, c.least, &mut out, &mut told), 0);
        if watch.see(&list, size, c.from, &Shown { told, next, out })? {
            return Ok(());
        }
        c.from = next;
        for call in gone.chunks(4).map(Call::remove).filter(|_| size > 0) {
            assert_eq!(lib.batch(&mut pool, 0, &call, &mut [0; 4]), 0);
            plain_batch(&call, &mut list);
        }
    }
    unreachable!("nine keys are shown by then")
}

/// What is asked of a listing is seen from what was shown and from the plain list, without the plain rules of a portion.
#[test]
fn a_listing_tells_what_it_shows() {
    let still = |f| watched(f, [7, 9, 1], &[]);
    // the last key shown goes, and two that are still to come
    let changed = |f| watched(f, [0; 3], &[3, 5, 9]);
    let emptied = |f| watched(f, [0; 3], &[4, 5, 6, 7, 8, 9]);
    assert_eq!((still(None), changed(None), emptied(None)), (Ok(()), Ok(()), Ok(())));
    let faults = [EndsWithRoomLeftAlone, EndsWhereMoreIsDue, StartsAtTheLastKey, StartsBehindTheFirstKey, StartsWhereItDid, WritesAStartThatStays];
    for f in faults {
        assert!(still(f).is_err(), "{f:?} is not seen");
    }
    assert!(emptied(EndsWithoutRoom).is_err());
    assert_eq!(still(StartsBehindTheNextNumber), Err("portions that joined are not the whole scan, but [1, 2, 3, 5, 6, 7, 9]".to_string()));
    assert_eq!(changed(StartsBehindTheNextNumber), Err("4 was due at every moment, and not shown".to_string()));
}
