//! Listings in portions, each of which is a step of a session: of every small tree, and of random pools with portions of any size. Between two of
//! them stand batches on either tree, or nothing; and the listing as a whole is held to what document 02 promises of it.
use super::{Found, Work};
use crate::library::words;
use crate::random::Random;
use crate::script::{Cursor, Script, Step};
use crate::session::Session;
use crate::trees;
use crate::walk::{cursor, Mood, Walk};
use crate::watch::Watch;
use crate::worn::worn;
use plain::list::plain_batch;
use plain::refuse::needed;
use plain::{Bound, Call, Entry, Limits};
use std::time::Instant;

/// A listing under way.
struct Listing<'l> {
    session: Session<'l>,
    /// What the session began with, and what was done since.
    script: Script,
    tree: u64,
    cursor: Cursor,
    /// What the tree holds, as a plain list.
    list: Vec<Entry>,
    watch: Watch,
}

impl<'l> Listing<'l> {
    /// From where a session on a sound pool stands.
    fn new(session: Session<'l>, tree: u64, cursor: Cursor) -> Listing<'l> {
        let start = session.forest().expect("sound").clone();
        let list = start.roots[tree as usize].entries();
        let script = Script { settings: session.settings, start: Some(start), steps: vec![] };
        Listing { session, script, tree, cursor, list, watch: Watch::new(&cursor) }
    }

    fn batch(&mut self, tree: u64, call: Call) -> Result<(), Found> {
        let before = self.session.pool().to_vec();
        self.step(Step::batch(tree, call.clone()))?;
        // refused, it left the pool as it was; and where it was done and left the pool so, it left the list so
        if tree == self.tree && self.session.pool() != before {
            plain_batch(&call, &mut self.list);
        }
        Ok(())
    }

    fn step(&mut self, step: Step) -> Result<(), Found> {
        let done = self.session.step(&step);
        self.script.steps.push(step);
        done.map_err(|d| (Some(self.script.clone()), d))
    }

    /// A portion with so many bytes of room; whether the listing has ended.
    fn portion(&mut self, room: usize) -> Result<bool, Found> {
        self.script.steps.push(Step::Portion { tree: self.tree, cursor: self.cursor, room });
        let shown = self.session.portion(self.tree, &self.cursor, room).map_err(|d| (Some(self.script.clone()), d))?;
        // the steps, run once more, would not show what is wrong with the listing alone
        let ended = self.watch.see(&self.list, room / 24, self.cursor.from, &shown).map_err(|d| (None, format!("{d}\n{:?}", self.script)))?;
        self.cursor.from = shown.next;
        if ended {
            self.count();
        }
        Ok(ended)
    }

    /// A listing has ended.
    fn count(&mut self) {
        let tally = &mut self.session.tally;
        if !self.script.steps.iter().any(|s| matches!(s, Step::Batch { .. })) {
            return tally.count("listing, nothing between");
        }
        tally.count("listing, batches between");
        if !self.watch.still() && !self.watch.always().is_empty() {
            tally.count("listing, batches between, another list, and keys that were due at every moment");
        }
    }

    /// Keys about the cursor, held ones and those beside them: removed, made dead, or set.
    fn about(&self, r: &mut Random, order: usize) -> Call {
        let key = self.cursor.from[2];
        let at = self.list.partition_point(|e| e.key < key);
        let near = &self.list[at.saturating_sub(2)..self.list.len().min(at + 4)];
        let one = |_| {
            let k = near.get(r.below(near.len() + 1)).map_or(key, |e| e.key);
            r.pick(&[k, k, k.wrapping_add(1), k.wrapping_sub(1)])
        };
        let mut keys: Vec<u64> = (0..order).map(one).collect();
        keys.truncate(r.between(1, order));
        keys.sort_unstable();
        match r.below(4) {
            0 => Call::set(&keys, 0, 9),
            1 => Call::remove(&keys),
            _ => Call::set(&keys, 256, r.pick(&[0, 16, 17, u32::MAX])),
        }
    }
}

impl Work<'_> {
    pub(super) fn portions(&mut self, until: Instant) -> Result<(), Found> {
        let begin = Instant::now();
        self.small_listings(begin + until.saturating_duration_since(begin) / 2)?;
        self.random_listings(until)
    }

    /// Every tree over few keys, from every start.
    fn small_listings(&mut self, until: Instant) -> Result<(), Found> {
        for n in 0..=(if self.long { 5 } else { 4 }) {
            let keys: Vec<u64> = (1..=n).map(|i| 2 * i).collect();
            let all: Vec<u64> = (1..=2 * n + 1).collect();
            let mut bounds = vec![Bound::Unbounded];
            bounds.extend(all.iter().flat_map(|&k| [Bound::Included(k), Bound::Excluded(k)]));
            let changes: Vec<Call> = all.iter().flat_map(|&k| [Call::remove(&[k]), Call::set(&[k], 0, 9), Call::set(&[k], 256, 9)]).collect();
            for root in trees::up_to(&keys, 4, 4) {
                let unused = needed(1, root.depth());
                let (tree, ps, f) = self.beside(Limits { order: 4, minimum: 2 }, root, unused);
                let s = Self::fail(ps, Some(&f), &[], Session::new(self.lib, ps, Some(&f)))?;
                for &start in &bounds {
                    if Instant::now() > until {
                        println!("  (out of time at trees of {n} entries)");
                        return Ok(());
                    }
                    (0..=n as usize + 1).try_for_each(|size| self.small_listings_from(&s, tree, start, size, &bounds, &changes))?;
                }
            }
        }
        Ok(())
    }

    /// In portions of one size to every end; and to none, with each change of one key behind the first portion.
    fn small_listings_from(&mut self, s: &Session<'_>, tree: u64, start: Bound, size: usize, ends: &[Bound], changes: &[Call]) -> Result<(), Found> {
        let cursor = |end, least| Cursor { from: words(start), end, least };
        for &end in ends {
            for least in [0, 16] {
                self.small_listing(s, tree, cursor(end, least), size, None)?;
            }
        }
        changes.iter().try_for_each(|c| self.small_listing(s, tree, cursor(Bound::Unbounded, 0), size, Some(c)))
    }

    /// Portions of one size up to the end; where this is zero, of one that is not.
    fn small_listing(&mut self, s: &Session<'_>, tree: u64, cursor: Cursor, size: usize, change: Option<&Call>) -> Result<(), Found> {
        let mut l = Listing::new(s.fork(), tree, cursor);
        let mut ended = l.portion(24 * size)?;
        if let (false, Some(c)) = (ended, change) {
            l.batch(tree, c.clone())?;
        }
        while !ended {
            ended = l.portion(24 * size.max(1))?;
        }
        self.tally.add(&l.session.tally);
        Ok(())
    }

    fn random_listings(&mut self, until: Instant) -> Result<(), Found> {
        let mut listings = 0;
        while listings == 0 || Instant::now() < until {
            let ps = self.settings();
            let f = if self.random.one_in(3) { worn(&mut self.random, &ps) } else { self.random_forest(&ps) };
            let s = Self::fail(ps, Some(&f), &[], Session::new(self.lib, ps, Some(&f)))?;
            self.random_listing(s)?;
            listings += 1;
        }
        println!("  ({listings} listings of random pools)");
        Ok(())
    }

    /// Portions of any size, and after some of them one with room for all that is left. In two of three listings batches stand between them, every
    /// second one about the cursor. Behind the end, now and then, another portion.
    fn random_listing(&mut self, s: Session<'_>) -> Result<(), Found> {
        let r = &mut self.random;
        let ps = s.settings;
        let mut walk = Walk::random(r, &ps);
        let i = r.below(2);
        let some = cursor(r, s.forest().map(|f| &f.roots[i]), &mut walk.keys[i]);
        let all = Cursor { from: [0; 3], end: Bound::Unbounded, least: 0 };
        let mut l = Listing::new(s, i as u64, r.pick(&[some, all]));
        let most = r.pick(&[3, 8, 25]).min(40_000 / ps.nodes + 3);
        let batches = r.pick(&[0, 1, 3]);
        for turn in 0.. {
            let n = l.list.len();
            let size = if turn < most { r.pick(&[0, 0, 1, 2, 3, 10, n / 8, n / 3]) } else { n + 1 };
            if l.portion(24 * size + r.pick(&[0, 0, 1, 23]))? {
                break;
            }
            for _ in 0..r.below(batches + 1) {
                between(r, &mut l, &mut walk)?;
            }
        }
        if r.one_in(3) {
            between(r, &mut l, &mut walk)?;
            l.step(Step::Portion { tree: l.tree, cursor: l.cursor, room: 24 * r.below(4) })?;
        }
        self.tally.add(&l.session.tally);
        Ok(())
    }
}

/// A batch on either tree, about the cursor or not.
fn between(r: &mut Random, l: &mut Listing<'_>, walk: &mut Walk) -> Result<(), Found> {
    if r.one_in(2) {
        let call = l.about(r, walk.settings.of(l.tree as usize).order);
        return l.batch(l.tree, call);
    }
    let mood = r.pick(&[Mood::Grow, Mood::Churn, Mood::Clear]);
    let Step::Batch { tree, call } = walk.batch(r, l.session.forest(), mood) else { unreachable!("a batch") };
    l.batch(tree, call)
}
