//! One pool under comparison: each step is done by the library on bytes, by the plain model, and by the three variants of the published module,
//! which have a tree each for either of the pool's two, and no packing; a portion is a scan to them. Every answer, every lent buffer and every byte
//! of the pool must agree; what must not change is looked at too, the other tree's answers after a batch among it.
use crate::library::{words, Library};
use crate::other::Answers;
use crate::packed;
use crate::published::Published;
use crate::script::{Cursor, Script, Step};
use crate::stand_in::entry_bytes;
use crate::tally::Tally;
use crate::watch::Shown;
use plain::forest::Forest;
use plain::frame::{fitted, frames_of};
use plain::look::{get_all, scan};
use plain::pack::{self, pack};
use plain::pool::{image, length, put};
use plain::portion::portion;
use plain::refuse::{batch_refusal, get_refusal, tree_refusal};
use plain::sound::forest_of;
use plain::tree::Node;
use plain::{Call, PoolSettings, Request};
use std::rc::Rc;

/// What differs.
pub type Difference = String;

#[derive(Clone)]
pub struct Session<'l> {
    lib: &'l dyn Library,
    pub settings: PoolSettings,
    pool: Vec<u8>,
    /// What the pool holds; none while it is not sound.
    held: Option<Held>,
    pub tally: Tally,
}

#[derive(Clone)]
struct Held {
    forest: Forest,
    /// The Rust beside each tree.
    rust: [Published; 2],
    /// What each tree answered when it was asked last; none where it was changed since.
    answers: [Option<Rc<Answers>>; 2],
}

impl Held {
    fn new(ps: &PoolSettings, forest: Forest) -> Held {
        let rust = [0, 1].map(|tree| Published::build(&ps.of(tree), &forest.roots[tree]));
        Held { forest, rust, answers: [None, None] }
    }
}

/// Bytes, or numbers, that no call writes by chance.
pub(crate) fn pattern(n: usize) -> Vec<u8> {
    (0..n).map(|i| (i * 7 + 0xa5) as u8).collect()
}
pub(crate) const UNTOLD: u64 = 0xdead_beef_0bad_cafe;

pub(crate) fn same<T: PartialEq + std::fmt::Debug>(what: &str, got: T, wanted: T) -> Result<(), Difference> {
    if got == wanted {
        Ok(())
    } else {
        Err(format!("{what}: got {got:?}, wanted {wanted:?}"))
    }
}

/// As `same`, of many bytes: the first place is told.
fn same_bytes(what: &str, got: &[u8], wanted: &[u8]) -> Result<(), Difference> {
    if got == wanted {
        return Ok(());
    }
    let at = got.iter().zip(wanted).position(|(a, b)| a != b).unwrap_or(got.len().min(wanted.len()));
    Err(format!("{what}: byte {at} (word {}) got {:?}, wanted {:?}", at / 8, got.get(at), wanted.get(at)))
}

impl<'l> Session<'l> {
    /// A pool opened by the library over any bytes, or the image of a given forest.
    pub fn new(lib: &'l dyn Library, settings: PoolSettings, start: Option<&Forest>) -> Result<Session<'l>, Difference> {
        let ps = settings;
        let forest = start.cloned().unwrap_or_else(|| Forest::new(ps.nodes));
        let mut tally = Tally::default();
        let pool = match start {
            Some(f) => image(&ps, f),
            None => {
                let n = lib.pool_len(ps.numbers());
                same("pool length", n, length(&ps) as u64)?;
                let mut pool = pattern(n as usize);
                same("open", lib.open(&mut pool, ps.numbers()), 0)?;
                tally.answered("open", 0);
                same_bytes("a new pool", &pool, &image(&ps, &forest))?;
                pool
            }
        };
        Ok(Session { lib, settings, pool, held: Some(Held::new(&ps, forest)), tally })
    }

    /// Bytes that are no pool.
    pub fn over(lib: &'l dyn Library, bytes: Vec<u8>) -> Session<'l> {
        assert_eq!(forest_of(&bytes), None);
        Session { lib, settings: PoolSettings::alike(0, 0, 0), pool: bytes, held: None, tally: Tally::default() }
    }

    pub fn run(lib: &'l dyn Library, script: &Script) -> Result<Session<'l>, (usize, Difference)> {
        let mut s = Session::new(lib, script.settings, script.start.as_ref()).map_err(|d| (0, d))?;
        for (i, step) in script.steps.iter().enumerate() {
            s.step(step).map_err(|d| (i, d))?;
        }
        Ok(s)
    }

    /// The same state, nothing counted yet.
    pub fn fork(&self) -> Session<'l> {
        Session { tally: Tally::default(), ..self.clone() }
    }

    /// A session of its own on the pool of a forest, with the same library.
    pub fn again(&self, settings: PoolSettings, f: &Forest) -> Session<'l> {
        Session::new(self.lib, settings, Some(f)).expect("an image needs no call")
    }

    pub fn forest(&self) -> Option<&Forest> {
        self.held.as_ref().map(|h| &h.forest)
    }
    pub fn pool(&self) -> &[u8] {
        &self.pool
    }

    pub fn step(&mut self, step: &Step) -> Result<(), Difference> {
        match step {
            Step::Batch { tree, call } => self.batch(*tree, call),
            Step::Totals { tree } => self.totals(*tree),
            Step::Get { tree, keys, room } => self.get(*tree, keys, *room),
            Step::Scan { tree, request, room } => self.scan(*tree, request, *room),
            Step::Portion { tree, cursor, room } => self.portion(*tree, cursor, *room).map(drop),
            Step::Frame { tree, i, room } => self.frame(*tree, *i, *room),
            Step::Put { word, value } => {
                put(&mut self.pool, *word, *value);
                self.damaged()
            }
            Step::Resize { len } => {
                self.pool.resize(*len, 0);
                self.damaged()
            }
            Step::Pack { target, onward } => self.pack(target, *onward),
        }
    }

    /// The bytes were changed by hand: what they hold now is asked of the plain model.
    fn damaged(&mut self) -> Result<(), Difference> {
        self.held = forest_of(&self.pool).map(|(ps, f)| {
            self.settings = ps;
            Held::new(&ps, f)
        });
        self.tally.count(if self.held.is_some() { "pools changed by hand, still sound" } else { "pools changed by hand, not sound" });
        Ok(())
    }

    /// The tree that a call names, with the Rust beside it; or 2, or 19.
    fn named(&self, tree: u64) -> Result<(&Node, &Published), u32> {
        let h = self.held.as_ref().ok_or(2u32)?;
        match tree_refusal(tree) {
            0 => Ok((&h.forest.roots[tree as usize], &h.rust[tree as usize])),
            n => Err(n),
        }
    }

    fn batch(&mut self, tree: u64, c: &Call) -> Result<(), Difference> {
        let wanted = self.held.as_ref().map_or(2, |h| batch_refusal(&self.settings, tree, c, &h.forest));
        let before = (wanted != 0).then(|| self.pool.clone());
        if wanted == 0 {
            self.ask(1 - tree as usize)?;
        }
        let mut counts = [UNTOLD; 4];
        let got = self.lib.batch(&mut self.pool, tree, c, &mut counts);
        same("batch", got, wanted)?;
        self.tally.answered("batch", got);
        if let Some(before) = before {
            same_bytes("pool after a refused batch", &self.pool, &before)?;
            return same("counts after a refused batch", counts, [UNTOLD; 4]);
        }
        self.changed(tree as usize, c, counts)
    }

    /// A batch was done on one of the trees, and told these counts.
    fn changed(&mut self, tree: usize, c: &Call, counts: [u64; 4]) -> Result<(), Difference> {
        let mut h = self.held.take().expect("a sound pool");
        let mut list = h.forest.roots[tree].entries();
        let told = h.forest.batch(&self.settings, tree, c);
        let root = &h.forest.roots[tree];
        same("plain list and plain tree, counts", plain::list::plain_batch(c, &mut list), told)?;
        same("plain list and plain tree, entries", root.entries(), list)?;
        h.rust[tree].batch(&self.settings.of(tree), c, root, told, &mut self.tally)?;
        same("counts", counts, told.numbers())?;
        same_bytes("pool after a batch", &self.pool, &image(&self.settings, &h.forest))?;
        h.answers[tree] = None;
        let other = 1 - tree;
        let after = Answers::asked(self.lib, &self.pool, other as u64, &h.forest.roots[other]);
        after.same("the other tree after a batch", h.answers[other].as_ref().expect("asked before the batch"))?;
        self.tally.count("batch, and the other tree answers as before");
        self.held = Some(h);
        Ok(())
    }

    /// What a tree answers is known from here on, up to its next change.
    fn ask(&mut self, tree: usize) -> Result<(), Difference> {
        let h = self.held.as_mut().expect("a sound pool");
        if h.answers[tree].is_none() {
            let root = &h.forest.roots[tree];
            let answers = Answers::asked(self.lib, &self.pool, tree as u64, root);
            answers.same("the other tree before a batch", &Answers::wanted(root))?;
            h.answers[tree] = Some(Rc::new(answers));
        }
        Ok(())
    }

    fn totals(&mut self, tree: u64) -> Result<(), Difference> {
        let before = self.pool.clone();
        let mut told = [UNTOLD; 3];
        let got = self.lib.totals(&self.pool, tree, &mut told);
        self.tally.answered("totals", got);
        same_bytes("pool after totals", &self.pool, &before)?;
        match self.named(tree) {
            Err(n) => {
                same("totals", got, n)?;
                same("totals when refused", told, [UNTOLD; 3])
            }
            Ok((root, rust)) => {
                same("totals", got, 0)?;
                let t = root.totals();
                rust.totals(t)?;
                same("totals", told, [t.live, t.dead, t.size])
            }
        }
    }

    fn get(&mut self, tree: u64, keys: &[u64], room: usize) -> Result<(), Difference> {
        let before = self.pool.clone();
        let (mut out, mut told) = (pattern(room), [UNTOLD; 2]);
        let got = self.lib.get(&self.pool, tree, keys, &mut out, &mut told);
        self.tally.answered("get", got);
        same_bytes("pool after a get", &self.pool, &before)?;
        let named = self.named(tree);
        let wanted = named.as_ref().map_or_else(|n| *n, |_| get_refusal(tree, keys));
        same("get", got, wanted)?;
        let mut expected = pattern(room);
        let mut expected_told = [UNTOLD; 2];
        if let (0, Ok((root, rust))) = (wanted, named) {
            let l = get_all(keys, room / 24, root);
            rust.get(keys, room / 24, &l)?;
            let bytes = entry_bytes(&l.written);
            expected[..bytes.len()].copy_from_slice(&bytes);
            expected_told = [l.written.len() as u64, u64::from(l.more)];
        }
        same("get, written and more", told, expected_told)?;
        same_bytes("get, output", &out, &expected)
    }

    fn scan(&mut self, tree: u64, q: &Request, room: usize) -> Result<(), Difference> {
        let before = self.pool.clone();
        let (mut out, mut told) = (pattern(room), [UNTOLD; 3]);
        let got = self.lib.scan(&self.pool, tree, q, &mut out, &mut told);
        self.tally.answered("scan", got);
        same_bytes("pool after a scan", &self.pool, &before)?;
        let named = self.named(tree);
        same("scan", got, named.as_ref().err().copied().unwrap_or(0))?;
        let mut expected = pattern(room);
        let mut expected_told = [UNTOLD; 3];
        if let Ok((root, rust)) = named {
            let s = scan(q, room / 24, root);
            rust.scan(q, room / 24, &s)?;
            let bytes = entry_bytes(&s.listed.written);
            expected[..bytes.len()].copy_from_slice(&bytes);
            expected_told = [s.listed.written.len() as u64, u64::from(s.listed.more), s.opened];
        }
        same("scan, written, more and opened", told, expected_told)?;
        same_bytes("scan, output", &out, &expected)
    }

    /// A portion; what the library left of it.
    pub fn portion(&mut self, tree: u64, c: &Cursor, room: usize) -> Result<Shown, Difference> {
        let before = self.pool.clone();
        let (mut out, mut told, mut next) = (pattern(room), [UNTOLD; 4], c.from);
        let got = self.lib.portion(&self.pool, tree, &mut next, c.end, c.least, &mut out, &mut told);
        self.tally.answered("portion", got);
        same_bytes("pool after a portion", &self.pool, &before)?;
        let named = self.named(tree);
        same("portion", got, named.as_ref().err().copied().unwrap_or(0))?;
        let mut expected = pattern(room);
        let (mut expected_told, mut expected_next) = ([UNTOLD; 4], c.from);
        if let Ok((root, rust)) = named {
            let q = c.request();
            let p = portion(q.start, q.end, q.least, room / 24, root);
            rust.scan(&q, room / 24, &p.scanned)?;
            let listed = &p.scanned.listed;
            let bytes = entry_bytes(&listed.written);
            expected[..bytes.len()].copy_from_slice(&bytes);
            expected_told = [listed.written.len() as u64, listed.more.into(), p.scanned.opened, p.ended.into()];
            if !listed.written.is_empty() {
                expected_next = words(p.next);
            }
        }
        same("portion, written, more, opened and ended", told, expected_told)?;
        same("portion, the words of the next start", next, expected_next)?;
        same_bytes("portion, output", &out, &expected)?;
        Ok(Shown { told, next, out })
    }

    fn frame(&mut self, tree: u64, i: u64, room: usize) -> Result<(), Difference> {
        let before = self.pool.clone();
        let (mut line, mut len) = (pattern(room), UNTOLD);
        let got = self.lib.frame(&self.pool, tree, i, &mut line, &mut len);
        self.tally.answered("frame of a pool", got);
        same_bytes("pool after a frame", &self.pool, &before)?;
        let wanted = match self.named(tree) {
            Err(n) => Err(n),
            Ok((root, rust)) => {
                let frames = frames_of(root);
                match usize::try_from(i).ok().and_then(|i| frames.get(i).map(|f| (i, f))) {
                    None => Err(14),
                    Some((i, f)) => {
                        rust.frame(i, f)?;
                        fitted(room, f.line())
                    }
                }
            }
        };
        same("frame", got, wanted.as_ref().err().copied().unwrap_or(0))?;
        let mut expected = pattern(room);
        let mut expected_len = UNTOLD;
        if let Ok(l) = wanted {
            expected[..l.len()].copy_from_slice(&l);
            expected_len = l.len() as u64;
        }
        same("frame, length", len, expected_len)?;
        same_bytes("frame, line", &line, &expected)
    }

    fn pack(&mut self, target: &Script, onward: bool) -> Result<(), Difference> {
        let mut t = Session::run(self.lib, target).map_err(|(_, d)| format!("the target of a pack: {d}"))?;
        let number = self.pack_into(&mut t)?;
        if number == 0 {
            self.packs_alike(&t)?;
        }
        self.tally.add(&t.tally);
        if number == 0 && onward {
            (self.settings, self.pool, self.held) = (t.settings, t.pool, t.held);
        }
        Ok(())
    }

    /// This pool is packed into another; the answer.
    pub fn pack_into(&mut self, target: &mut Session<'_>) -> Result<u32, Difference> {
        let (source, before) = (self.pool.clone(), target.pool.clone());
        let wanted = match (&self.held, &target.held) {
            (Some(x), Some(y)) => pack::refusal(&self.settings, &target.settings, &x.forest, &y.forest),
            _ => 2,
        };
        let got = self.lib.pack(&self.pool, &mut target.pool);
        same("pack", got, wanted)?;
        self.tally.answered("pack", got);
        same_bytes("source after a pack", &self.pool, &source)?;
        if wanted != 0 {
            same_bytes("target after a refused pack", &target.pool, &before)?;
            return Ok(got);
        }
        let x = self.forest().expect("a sound pool");
        let y = pack(&target.settings, x);
        same_bytes("target after a pack", &target.pool, &image(&target.settings, &y))?;
        packed::is_packed(&target.pool)?;
        for tree in 0..2 {
            let what = format!("entries of the target's tree {tree} after a pack");
            same_bytes(&what, &packed::entries(&target.pool, tree), &packed::entries(&self.pool, tree))?;
        }
        let depths = |f: &Forest| f.roots.iter().map(Node::depth).max().unwrap_or(0);
        let counted = format!("packed, the deeper tree from depth {} to {}", depths(x), depths(&y));
        self.tally.count(&counted);
        target.held = Some(Held::new(&target.settings, y));
        Ok(got)
    }

    /// What was packed answers as this pool does, and packed once more, or this pool once more, the bytes are the same.
    fn packs_alike(&mut self, target: &Session<'_>) -> Result<(), Difference> {
        let (lib, ps) = (self.lib, target.settings);
        let forest = self.forest().expect("a sound pool");
        for (tree, root) in forest.roots.iter().enumerate() {
            let keys: Vec<u64> = root.entries().iter().map(|e| e.key).collect();
            let t = root.totals();
            for pool in [&self.pool, &target.pool] {
                let (mut out, mut told, mut totals) = (pattern(24 * keys.len()), [UNTOLD; 2], [UNTOLD; 3]);
                same("packed, get of all keys", lib.get(pool, tree as u64, &keys, &mut out, &mut told), 0)?;
                same("packed, get of all keys", told, [keys.len() as u64, 0])?;
                same_bytes("packed, get of all keys", &out, &packed::entries(&self.pool, tree))?;
                same("packed, totals", lib.totals(pool, tree as u64, &mut totals), 0)?;
                same("packed, totals", totals, [t.live, t.dead, t.size])?;
            }
        }
        self.tally.count("packed, both pools asked for all that both trees hold");
        for (source, what) in [(&self.pool, "packed again"), (&target.pool, "packed from the packed")] {
            let mut again = image(&ps, &Forest::new(ps.nodes));
            same(what, lib.pack(source, &mut again), 0)?;
            same_bytes(what, &again, &target.pool)?;
            self.tally.count(&format!("{what}, the same bytes"));
        }
        Ok(())
    }
}
