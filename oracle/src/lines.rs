//! Calls with their answers, a line of numbers each, as crates/trial_replay replays them; the form stands at the head of bin/sample.rs. They are
//! made on the pool at hand, one of two, which each opening makes anew, and no line is made of a call on which the third variant disagrees.
use crate::frames;
use crate::library::{bound, start, words, Library, RawFrame};
use crate::script::{Cursor, Step};
use crate::session::Session;
use crate::tally::Tally;
use plain::forest::Forest;
use plain::pool::{image, length, put, word};
use plain::{Action, Call, Expectation, Operation, PoolSettings, Request};

pub struct Lines<'l> {
    lib: &'l dyn Library,
    /// The pool at hand, and the other one.
    session: Session<'l>,
    other: Session<'l>,
    /// The tree at hand.
    tree: u64,
    made: Vec<String>,
}

/// The answers of a line, and the bytes that the call wrote into its output; of a portion, the next start behind them.
pub struct Told {
    pub answers: Vec<u64>,
    pub output: Vec<u8>,
    /// The words of its start as a portion left them; of other calls none.
    pub next: Option<[u64; 3]>,
}

impl<'l> Lines<'l> {
    /// No line yet, and no bytes of either pool. The answers will be those of this library.
    pub fn new(lib: &'l dyn Library) -> Lines<'l> {
        Lines { lib, session: Session::over(lib, vec![]), other: Session::over(lib, vec![]), tree: 0, made: vec![] }
    }
    pub fn made(&self) -> &[String] {
        &self.made
    }
    pub fn pool(&self) -> &[u8] {
        self.session.pool()
    }
    pub fn other_pool(&self) -> &[u8] {
        self.other.pool()
    }
    pub fn settings(&self) -> PoolSettings {
        self.session.settings
    }
    /// What the pool holds; none while it is not sound.
    pub fn forest(&self) -> Option<&Forest> {
        self.session.forest()
    }
    /// This is the tree at hand, which the calls of a case or of a reading name, from here on. Each of these begins with tree 0.
    pub fn on(&mut self, tree: u64) {
        self.tree = tree;
    }
    pub fn tree(&self) -> u64 {
        self.tree
    }

    fn make(&mut self, kind: u64, arguments: &[u64], answers: &[u64]) {
        let counted = |v: &[u64]| [&[v.len() as u64], v].concat();
        let numbers = [vec![kind], counted(arguments), counted(answers)].concat();
        self.made.push(numbers.iter().map(u64::to_string).collect::<Vec<_>>().join(" "));
    }

    /// What follows is this numbered case.
    pub fn case(&mut self, n: u64) {
        self.tree = 0;
        self.make(12, &[n], &[]);
    }
    /// What follows is this reading.
    pub fn reading(&mut self, n: u64) {
        self.tree = 0;
        self.make(13, &[n], &[]);
    }

    /// An opening that is refused, over so many bytes.
    pub fn open_refused(&mut self, settings: [u64; 5], len: u64) {
        let mut pool = vec![0x5a; len as usize];
        let number = self.lib.open(&mut pool, settings);
        assert_ne!(number, 0, "an opening that is done");
        self.make(1, &[&settings[..], &[len]].concat(), &[number.into(), check(&pool)]);
        self.session = Session::over(self.lib, pool);
    }
    pub fn open(&mut self, ps: PoolSettings) {
        let session = Session::new(self.lib, ps, None).expect("agreed");
        self.make(1, &[&ps.numbers()[..], &[length(&ps) as u64]].concat(), &[0, check(session.pool())]);
        self.session = session;
    }
    /// The words by which the open pool, a new one, differs from the image of this forest are put into it.
    pub fn fill(&mut self, f: &Forest) {
        let ps = self.settings();
        let (mut pool, image) = (self.pool().to_vec(), image(&ps, f));
        for at in 0..image.len() / 8 {
            let value = word(&image, at);
            if word(&pool, at) != value {
                put(&mut pool, at, value);
                self.make(11, &[at as u64, value], &[0, check(&pool)]);
            }
        }
        self.session = self.session.again(ps, f);
    }
    /// The other pool is at hand from here on.
    pub fn turn(&mut self) {
        self.make(15, &[], &[]);
        std::mem::swap(&mut self.session, &mut self.other);
    }
    /// The pool at hand is packed into the other one.
    pub fn pack(&mut self) -> Told {
        let number = self.session.pack_into(&mut self.other).expect("agreed");
        self.told(14, &[], vec![number.into(), check(self.other.pool())], vec![])
    }

    pub fn play(&mut self, step: &Step) -> Told {
        let before = self.pool().to_vec();
        self.session.step(step).expect("agreed");
        match step {
            Step::Batch { tree, call } => self.batch(*tree, call, &before),
            Step::Totals { tree } => self.totals(*tree),
            Step::Get { tree, keys, room } => self.get(*tree, keys, *room),
            Step::Scan { tree, request, room } => self.scan(*tree, request, *room),
            Step::Portion { tree, cursor, room } => self.portion(*tree, cursor, *room),
            Step::Frame { tree, i, room } => self.frame(*tree, *i, *room),
            Step::Put { word, value } => self.told(11, &[*word as u64, *value], vec![0, check(self.pool())], vec![]),
            Step::Resize { .. } => unreachable!("a pool keeps its length up to the next opening"),
            Step::Pack { .. } => unreachable!("the target is the other pool, by its own lines"),
        }
    }

    fn told(&mut self, kind: u64, arguments: &[u64], answers: Vec<u64>, output: Vec<u8>) -> Told {
        self.make(kind, arguments, &answers);
        Told { answers, output, next: None }
    }
    /// A call that lends no pool for change: behind its number, where it is done, what it told and the check of what it wrote.
    fn looked(&mut self, kind: u64, arguments: &[u64], number: u32, told: &[u64], output: Option<Vec<u8>>) -> Told {
        if number != 0 {
            return self.told(kind, arguments, vec![number.into()], vec![]);
        }
        let mut answers = [&[0], told].concat();
        answers.extend(output.iter().map(|o| check(o)));
        self.told(kind, arguments, answers, output.unwrap_or_default())
    }

    fn batch(&mut self, tree: u64, c: &Call, before: &[u8]) -> Told {
        let (mut after, mut counts) = (before.to_vec(), [0; 4]);
        let number = self.lib.batch(&mut after, tree, c, &mut counts);
        let mut answers = vec![number.into()];
        answers.extend((number == 0).then_some(counts).into_iter().flatten());
        answers.push(check(&after));
        let (kind, arguments) = batch_arguments(c);
        self.told(kind, &[vec![tree], arguments].concat(), answers, vec![])
    }
    fn totals(&mut self, tree: u64) -> Told {
        let mut told = [0; 3];
        let number = self.lib.totals(self.pool(), tree, &mut told);
        self.looked(2, &[tree], number, &told, None)
    }
    fn get(&mut self, tree: u64, keys: &[u64], room: usize) -> Told {
        let (mut out, mut told) = (vec![0; room], [0; 2]);
        let number = self.lib.get(self.pool(), tree, keys, &mut out, &mut told);
        out.truncate(24 * told[0] as usize);
        self.looked(7, &[vec![tree, room as u64], listed(keys)].concat(), number, &told, Some(out))
    }
    fn scan(&mut self, tree: u64, q: &Request, room: usize) -> Told {
        let (mut out, mut told) = (vec![0; room], [0; 3]);
        let number = self.lib.scan(self.pool(), tree, q, &mut out, &mut told);
        out.truncate(24 * told[0] as usize);
        let ((sb, si, s), (eb, ei, e)) = (bound(q.start), bound(q.end));
        let arguments = [tree, sb.into(), si.into(), s, eb.into(), ei.into(), e, q.down.into(), q.least.into(), room as u64];
        self.looked(8, &arguments, number, &told, Some(out))
    }
    /// In a line a start has flags of 0 and 1, and key 0 where it is not bounded. The check goes on over the words of the next one.
    fn portion(&mut self, tree: u64, c: &Cursor, room: usize) -> Told {
        let (mut out, mut told, mut from) = (vec![0; room], [0; 4], c.from);
        let number = self.lib.portion(self.pool(), tree, &mut from, c.end, c.least, &mut out, &mut told);
        let [given, next] = [c.from, from].map(|from| words(start(from)));
        out.truncate(24 * told[0] as usize);
        out.extend(next.into_iter().flat_map(u64::to_le_bytes));
        let arguments = [&[tree][..], &given, &words(c.end), &[c.least.into(), room as u64]].concat();
        Told { next: Some(from), ..self.looked(16, &arguments, number, &told, Some(out)) }
    }
    fn frame(&mut self, tree: u64, i: u64, room: usize) -> Told {
        let (mut line, mut len) = (vec![0; room], 0);
        let number = self.lib.frame(self.pool(), tree, i, &mut line, &mut len);
        line.truncate(len as usize);
        self.looked(9, &[tree, i, room as u64], number, &[len], Some(line))
    }
    /// A frame is read; no pool is lent.
    pub fn read(&mut self, line: &[u8]) -> Told {
        frames::read(self.lib, line, &mut Tally::default()).expect("agreed");
        let mut f = RawFrame::zero();
        let number = self.lib.read_frame(line, &mut f);
        let narrow = [f.narrow, f.live, f.dead].concat().into_iter().map(u64::from);
        let words = f.keys.into_iter().chain(f.wide).chain(narrow).flat_map(u64::to_le_bytes).collect();
        self.looked(10, &listed(line), number, &f.head, Some(words))
    }
}

/// The arguments behind the tree.
fn batch_arguments(c: &Call) -> (u64, Vec<u64>) {
    let keys = listed(&c.keys);
    match c.operation {
        Operation::Set(r) => (3, [vec![r.place, r.size.into()], keys].concat()),
        Operation::SetEach => (4, [keys, listed(&c.places), listed(&c.sizes)].concat()),
        Operation::Remove => (5, keys),
        Operation::Compare(e, a) => {
            let e = match e {
                Expectation::Absent => [0, 0, 0],
                Expectation::Holds(r) => [1, r.place, r.size.into()],
            };
            let a = match a {
                Action::Remove => [0, 0, 0],
                Action::Set(r) => [1, r.place, r.size.into()],
            };
            (6, [e.to_vec(), a.to_vec(), keys].concat())
        }
    }
}

fn check(bytes: &[u8]) -> u64 {
    bytes.iter().fold(0, |h, &b| (31 * h + u64::from(b)) % 1_000_000_007)
}

fn listed<T: Copy + Into<u64>>(v: &[T]) -> Vec<u64> {
    std::iter::once(v.len() as u64).chain(v.iter().map(|&x| x.into())).collect()
}
