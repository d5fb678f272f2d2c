//! What a numbered case or a reading does to its pool, and what it wants to be answered: each call is put among the lines and held to that.
//!
//! Order 4, minimum 2, of both trees where nothing else is said. A key k has place 256 + k and size 16, as in document 01's input; P is the pool
//! after that input, in tree 0. What is done and asked names the tree at hand.
use crate::before::{old_sums, written};
use crate::lines::{Lines, Told};
use crate::script::{Cursor, Step};
use crate::stand_in::entry_bytes;
use plain::forest::Forest;
use plain::frame::{write_frame, Frame};
use plain::pool::{slot_at, word};
use plain::read_frame::read_line;
use plain::tree::Node;
use plain::{Action, Bound, Call, Entry, Expectation, PoolSettings, Request};
use std::ops::RangeInclusive;

pub const DESK: PoolSettings = PoolSettings::alike(16, 4, 2);

pub fn entry(k: u64) -> Entry {
    Entry { key: k, place: k.wrapping_add(256), size: 16 }
}
fn entries(keys: &[u64]) -> Vec<Entry> {
    keys.iter().map(|&k| entry(k)).collect()
}

/// The keys are set in one batch.
pub fn set(keys: &[u64]) -> Call {
    let places: Vec<u64> = keys.iter().map(|&k| entry(k).place).collect();
    Call::set_each(keys, &places, &vec![16; keys.len()])
}

pub fn up(start: Bound, end: Bound) -> Request {
    Request { start, end, down: false, least: 0 }
}
pub fn down(start: Bound, end: Bound) -> Request {
    Request { down: true, ..up(start, end) }
}

/// Of a listing of the whole tree, and from a start with flags that are neither 0 nor 1.
pub const WHOLE: Cursor = Cursor { from: [0; 3], end: Bound::Unbounded, least: 0 };
pub const FROM_3: Cursor = Cursor { from: [7, 9, 3], ..WHOLE };

/// Leaves in the slots from `from` on.
fn leaves_from(from: usize, leaves: &[&[u64]]) -> Vec<Node> {
    leaves.iter().enumerate().map(|(i, keys)| Node::leaf(from + i, entries(keys))).collect()
}
/// A tree 0 beside an empty tree 1, among so many nodes: the slots from 2 on are in use up to the last that the tree has.
pub fn alone(nodes: usize, root: Node) -> Forest {
    let used = root.nodes() + 1;
    Forest { roots: [root, Node::leaf(1, vec![])], unused: (used..nodes).collect() }
}
/// One root over leaves, among 16 nodes.
pub fn grove(leaves: &[&[u64]]) -> Forest {
    alone(16, Node::interior(0, leaves_from(2, leaves)))
}
/// A root over two interiors in the slots 2 and 3, each over leaves, among so many nodes.
pub fn two_groves(nodes: usize, a: &[&[u64]], b: &[&[u64]]) -> Forest {
    let interiors = vec![Node::interior(2, leaves_from(4, a)), Node::interior(3, leaves_from(4 + a.len(), b))];
    alone(nodes, Node::interior(0, interiors))
}
/// Two leaves of one key at depth 8, among so many nodes: each below six interiors of one child.
pub fn deepest(nodes: usize) -> Forest {
    alone(nodes, Node::interior(0, vec![way_down(2, 1), way_down(9, 2)]))
}
/// In the slots from `from` on, the leaf in the last of seven.
fn way_down(from: usize, key: u64) -> Node {
    let leaf = Node::leaf(from + 6, entries(&[key]));
    (from..from + 6).rev().fold(leaf, |below, slot| Node::interior(slot, vec![below]))
}
/// P as it was in a pool of one tree.
pub fn p_of_before() -> Node {
    Node::interior(0, leaves_from(1, &[&[1, 2, 3], &[4, 5]]))
}

#[track_caller]
fn begins_with(t: &Told, wanted: &[u64]) {
    assert_eq!(&t.answers[..wanted.len().min(t.answers.len())], wanted);
}

impl Lines<'_> {
    pub fn new_pool(&mut self, nodes: usize) {
        self.open(PoolSettings { nodes, ..DESK });
    }
    #[track_caller]
    pub fn p(&mut self) {
        self.new_pool(16);
        self.input();
    }
    /// The program's input, into the tree at hand.
    #[track_caller]
    pub fn input(&mut self) {
        self.done(&set(&[1, 2, 3, 4]), [4, 0, 0, 0]);
        self.done(&set(&[5]), [1, 0, 0, 0]);
    }
    /// A pool written by hand.
    pub fn by_hand(&mut self, ps: PoolSettings, f: &Forest) {
        self.open(ps);
        self.fill(f);
        assert_eq!(plain::sound::forest_of(self.pool()).as_ref(), Some(&(ps, f.clone())));
    }

    fn changed(&mut self, c: &Call) -> Told {
        self.play(&Step::batch(self.tree(), c.clone()))
    }
    /// A batch is done and counts so many keys that added, replaced, removed and did nothing.
    #[track_caller]
    pub fn done(&mut self, c: &Call, [added, replaced, removed, nothing]: [u64; 4]) {
        begins_with(&self.changed(c), &[0, added, replaced, removed, nothing]);
    }
    #[track_caller]
    pub fn refused(&mut self, c: &Call, number: u64) {
        let before = self.pool().to_vec();
        begins_with(&self.changed(c), &[number]);
        assert_eq!(self.pool(), before);
    }
    /// Keys are added one by one.
    #[track_caller]
    pub fn one_by_one(&mut self, keys: RangeInclusive<u64>) {
        for k in keys {
            self.done(&set(&[k]), [1, 0, 0, 0]);
        }
    }

    #[track_caller]
    pub fn totals_are(&mut self, live: u64, dead: u64, size: u64) {
        assert_eq!(self.play(&Step::Totals { tree: self.tree() }).answers, [0, live, dead, size]);
    }
    /// A get of these keys lists these entries, and no more are due.
    #[track_caller]
    pub fn gets(&mut self, keys: &[u64], found: &[Entry]) {
        let t = self.play(&Step::Get { tree: self.tree(), keys: keys.to_vec(), room: 480 });
        begins_with(&t, &[0, found.len() as u64, 0]);
        assert_eq!(t.output, entry_bytes(found));
    }
    /// A scan with room for so many entries lists these keys, opens so many nodes, and says whether more are due.
    #[track_caller]
    pub fn lists(&mut self, request: Request, room: usize, keys: &[u64], opened: u64, more: bool) {
        let t = self.play(&Step::Scan { tree: self.tree(), request, room: 24 * room });
        begins_with(&t, &[0, keys.len() as u64, more.into(), opened]);
        assert_eq!(t.output, entry_bytes(&entries(keys)));
    }

    /// A portion with room for so many entries shows these keys, opens so many nodes, and ends the listing or says that more are due. The next one
    /// starts behind the last key, or, where none was shown, with the words that it had.
    #[track_caller]
    pub fn shows(&mut self, c: &mut Cursor, room: usize, keys: &[u64], opened: u64, ended: bool) {
        let t = self.play(&Step::Portion { tree: self.tree(), cursor: *c, room: 24 * room });
        begins_with(&t, &[0, keys.len() as u64, (!ended).into(), opened, ended.into()]);
        assert_eq!(t.output[..24 * keys.len()], entry_bytes(&entries(keys)));
        c.from = keys.last().map_or(c.from, |last| [1, 0, *last]);
        assert_eq!(t.next, Some(c.from));
    }
    /// One with so few bytes of room that no entry fits shows nothing and does not end, whether more are due or not.
    #[track_caller]
    pub fn shows_nothing(&mut self, c: &Cursor, bytes: usize, opened: u64, more: bool) {
        let t = self.play(&Step::Portion { tree: self.tree(), cursor: *c, room: bytes });
        begins_with(&t, &[0, 0, more.into(), opened, 0]);
        assert_eq!(t.next, Some(c.from));
    }
    /// One that is refused leaves the words of its start.
    #[track_caller]
    pub fn does_not_show(&mut self, c: &Cursor, number: u64) {
        for room in [0, 24] {
            let t = self.play(&Step::Portion { tree: self.tree(), cursor: *c, room });
            assert_eq!((t.answers, t.next), (vec![number], Some(c.from)));
        }
    }

    /// The pool at hand is packed into the other one, and is as it was.
    #[track_caller]
    pub fn packs(&mut self) {
        let before = self.pool().to_vec();
        assert_eq!(self.pack().answers[0], 0);
        assert_eq!(self.pool(), before);
    }
    /// It is not, and both are as they were.
    #[track_caller]
    pub fn does_not_pack(&mut self, number: u64) {
        let before = (self.pool().to_vec(), self.other_pool().to_vec());
        assert_eq!(self.pack().answers[0], number);
        assert_eq!((self.pool(), self.other_pool()), (&before.0[..], &before.1[..]));
    }
    /// The pool at hand as it was before a size sum counted live entries alone: the words that were others, and what they were.
    pub fn with_old_sums(&mut self) -> Vec<(usize, u64)> {
        let steps = old_sums(&self.settings(), self.forest().expect("sound"));
        let others = steps.iter().map(|step| {
            self.play(step);
            let Step::Put { word, value } = step else { unreachable!("words are put") };
            (*word, *value)
        });
        others.collect()
    }
    /// The calls of the tree at hand, also such as other numbers of the table are given for, are refused so.
    #[track_caller]
    pub fn all_refused(&mut self, number: u64) {
        let tree = self.tree();
        for c in [
            set(&[1]),
            set(&[]),
            Call::set(&[1], 1, 1),
            Call::remove(&[1]),
            Call::compare(&[1], Expectation::Absent, Action::Remove),
            set(&[1, 2, 3, 4, 5]),
            Call::set_each(&[1], &[], &[]),
            Call::remove(&[2, 1]),
        ] {
            self.refused(&c, number);
        }
        let request = up(Bound::Unbounded, Bound::Unbounded);
        for step in [
            Step::Totals { tree },
            Step::Get { tree, keys: vec![1], room: 24 },
            Step::Get { tree, keys: vec![2, 1], room: 24 },
            Step::Scan { tree, request, room: 24 },
            Step::Frame { tree, i: 0, room: 512 },
            Step::Frame { tree, i: 99, room: 0 },
        ] {
            assert_eq!(self.play(&step).answers, [number]);
        }
        self.does_not_show(&FROM_3, number);
    }
    /// Every call on the pool at hand is refused as 2, whichever tree it names.
    #[track_caller]
    pub fn refused_by_all(&mut self) {
        for tree in [2, 1, 0] {
            self.on(tree);
            self.all_refused(2);
        }
        self.beside(DESK);
        self.does_not_pack(2);
        self.turn();
        self.does_not_pack(2);
        self.turn();
    }
    /// The last word of the pool at hand, one of an unused slot, is no longer 0.
    pub fn damage(&mut self) {
        let word = self.pool().len() / 8 - 1;
        self.play(&Step::Put { word, value: 1 });
    }
    /// The other pool is opened; the one at hand stays so.
    pub fn beside(&mut self, ps: PoolSettings) {
        self.turn();
        self.open(ps);
        self.turn();
    }

    /// All frames of the tree at hand, as lines; behind the last there is none.
    #[track_caller]
    fn all_frames(&mut self) -> Vec<String> {
        let mut lines = vec![];
        loop {
            let t = self.play(&Step::Frame { tree: self.tree(), i: lines.len() as u64, room: 512 });
            if t.answers == [14] {
                return lines;
            }
            begins_with(&t, &[0, t.output.len() as u64]);
            lines.push(String::from_utf8(t.output).expect("digits"));
        }
    }
    #[track_caller]
    pub fn frames_are(&mut self, lines: &[&str]) {
        assert_eq!(self.all_frames(), lines);
    }
    /// By the frames: the number of children of each interior, in the order of the walk, and the leaves from the least key to the greatest.
    #[track_caller]
    pub fn tree_is(&mut self, interiors: &[usize], leaves: &[&[u64]]) {
        let (mut found, mut rest) = (vec![], leaves.iter());
        for line in self.all_frames() {
            match read_line(line.as_bytes()).expect("a frame") {
                Frame::Interior(branches) => found.push(branches.len()),
                Frame::Leaf(es) => assert_eq!(es, entries(rest.next().expect("no further leaf"))),
            }
        }
        assert_eq!((found.as_slice(), rest.len()), (interiors, 0));
    }

    /// The kinds of the first slots: in tree 0, 1 of a leaf and 2 of an interior, and in tree 1, 3 and 4; 0 of an unused slot, as all others are.
    #[track_caller]
    pub fn slots_are(&mut self, kinds: &[u64]) {
        let ps = self.settings();
        for slot in 0..ps.nodes {
            let kind = word(self.pool(), slot_at(&ps, slot));
            assert_eq!((slot, kind), (slot, kinds.get(slot).copied().unwrap_or(0)));
        }
    }
    /// These words are put into the pool at hand, where others stand.
    pub fn write(&mut self, words: &[u64]) {
        assert_eq!(self.pool().len(), 8 * words.len());
        for step in written(words, self.pool()) {
            self.play(&step);
        }
    }
    pub fn put(&mut self, word: usize, value: u64) {
        self.play(&Step::Put { word, value });
    }

    /// A line is read, and what was read is the same line when it is written.
    #[track_caller]
    pub fn reads_back(&mut self, line: &str) {
        begins_with(&self.read(line.as_bytes()), &[0]);
        let frame = read_line(line.as_bytes()).expect("a frame");
        assert_eq!(write_frame(line.len(), &frame).as_deref(), Ok(line.as_bytes()));
    }
    #[track_caller]
    pub fn does_not_read(&mut self, line: &str, number: u64) {
        assert_eq!(self.read(line.as_bytes()).answers, [number]);
    }
}
