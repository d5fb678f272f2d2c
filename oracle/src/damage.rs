//! Pools damaged by hand: what a word is changed to, and the calls that must then answer 2, or answer for the pool that it has become.
use crate::random::Random;
use crate::script::{Cursor, Script, Step};
use crate::session::{Difference, Session};
use crate::walk::some_tree;
use crate::{before, eight, trees, Library};
use plain::forest::Forest;
use plain::pool::{child_word, image, slot_at, word, HEADER};
use plain::tree::{Items, Node};
use plain::{Action, Bound, Call, Expectation, PoolSettings, Reference, Request};

/// What a word that holds w is changed to.
fn values(r: &mut Random, pool: &[u8], w: u64) -> Vec<u64> {
    let other = word(pool, r.below(pool.len() / 8));
    let mut v = vec![
        0,
        1,
        2,
        3,
        4,
        w.wrapping_add(1),
        w.wrapping_sub(1),
        w ^ (1 << 20),
        w ^ (1 << 40),
        w.wrapping_add(1 << 40),
        w ^ (1 << 32),
        w ^ (1 << 63),
        w << 1,
        u64::MAX,
        r.next(),
        other,
    ];
    v.retain(|&v| v != w);
    v
}

/// One call of each kind in turn, on either tree or, now and then, on neither.
const CALLS: usize = 14;
fn call(r: &mut Random, turn: usize) -> Step {
    let tree = some_tree(r);
    call_on(r, tree, turn)
}

fn call_on(r: &mut Random, tree: u64, turn: usize) -> Step {
    let k = r.below(20) as u64;
    let held = Reference { place: 256 + k, size: 16 };
    let request = Request { start: Bound::Unbounded, end: Bound::Unbounded, down: r.one_in(2), least: 0 };
    match turn % CALLS {
        0 => Step::Totals { tree },
        1 => Step::Get { tree, keys: vec![k, k + 1], room: 48 },
        2 => Step::Scan { tree, request, room: 24 * r.below(30) },
        3 => Step::Frame { tree, i: r.below(4) as u64, room: 2000 },
        4 => Step::batch(tree, Call::set(&[k], k, 9)),
        5 => Step::batch(tree, Call::set_each(&[k, k + 3], &[7, 8], &[1, 2])),
        6 => Step::batch(tree, Call::remove(&[k, k + 1])),
        7 => Step::batch(tree, Call::compare(&[k], Expectation::Holds(held), Action::Remove)),
        // no number of the table that comes later may be given first
        8 => Step::batch(tree, Call::set_each(&[9, 8, 7, 6, 5, 4, 3, 2, 1], &[1], &[])),
        9 => Step::batch(tree, Call::remove(&[k + 1, k])),
        10 => Step::batch(tree, Call::set_each(&[k], &[], &[1])),
        11 => Step::Get { tree, keys: vec![k + 1, k], room: 24 },
        12 => Step::Portion { tree, cursor: Cursor { from: [7, 9, k], end: Bound::Unbounded, least: 0 }, room: 24 * r.below(30) },
        _ => Step::Frame { tree, i: u64::MAX, room: 0 },
    }
}

type Found = (Script, Difference);

/// One sound pool, from which each damage starts.
pub struct Damage<'l> {
    whole: Session<'l>,
    settings: PoolSettings,
    forest: Forest,
    turn: usize,
}

impl<'l> Damage<'l> {
    pub fn new(lib: &'l dyn Library, settings: PoolSettings, forest: &Forest) -> Damage<'l> {
        let whole = Session::new(lib, settings, Some(forest)).expect("an image needs no call");
        Damage { whole, settings, forest: forest.clone(), turn: 0 }
    }

    /// What was compared.
    pub fn tally(&self) -> &crate::tally::Tally {
        &self.whole.tally
    }

    /// Words damaged one at a time, each in several ways: all of them, or one in `every`.
    pub fn each_word(&mut self, r: &mut Random, every: usize) -> Result<(), Found> {
        for at in 0..self.whole.pool().len() / 8 {
            if every == 1 || r.one_in(every) {
                self.word(r, at)?;
            }
        }
        Ok(())
    }

    /// The words before the first slot: layout, nodes, and order, minimum and a zero of each tree.
    pub fn header(&mut self, r: &mut Random) -> Result<(), Found> {
        (0..HEADER).try_for_each(|at| self.word(r, at))
    }

    fn word(&mut self, r: &mut Random, at: usize) -> Result<(), Found> {
        let values = values(r, self.whole.pool(), word(self.whole.pool(), at));
        values.into_iter().try_for_each(|value| self.by(r, vec![Step::Put { word: at, value }]))
    }

    /// A damage, then two calls.
    fn by(&mut self, r: &mut Random, mut steps: Vec<Step>) -> Result<(), Found> {
        self.turn += 1;
        steps.push(Step::Totals { tree: self.turn as u64 % 2 });
        steps.push(call(r, self.turn));
        self.run(steps)
    }

    /// The kind of every slot made each of the five, and one that is none.
    pub fn kinds(&mut self, r: &mut Random) -> Result<(), Found> {
        for slot in 0..self.settings.nodes {
            for value in 0..=5 {
                self.by(r, vec![Step::Put { word: slot_at(&self.settings, slot), value }])?;
            }
        }
        Ok(())
    }

    /// A node with all below it given to the other tree by its kinds; and each child of an interior named as a node of the other tree, whose
    /// totals are told rightly, and the other way round.
    pub fn crossed(&mut self, r: &mut Random) -> Result<(), Found> {
        let forest = self.forest.clone();
        for tree in 0..2 {
            for n in nodes_below(&forest.roots[tree]) {
                let words = nodes_below(n).into_iter().map(|n| slot_at(&self.settings, n.slot));
                let turned = |at| Step::Put { word: at, value: (word(self.whole.pool(), at) + 1) % 4 + 1 };
                let steps = words.map(turned).collect();
                self.by(r, steps)?;
                let Items::Nodes(children) = &n.items else { continue };
                for i in 0..children.len() {
                    let others = nodes_below(&forest.roots[1 - tree]);
                    let named = others[r.below(others.len())];
                    self.by(r, self.renamed(n, i, named))?;
                }
            }
        }
        Ok(())
    }

    /// Of two trees that are alike, each child of an interior exchanged for the other tree's: every node is reached once and every total is right,
    /// and the kinds alone tell that two trees were mixed.
    pub fn exchanged(&mut self, r: &mut Random) -> Result<(), Found> {
        let [first, second] = self.forest.roots.clone();
        assert!(first.same_shape(&second), "two trees that are alike");
        for (a, b) in nodes_below(&first).into_iter().zip(nodes_below(&second)) {
            let (Items::Nodes(of_first), Items::Nodes(of_second)) = (&a.items, &b.items) else { continue };
            for i in 0..of_first.len() {
                let steps = [self.renamed(a, i, &of_second[i]), self.renamed(b, i, &of_first[i])].concat();
                self.refused_by_all(r, steps)?;
            }
        }
        Ok(())
    }

    /// The i-th row of an interior names another node.
    fn renamed(&self, n: &Node, i: usize, child: &Node) -> Vec<Step> {
        let at = slot_at(&self.settings, n.slot) + 2 + 3 * i;
        let row = [child.greatest_key(), child_word(child.slot, child.totals()), child.totals().size];
        row.into_iter().enumerate().map(|(j, value)| Step::Put { word: at + j, value }).collect()
    }

    /// Two words damaged, or exchanged, and pools of the wrong length.
    pub fn more(&mut self, r: &mut Random, times: usize) -> Result<(), Found> {
        let n = self.whole.pool().len();
        for turn in 0..times {
            let (a, b) = (r.below(n / 8), r.below(n / 8));
            let held = |at| word(self.whole.pool(), at);
            let steps = match turn % 4 {
                0 => vec![Step::Put { word: a, value: held(b) }, Step::Put { word: b, value: held(a) }],
                1 => vec![Step::Put { word: a, value: r.next() }, Step::Put { word: b, value: 0 }],
                2 => vec![Step::Put { word: r.below(HEADER), value: r.below(40) as u64 }],
                _ => vec![Step::Resize { len: r.pick(&[0, 1, 8, 31, 32, 33, 63, 64, 65, n - 8, n - 1, n + 1, n + 8, 2 * n]) }],
            };
            self.by(r, steps)?;
        }
        Ok(())
    }

    /// The pool as it was before a size sum counted live entries alone, asked by each kind of call.
    pub fn old_sums(&mut self, r: &mut Random) -> Result<(), Found> {
        for turn in 0..CALLS {
            let mut steps = before::old_sums(&self.settings, &self.forest);
            steps.push(call(r, turn));
            self.run(steps)?;
        }
        Ok(())
    }

    /// Each tree alone in a pool of layout 1, as it was before there were two, in slots from 1 on, or with slot 1 unused: every call refuses it as
    /// 2. So it is with the new layout's number, and then in the length of a pool of two trees.
    pub fn one_tree(&mut self, r: &mut Random) -> Result<(), Found> {
        for tree in 0..2 {
            let roots = [self.forest.roots[tree].clone(), trees::empty()];
            let [behind, _] = trees::planted(roots, self.settings.nodes, Some(r)).roots;
            for root in [one_slot_down(&behind), behind] {
                let words = before::one_tree(&self.settings.of(tree), &root);
                let mut steps = before::written(&words, self.whole.pool());
                self.refused_by_all(r, steps.clone())?;
                steps.push(Step::Put { word: 0, value: 2 });
                self.refused_by_all(r, steps.clone())?;
                steps.push(Step::Resize { len: self.whole.pool().len() });
                self.refused_by_all(r, steps)?;
            }
        }
        Ok(())
    }

    /// Every call on what these steps leave is refused as 2, whichever tree it names; and so is a packing of it, and into it.
    fn refused_by_all(&mut self, r: &mut Random, steps: Vec<Step>) -> Result<(), Found> {
        let mut s = self.whole.fork();
        let script = |steps: &[Step]| Script { settings: self.settings, start: Some(self.forest.clone()), steps: steps.to_vec() };
        for step in &steps {
            s.step(step).map_err(|d| (script(&steps), d))?;
        }
        if s.forest().is_some() {
            return Err((script(&steps), "the plain model takes for sound what is not".to_string()));
        }
        let new = Script { settings: self.settings, start: None, steps: vec![] };
        let mut last = vec![Step::Pack { target: new.clone(), onward: false }];
        for tree in [0, 1, 2] {
            last.extend((0..CALLS).map(|turn| call_on(r, tree, turn)));
        }
        for step in last {
            s.step(&step).map_err(|d| (script(&[steps.clone(), vec![step]].concat()), d))?;
        }
        self.whole.tally.add(&s.tally);
        let into = Step::Pack { target: script(&steps), onward: false };
        self.run(vec![into])
    }

    /// The steps on the pool, in a session of their own.
    fn run(&mut self, steps: Vec<Step>) -> Result<(), Found> {
        let mut s = self.whole.fork();
        for step in &steps {
            s.step(step).map_err(|d| (Script { settings: self.settings, start: Some(self.forest.clone()), steps: steps.clone() }, d))?;
        }
        self.whole.tally.add(&s.tally);
        Ok(())
    }
}

/// A node and those below it, in preorder.
fn nodes_below(n: &Node) -> Vec<&Node> {
    let mut all = vec![n];
    if let Items::Nodes(ns) = &n.items {
        all.extend(ns.iter().flat_map(nodes_below));
    }
    all
}

/// The same tree, each node but the root one slot further down.
fn one_slot_down(n: &Node) -> Node {
    let slot = n.slot.saturating_sub(1);
    match &n.items {
        Items::Entries(es) => Node::leaf(slot, es.clone()),
        Items::Nodes(ns) => Node::interior(slot, ns.iter().map(one_slot_down).collect()),
    }
}

/// The eight-node pool, in all its ways.
pub fn eight_nodes(lib: &dyn Library, r: &mut Random) -> Result<crate::tally::Tally, Found> {
    let settings = PoolSettings::alike(8, 4, 2);
    let new = Forest::new(8);
    let mut damage = Damage::new(lib, settings, &new);
    for (second, fifth) in eight::KINDS {
        damage.refused_by_all(r, before::written(&eight::words(second, fifth), &image(&settings, &new)))?;
    }
    Ok(damage.tally().clone())
}
