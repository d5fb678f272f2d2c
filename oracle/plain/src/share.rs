//! Splitting, sharing and joining of nodes over items of any kind; and the place from which a walk goes on.
use crate::tree::{release, take_lowest, Node};
use crate::Settings;
use std::collections::VecDeque;

/// Where a walk stands among the children of a node. `rest` begins with the walk's child; `before` ends with the nearest before it.
pub struct Place {
    pub before: Vec<Node>,
    pub rest: VecDeque<Node>,
}

/// How many of n items the lower node keeps.
pub fn half(n: usize) -> usize {
    (n + 1) / 2
}

/// A node split: the lower part keeps its slot, the upper takes slot s.
pub fn halved(mut n: Node, s: usize) -> (Node, Node) {
    let upper = n.items.drop_from(half(n.len()));
    (n, Node { slot: s, items: upper })
}

/// The walk steps one child back, if there is one.
fn step_back(mut before: Vec<Node>, mut rest: VecDeque<Node>) -> Place {
    if let Some(p) = before.pop() {
        rest.push_front(p);
    }
    Place { before, rest }
}

fn followed(front: Vec<Node>, behind: VecDeque<Node>) -> VecDeque<Node> {
    front.into_iter().chain(behind).collect()
}

fn fits(st: &Settings, n: &Node) -> bool {
    n.len() <= st.order
}

/// The smaller of the sibling's free space and the child's length less the minimum.
fn handed(st: &Settings, child: &Node, sibling: &Node) -> usize {
    st.order.saturating_sub(sibling.len()).min(child.len().saturating_sub(st.minimum))
}

/// To the previous sibling go the child's first items ..
fn share_back(st: &Settings, p: Node, mut c: Node) -> (Node, Node) {
    let left = c.items.drop_from(handed(st, &c, &p));
    (Node { slot: p.slot, items: p.items.followed_by(c.items) }, Node { slot: c.slot, items: left })
}

/// .. and to the next sibling its last ones.
fn share_on(st: &Settings, mut c: Node, n: Node) -> (Node, Node) {
    let moved = c.items.drop_from(c.len() - handed(st, &c, &n));
    (c, Node { slot: n.slot, items: moved.followed_by(n.items) })
}

fn split_over(st: &Settings, c: Node, unused: &mut Vec<usize>) -> Vec<Node> {
    if fits(st, &c) {
        return vec![c];
    }
    let (lower, upper) = halved(c, take_lowest(unused));
    vec![lower, upper]
}

fn share_next(st: &Settings, c: Node, mut after: VecDeque<Node>, unused: &mut Vec<usize>) -> VecDeque<Node> {
    if fits(st, &c) {
        after.push_front(c);
        return after;
    }
    match after.pop_front() {
        None => split_over(st, c, unused).into(),
        Some(n) => {
            let (lower, upper) = share_on(st, c, n);
            after.push_front(upper);
            followed(split_over(st, lower, unused), after)
        }
    }
}

/// An over-full child shares with the previous sibling, then with the next, then is split, as long as it does not fit.
/// Having shared with the previous sibling the walk steps back.
pub fn share_out(st: &Settings, mut before: Vec<Node>, c: Node, after: VecDeque<Node>, unused: &mut Vec<usize>) -> Place {
    match before.pop() {
        None => Place { before, rest: share_next(st, c, after, unused) },
        Some(p) if p.len() >= st.order => {
            before.push(p);
            Place { before, rest: share_next(st, c, after, unused) }
        }
        Some(p) => {
            let (lower, upper) = share_back(st, p, c);
            before.push(lower);
            let rest = share_next(st, upper, after, unused);
            step_back(before, rest)
        }
    }
}

/// A joint length up to order merges into the lower node's slot; a longer one is halved.
fn join(st: &Settings, a: Node, b: Node, unused: &mut Vec<usize>) -> Vec<Node> {
    let both = Node { slot: a.slot, items: a.items.followed_by(b.items) };
    if fits(st, &both) {
        release(b.slot, unused);
        return vec![both];
    }
    let (lower, upper) = halved(both, b.slot);
    vec![lower, upper]
}

/// A child below the minimum is joined with the previous sibling, or with the next if it is the first. An only child stays.
pub fn absorb(st: &Settings, mut before: Vec<Node>, c: Node, mut after: VecDeque<Node>, unused: &mut Vec<usize>) -> Place {
    match (before.pop(), after.pop_front()) {
        (None, None) => Place { before, rest: vec![c].into() },
        (None, Some(n)) => Place { before, rest: followed(join(st, c, n, unused), after) },
        (Some(p), next) => {
            if let Some(n) = next {
                after.push_front(n);
            }
            Place { before, rest: followed(join(st, p, c, unused), after) }
        }
    }
}

/// A child left empty goes, its slot is unused, and the walk steps back.
pub fn take_out(before: Vec<Node>, c: Node, after: VecDeque<Node>, unused: &mut Vec<usize>) -> Place {
    release(c.slot, unused);
    step_back(before, after)
}
