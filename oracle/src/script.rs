//! A list of calls on one pool, as it is run, shrunk and printed.
use crate::library::start;
use plain::forest::Forest;
use plain::{Bound, Call, PoolSettings, Request};

/// What the caller keeps of a listing: the words of its next start, with any flags, its end, and its least size.
#[derive(Clone, Copy, Debug, PartialEq)]
pub struct Cursor {
    pub from: [u64; 3],
    pub end: Bound,
    pub least: u32,
}

impl Cursor {
    /// The scan of which a portion shows as much as has room.
    pub fn request(&self) -> Request {
        Request { start: start(self.from), end: self.end, down: false, least: self.least }
    }
}

#[derive(Clone, Debug, PartialEq)]
pub enum Step {
    /// `tree` is any number, here and below.
    Batch {
        tree: u64,
        call: Call,
    },
    Totals {
        tree: u64,
    },
    /// `room` is in bytes, here and below.
    Get {
        tree: u64,
        keys: Vec<u64>,
        room: usize,
    },
    Scan {
        tree: u64,
        request: Request,
        room: usize,
    },
    Portion {
        tree: u64,
        cursor: Cursor,
        room: usize,
    },
    Frame {
        tree: u64,
        i: u64,
        room: usize,
    },
    /// One word of the pool is overwritten.
    Put {
        word: usize,
        value: u64,
    },
    /// The pool is lent with another length: cut, or with bytes behind it.
    Resize {
        len: usize,
    },
    /// The pool is packed into the one that a script of its own leaves. Where `onward`, and where it was done, what follows is done on that one.
    Pack {
        target: Script,
        onward: bool,
    },
}

impl Step {
    pub fn batch(tree: u64, call: Call) -> Step {
        Step::Batch { tree, call }
    }
}

#[derive(Clone, Debug, PartialEq)]
pub struct Script {
    pub settings: PoolSettings,
    /// A new pool, or one that holds this forest.
    pub start: Option<Forest>,
    pub steps: Vec<Step>,
}

impl Script {
    pub fn print(&self) {
        println!("nodes {}", self.settings.nodes);
        for (tree, limits) in self.settings.trees.iter().enumerate() {
            println!("tree {tree}: order {}, minimum {}", limits.order, limits.minimum);
        }
        match &self.start {
            None => println!("a new pool"),
            Some(f) => {
                for (tree, root) in f.roots.iter().enumerate() {
                    println!("tree {tree} is {}", root.picture());
                    println!("  {root:?}");
                }
            }
        }
        for s in &self.steps {
            println!("  {s:?}");
        }
    }
}
