//! The plain types.

/// What the rules of one tree are given: its order and minimum, in a pool of so many nodes.
#[derive(Clone, Copy, Debug, PartialEq, Eq)]
pub struct Settings {
    pub nodes: usize,
    pub order: usize,
    pub minimum: usize,
}

/// What a tree has for itself.
#[derive(Clone, Copy, Debug, PartialEq, Eq)]
pub struct Limits {
    pub order: usize,
    pub minimum: usize,
}

/// The settings of a pool of two trees.
#[derive(Clone, Copy, Debug, PartialEq, Eq)]
pub struct PoolSettings {
    pub nodes: usize,
    pub trees: [Limits; 2],
}

impl PoolSettings {
    /// Two trees of the same order and minimum.
    pub const fn alike(nodes: usize, order: usize, minimum: usize) -> PoolSettings {
        PoolSettings { nodes, trees: [Limits { order, minimum }; 2] }
    }
    pub fn of(&self, tree: usize) -> Settings {
        let Limits { order, minimum } = self.trees[tree];
        Settings { nodes: self.nodes, order, minimum }
    }
    /// A freed slot serves either tree, so each slot is as wide as the larger order asks.
    pub fn larger_order(&self) -> usize {
        self.trees[0].order.max(self.trees[1].order)
    }
    /// Nodes, order and minimum of tree 0, and of tree 1, as an opening has them.
    pub fn numbers(&self) -> [u64; 5] {
        let [a, b] = self.trees;
        [self.nodes, a.order, a.minimum, b.order, b.minimum].map(|n| n as u64)
    }
}

#[derive(Clone, Copy, Debug, PartialEq, Eq)]
pub struct Reference {
    pub place: u64,
    pub size: u32,
}

#[derive(Clone, Copy, Debug, PartialEq, Eq)]
pub struct Entry {
    pub key: u64,
    pub place: u64,
    pub size: u32,
}

#[derive(Clone, Copy, Debug, PartialEq, Eq)]
pub enum Expectation {
    Absent,
    Holds(Reference),
}

#[derive(Clone, Copy, Debug, PartialEq, Eq)]
pub enum Action {
    Set(Reference),
    Remove,
}

#[derive(Clone, Copy, Debug, PartialEq, Eq)]
pub enum Operation {
    Set(Reference),
    SetEach,
    Remove,
    Compare(Expectation, Action),
}

/// A batch: only SetEach reads the references lent with it.
#[derive(Clone, Debug, PartialEq, Eq)]
pub struct Call {
    pub operation: Operation,
    pub places: Vec<u64>,
    pub sizes: Vec<u32>,
    pub keys: Vec<u64>,
}

#[derive(Clone, Copy, Debug, PartialEq, Eq, Default)]
pub struct Counts {
    pub added: u64,
    pub replaced: u64,
    pub removed: u64,
    pub nothing: u64,
}

impl Counts {
    pub fn numbers(&self) -> [u64; 4] {
        [self.added, self.replaced, self.removed, self.nothing]
    }
}

#[derive(Clone, Copy, Debug, PartialEq, Eq, Default)]
pub struct Totals {
    pub live: u64,
    pub dead: u64,
    pub size: u64,
}

#[derive(Clone, Copy, Debug, PartialEq, Eq)]
pub enum Bound {
    Unbounded,
    Included(u64),
    Excluded(u64),
}

/// A scan; the sift All is a least size of 0.
#[derive(Clone, Copy, Debug, PartialEq, Eq)]
pub struct Request {
    pub start: Bound,
    pub end: Bound,
    pub down: bool,
    pub least: u32,
}

#[derive(Clone, Debug, PartialEq, Eq)]
pub struct Listing {
    pub written: Vec<Entry>,
    pub more: bool,
}

#[derive(Clone, Debug, PartialEq, Eq)]
pub struct Scanned {
    pub listed: Listing,
    pub opened: u64,
}

/// A part of a listing: what is shown of it, where the next part starts, and whether this one was the last.
#[derive(Clone, Debug, PartialEq, Eq)]
pub struct Portion {
    pub scanned: Scanned,
    pub next: Bound,
    pub ended: bool,
}

impl Call {
    pub fn set(keys: &[u64], place: u64, size: u32) -> Call {
        Call { operation: Operation::Set(Reference { place, size }), places: vec![], sizes: vec![], keys: keys.to_vec() }
    }
    pub fn set_each(keys: &[u64], places: &[u64], sizes: &[u32]) -> Call {
        Call { operation: Operation::SetEach, places: places.to_vec(), sizes: sizes.to_vec(), keys: keys.to_vec() }
    }
    pub fn remove(keys: &[u64]) -> Call {
        Call { operation: Operation::Remove, places: vec![], sizes: vec![], keys: keys.to_vec() }
    }
    pub fn compare(keys: &[u64], expectation: Expectation, action: Action) -> Call {
        Call { operation: Operation::Compare(expectation, action), places: vec![], sizes: vec![], keys: keys.to_vec() }
    }
    pub fn references(&self) -> Vec<Reference> {
        self.places.iter().zip(&self.sizes).map(|(&place, &size)| Reference { place, size }).collect()
    }
}

impl Entry {
    pub fn reference(&self) -> Reference {
        Reference { place: self.place, size: self.size }
    }
    pub fn of(key: u64, r: Reference) -> Entry {
        Entry { key, place: r.place, size: r.size }
    }
}
