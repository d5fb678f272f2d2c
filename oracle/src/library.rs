//! The library's calls on numbers and slices. 0 means done, any other answer is a number of the table of refusals.
use plain::{Action, Bound, Call, Expectation, Operation, Reference, Request};

/// A frame by value, as the library gives it: kind (the header byte) and count, then 32 places a field.
/// `wide` has the place, or the size sum; `narrow` the size, or the child number.
#[derive(Clone, PartialEq, Eq)]
pub struct RawFrame {
    pub head: [u64; 2],
    pub keys: [u64; 32],
    pub wide: [u64; 32],
    pub narrow: [u32; 32],
    pub live: [u32; 32],
    pub dead: [u32; 32],
}

impl RawFrame {
    pub fn zero() -> RawFrame {
        RawFrame { head: [0; 2], keys: [0; 32], wide: [0; 32], narrow: [0; 32], live: [0; 32], dead: [0; 32] }
    }
}

/// Shown with zeros at the ends of its fields left out.
impl std::fmt::Debug for RawFrame {
    fn fmt(&self, f: &mut std::fmt::Formatter<'_>) -> std::fmt::Result {
        fn part<T: Copy + Default + PartialEq>(v: &[T]) -> &[T] {
            &v[..v.iter().rposition(|x| *x != T::default()).map_or(0, |i| i + 1)]
        }
        write!(
            f,
            "{:?} {:?} {:?} {:?} {:?} {:?}",
            self.head,
            part(&self.keys),
            part(&self.wide),
            part(&self.narrow),
            part(&self.live),
            part(&self.dead)
        )
    }
}

/// A bound as the standard library has it.
pub fn range_end(b: Bound) -> std::ops::Bound<u64> {
    match b {
        Bound::Unbounded => std::ops::Bound::Unbounded,
        Bound::Included(k) => std::ops::Bound::Included(k),
        Bound::Excluded(k) => std::ops::Bound::Excluded(k),
    }
}

/// A bound as two flags and a key.
pub fn bound(b: Bound) -> (bool, bool, u64) {
    match b {
        Bound::Unbounded => (false, false, 0),
        Bound::Included(k) => (true, true, k),
        Bound::Excluded(k) => (true, false, k),
    }
}

/// A bound as the words of a start: bounded, included, key.
pub fn words(b: Bound) -> [u64; 3] {
    let (bounded, included, key) = bound(b);
    [bounded.into(), included.into(), key]
}

/// The start that three words say: a flag is any number but 0, and the last two are not read where the first is 0.
pub fn start([bounded, included, key]: [u64; 3]) -> Bound {
    match (bounded, included) {
        (0, _) => Bound::Unbounded,
        (_, 0) => Bound::Excluded(key),
        _ => Bound::Included(key),
    }
}

/// A place and a size that are expected, or none where the key must be absent; and those that are then set, or none where it is removed.
#[derive(Clone, Copy, Debug)]
pub struct Comparison {
    pub expected: Option<(u64, u32)>,
    pub action: Option<(u64, u32)>,
}

impl Comparison {
    fn new(e: Expectation, a: Action) -> Comparison {
        let expected = match e {
            Expectation::Absent => None,
            Expectation::Holds(r) => Some((r.place, r.size)),
        };
        let action = match a {
            Action::Remove => None,
            Action::Set(r) => Some((r.place, r.size)),
        };
        Comparison { expected, action }
    }
    pub fn parts(self) -> (Expectation, Action) {
        let reference = |(place, size)| Reference { place, size };
        (
            self.expected.map_or(Expectation::Absent, |r| Expectation::Holds(reference(r))),
            self.action.map_or(Action::Remove, |r| Action::Set(reference(r))),
        )
    }
}

pub trait Library {
    fn name(&self) -> String;
    /// Settings, here and below: nodes, order and minimum of tree 0, and of tree 1.
    fn pool_len(&self, settings: [u64; 5]) -> u64;
    fn open(&self, pool: &mut [u8], settings: [u64; 5]) -> u32;
    /// A tree, here and below, is 0 or 1; any number may be given.
    fn totals(&self, pool: &[u8], tree: u64, totals: &mut [u64; 3]) -> u32;
    fn set(&self, pool: &mut [u8], tree: u64, keys: &[u64], place: u64, size: u32, counts: &mut [u64; 4]) -> u32;
    fn set_each(&self, pool: &mut [u8], tree: u64, keys: &[u64], places: &[u64], sizes: &[u32], counts: &mut [u64; 4]) -> u32;
    fn remove(&self, pool: &mut [u8], tree: u64, keys: &[u64], counts: &mut [u64; 4]) -> u32;
    fn compare(&self, pool: &mut [u8], tree: u64, keys: &[u64], how: Comparison, counts: &mut [u64; 4]) -> u32;
    /// Told: entries written, and 1 where more were due.
    fn get(&self, pool: &[u8], tree: u64, keys: &[u64], out: &mut [u8], told: &mut [u64; 2]) -> u32;
    /// Told: entries written, 1 where more were due, nodes opened.
    fn scan(&self, pool: &[u8], tree: u64, request: &Request, out: &mut [u8], told: &mut [u64; 3]) -> u32;
    /// From: the words of a start, and then those of the next one, or as they were where nothing was shown. Told: entries written, 1 where more
    /// were due, nodes opened, 1 where the listing has ended.
    #[allow(clippy::too_many_arguments)] // as the C function has them
    fn portion(&self, pool: &[u8], tree: u64, from: &mut [u64; 3], end: Bound, least: u32, out: &mut [u8], told: &mut [u64; 4]) -> u32;
    fn frame(&self, pool: &[u8], tree: u64, i: u64, line: &mut [u8], len: &mut u64) -> u32;
    fn read_frame(&self, line: &[u8], frame: &mut RawFrame) -> u32;
    fn write_leaf(&self, count: u64, keys: &[u64; 32], places: &[u64; 32], sizes: &[u32; 32], line: &mut [u8], len: &mut u64) -> u32;
    fn write_interior(&self, count: u64, frame: &RawFrame, line: &mut [u8], len: &mut u64) -> u32;
    /// The source's trees, packed, in the target.
    fn pack(&self, source: &[u8], target: &mut [u8]) -> u32;

    fn batch(&self, pool: &mut [u8], tree: u64, c: &Call, counts: &mut [u64; 4]) -> u32 {
        match c.operation {
            Operation::Set(r) => self.set(pool, tree, &c.keys, r.place, r.size, counts),
            Operation::SetEach => self.set_each(pool, tree, &c.keys, &c.places, &c.sizes, counts),
            Operation::Remove => self.remove(pool, tree, &c.keys, counts),
            Operation::Compare(e, a) => self.compare(pool, tree, &c.keys, Comparison::new(e, a), counts),
        }
    }
}

/// The linked library, or the stand-in where none is linked or `stand_in` asks for it.
pub fn library(stand_in: bool) -> Box<dyn Library> {
    #[cfg(linked)]
    if !stand_in {
        return Box::new(crate::alarm::Archive);
    }
    let _ = stand_in;
    Box::new(crate::stand_in::StandIn)
}
