//! A pool that is lent for changing, and one that is lent for reading.
use crate::refusal::done;
use crate::{
    raw, Action, Counts, Direction, Entries, Expectation, Got, List, Listing, Operation, Portion, Reference, Refusal, Scanned, Sift,
};
use core::ops::{Bound, RangeBounds};

/// One of the two trees of a pool.
#[derive(Clone, Copy, Debug, PartialEq, Eq, Hash)]
pub enum Tree {
    /// Tree 0.
    First,
    /// Tree 1.
    Second,
}

impl Tree {
    /// The number that the index has for it, and the calls of [`raw`] take.
    #[must_use]
    pub const fn number(self) -> u64 {
        match self {
            Tree::First => 0,
            Tree::Second => 1,
        }
    }

    /// The tree of a number; none where it is not 0 or 1.
    #[must_use]
    pub const fn from_number(number: u64) -> Option<Tree> {
        match number {
            0 => Some(Tree::First),
            1 => Some(Tree::Second),
            _ => None,
        }
    }
}

impl From<Tree> for u64 {
    fn from(tree: Tree) -> u64 {
        tree.number()
    }
}

/// The settings of one tree.
#[derive(Clone, Copy, Debug, PartialEq, Eq, Hash)]
pub struct Limits {
    /// The most entries of a node, and keys of a batch: 4 to 32.
    pub order: u64,
    /// The length below which a node is joined with another: 1 to (order + 1) / 2.
    pub minimum: u64,
}

/// The settings of a pool, which it keeps.
#[derive(Clone, Copy, Debug, PartialEq, Eq, Hash)]
pub struct Settings {
    /// How many nodes it has room for, of both trees together: 8 to 16,384.
    pub nodes: u64,
    /// Those of [`Tree::First`].
    pub first: Limits,
    /// Those of [`Tree::Second`].
    pub second: Limits,
}

impl Settings {
    /// The exact length of such a pool, in bytes; none where a setting is out of its limits.
    #[must_use]
    pub fn pool_len(self) -> Option<usize> {
        let Settings { nodes, first, second } = self;
        match raw::pool_len(nodes, first.order, first.minimum, second.order, second.minimum) {
            0 => None,
            len => usize::try_from(len).ok(),
        }
    }
}

/// The exact length of a pool whose trees have these orders, in bytes, for an array. The settings must be in their limits;
/// [`Settings::pool_len`] tests them.
#[must_use]
pub const fn pool_len(nodes: usize, first: usize, second: usize) -> usize {
    8 * (8 + nodes * (2 + 6 * if first > second { first } else { second }))
}

/// What a whole tree holds.
#[derive(Clone, Copy, Debug, Default, PartialEq, Eq)]
pub struct Totals {
    /// The number of live entries.
    pub live: u64,
    /// The number of dead ones.
    pub dead: u64,
    /// The sum of the sizes of the live ones.
    pub size: u64,
}

/// A pool that is lent for changing.
///
/// It is no more than the bytes: each call tests whether they are a sound pool, and is refused as [`Refusal::NotSound`] where they are not.
#[derive(Debug)]
pub struct Pool<'a> {
    bytes: &'a mut [u8],
}

impl<'a> Pool<'a> {
    /// A pool that was opened before.
    pub fn new(bytes: &'a mut [u8]) -> Pool<'a> {
        Pool { bytes }
    }

    /// A pool made two empty leaves, one of each tree, whatever the bytes were.
    ///
    /// # Errors
    /// [`Refusal::WrongSetting`].
    pub fn open(bytes: &'a mut [u8], settings: Settings) -> Result<Pool<'a>, Refusal> {
        let Settings { nodes, first, second } = settings;
        let number = raw::open(bytes, nodes, first.order, first.minimum, second.order, second.minimum);
        done(number, Pool { bytes })
    }

    /// The pool for reading.
    #[must_use]
    pub fn view(&self) -> View<'_> {
        View { bytes: self.bytes }
    }

    /// Takes the keys into a tree, first to last.
    ///
    /// # Errors
    /// [`Refusal::NotSound`], [`Refusal::BatchTooLong`], [`Refusal::ReferencesDiffer`] of a SetEach, [`Refusal::KeysDescend`]; and of any
    /// operation but Remove [`Refusal::TooDeep`], [`Refusal::TooFewNodes`].
    pub fn batch(&mut self, tree: Tree, keys: &[u64], operation: Operation<'_>) -> Result<Counts, Refusal> {
        match operation {
            Operation::Set(reference) => self.set(tree, keys, reference),
            Operation::SetEach { places, sizes } => self.set_each(tree, keys, places, sizes),
            Operation::Remove => self.remove(tree, keys),
            Operation::Compare(expectation, action) => self.compare(tree, keys, expectation, action),
        }
    }

    /// Sets every key to one reference.
    ///
    /// # Errors
    /// As of [`Pool::batch`].
    pub fn set(&mut self, tree: Tree, keys: &[u64], reference: Reference) -> Result<Counts, Refusal> {
        let mut counts = [0; 4];
        let number = raw::set(self.bytes, tree.number(), keys, reference.place, reference.size, &mut counts);
        done(number, counts.into())
    }

    /// Sets each key to its own reference: as many places and sizes as keys.
    ///
    /// # Errors
    /// As of [`Pool::batch`].
    pub fn set_each(&mut self, tree: Tree, keys: &[u64], places: &[u64], sizes: &[u32]) -> Result<Counts, Refusal> {
        let mut counts = [0; 4];
        let number = raw::set_each(self.bytes, tree.number(), keys, places, sizes, &mut counts);
        done(number, counts.into())
    }

    /// Removes every key that is present.
    ///
    /// # Errors
    /// As of [`Pool::batch`].
    pub fn remove(&mut self, tree: Tree, keys: &[u64]) -> Result<Counts, Refusal> {
        let mut counts = [0; 4];
        let number = raw::remove(self.bytes, tree.number(), keys, &mut counts);
        done(number, counts.into())
    }

    /// Does the action on every key that is as expected.
    ///
    /// # Errors
    /// As of [`Pool::batch`].
    pub fn compare(&mut self, tree: Tree, keys: &[u64], expectation: Expectation, action: Action) -> Result<Counts, Refusal> {
        let expected = match expectation {
            Expectation::Absent => None,
            Expectation::Holds(r) => Some((r.place, r.size)),
        };
        let action = match action {
            Action::Remove => None,
            Action::Set(r) => Some((r.place, r.size)),
        };
        let mut counts = [0; 4];
        let number = raw::compare(self.bytes, tree.number(), keys, expected, action, &mut counts);
        done(number, counts.into())
    }
}

/// A pool that is lent for reading.
#[derive(Clone, Copy, Debug)]
pub struct View<'a> {
    bytes: &'a [u8],
}

impl<'a> View<'a> {
    /// A pool that was opened before.
    #[must_use]
    pub fn new(bytes: &'a [u8]) -> View<'a> {
        View { bytes }
    }

    /// What the whole tree holds.
    ///
    /// # Errors
    /// [`Refusal::NotSound`].
    pub fn totals(self, tree: Tree) -> Result<Totals, Refusal> {
        let mut totals = [0; 3];
        let number = raw::totals(self.bytes, tree.number(), &mut totals);
        let [live, dead, size] = totals;
        done(number, Totals { live, dead, size })
    }

    /// Copies both trees, packed, into a new pool of the same orders and minimums: each level has as few nodes as its entries need, every one of
    /// them full but the last, and the nodes stand in the order of the preorder walk. A pool of which both trees were emptied again is new.
    ///
    /// # Errors
    /// [`Refusal::NotSound`] of either pool, [`Refusal::SettingsDiffer`], [`Refusal::TargetNotNew`], [`Refusal::TooFewNodes`] where the target has
    /// fewer nodes than both packed trees need; never where it has as many as this pool.
    pub fn pack_into(self, target: &mut Pool<'_>) -> Result<(), Refusal> {
        done(raw::pack(self.bytes, target.bytes), ())
    }

    /// Lists one entry for each key that is present, dead entries too, equal keys each time. The keys ascend. The output takes
    /// [`ENTRY_LEN`](crate::ENTRY_LEN) bytes an entry, and is not touched behind the last one.
    ///
    /// # Errors
    /// [`Refusal::NotSound`], [`Refusal::KeysDescend`].
    pub fn get<'o>(self, tree: Tree, keys: &[u64], out: &'o mut [u8]) -> Result<Got<'o>, Refusal> {
        let mut told = [0; 2];
        let number = raw::get(self.bytes, tree.number(), keys, out, &mut told);
        let [written, more] = told;
        done(number, Got { entries: Entries::new(out, written), more: more != 0 })
    }

    /// Lists the live entries in a range of keys, up or down. A range that starts above its end has none. The output is used as by
    /// [`View::get`].
    ///
    /// # Errors
    /// [`Refusal::NotSound`].
    pub fn scan<'o>(
        self,
        tree: Tree,
        range: impl RangeBounds<u64>,
        direction: Direction,
        sift: Sift,
        out: &'o mut [u8],
    ) -> Result<Scanned<'o>, Refusal> {
        let mut told = [0; 3];
        let (start, end) = (range.start_bound().cloned(), range.end_bound().cloned());
        let number = raw::scan(self.bytes, tree.number(), start, end, direction == Direction::Down, sift.least(), out, &mut told);
        let [written, more, opened] = told;
        done(number, Scanned { entries: Entries::new(out, written), more: more != 0, opened })
    }

    /// Lists one portion: the live entries from a start to an end, upwards, as many as fit in the output, and where the next portion starts.
    /// The caller keeps that, as [`Listing`] does; the pool keeps nothing.
    ///
    /// An output that has no room for an entry shows nothing: `next` is then `start`, and the listing has not ended. After its end a portion is
    /// like any other: it has what was set behind the last entry since.
    ///
    /// # Errors
    /// [`Refusal::NotSound`].
    pub fn portion(self, tree: Tree, start: Bound<u64>, end: Bound<u64>, sift: Sift, out: &mut [u8]) -> Result<Portion<'_>, Refusal> {
        let (mut from, mut told) = (raw::words(start), [0; 4]);
        let number = raw::portion(self.bytes, tree.number(), &mut from, end, sift.least(), out, &mut told);
        let [written, more, opened, ended] = told;
        let entries = Entries::new(out, written);
        done(number, Portion { entries, more: more != 0, opened, next: raw::bound(from), ended: ended != 0 })
    }

    /// Lists the live entries in a range of keys, upwards, however many there are, and gives them one by one; or a refusal, which is
    /// [`Refusal::NotSound`]. They come in portions through the output, and the pool is tested for each portion. Where the output has no room for
    /// an entry it is not used, and the pool is tested for every entry.
    ///
    /// ```
    /// # use alarm_index::{pool_len, Limits, Pool, Reference, Refusal, Settings, Sift, Tree, ENTRY_LEN};
    /// # fn main() -> Result<(), Refusal> {
    /// # let mut bytes = [0; pool_len(16, 4, 4)];
    /// # let limits = Limits { order: 4, minimum: 2 };
    /// # let mut pool = Pool::open(&mut bytes, Settings { nodes: 16, first: limits, second: limits })?;
    /// pool.set(Tree::First, &[10, 20, 30, 40], Reference { place: 256, size: 16 })?;
    /// let mut out = [0; 2 * ENTRY_LEN];
    /// let mut keys = vec![];
    /// for entry in pool.view().list(Tree::First, 20.., Sift::All, &mut out) {
    ///     keys.push(entry?.key);
    /// }
    /// assert_eq!(keys, [20, 30, 40]);
    /// # Ok(())
    /// # }
    /// ```
    #[must_use]
    pub fn list<'o>(self, tree: Tree, range: impl RangeBounds<u64>, sift: Sift, out: &'o mut [u8]) -> List<'a, 'o> {
        List::new(self, Listing::new(tree, range, sift), out)
    }

    /// Writes the i-th node of a tree's preorder walk, counted from 0, as a line of hexadecimal without a line feed, and hands back the part
    /// of the buffer that it occupies. [`LINE_LEN`](crate::LINE_LEN) bytes are enough for any.
    ///
    /// # Errors
    /// [`Refusal::NotSound`], [`Refusal::NoNode`], [`Refusal::LineTooShort`].
    pub fn frame(self, tree: Tree, i: u64, line: &mut [u8]) -> Result<&[u8], Refusal> {
        let mut len = 0;
        let number = raw::frame(self.bytes, tree.number(), i, line, &mut len);
        done(number, &line[..len as usize])
    }
}
