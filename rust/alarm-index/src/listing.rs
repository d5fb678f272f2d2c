//! What a get, a scan and a portion list.
use crate::{Reference, ENTRY_LEN};
use core::iter::FusedIterator;
use core::ops::Bound;

/// An entry of the index.
#[derive(Clone, Copy, Debug, Default, PartialEq, Eq, Hash)]
pub struct Entry {
    /// The key.
    pub key: u64,
    /// Where the alarm is kept; 0 in a dead entry.
    pub place: u64,
    /// How large it is there.
    pub size: u32,
}

impl Entry {
    /// What the key stands for.
    #[must_use]
    pub const fn reference(self) -> Reference {
        Reference { place: self.place, size: self.size }
    }

    /// Whether it is no mark of a deletion.
    #[must_use]
    pub const fn is_live(self) -> bool {
        self.place != 0
    }

    /// The first entry as it is written in an output: key, place, size, each eight bytes little-endian.
    pub(crate) fn read(bytes: &[u8]) -> Entry {
        let word = |i: usize| bytes[8 * i..8 * i + 8].iter().rev().fold(0, |n, &b| n << 8 | u64::from(b));
        Entry { key: word(0), place: word(1), size: word(2) as u32 }
    }
}

/// The entries that a call has written into the output it was lent, in their order.
#[derive(Clone, Debug)]
pub struct Entries<'o> {
    written: core::slice::ChunksExact<'o, u8>,
}

impl<'o> Entries<'o> {
    /// The first `count` entries of an output.
    pub(crate) fn new(out: &'o [u8], count: u64) -> Entries<'o> {
        Entries { written: out[..count as usize * ENTRY_LEN].chunks_exact(ENTRY_LEN) }
    }
}

impl Iterator for Entries<'_> {
    type Item = Entry;

    fn next(&mut self) -> Option<Entry> {
        self.written.next().map(Entry::read)
    }

    fn size_hint(&self) -> (usize, Option<usize>) {
        self.written.size_hint()
    }

    fn nth(&mut self, n: usize) -> Option<Entry> {
        self.written.nth(n).map(Entry::read)
    }
}

impl DoubleEndedIterator for Entries<'_> {
    fn next_back(&mut self) -> Option<Entry> {
        self.written.next_back().map(Entry::read)
    }
}

impl ExactSizeIterator for Entries<'_> {}
impl FusedIterator for Entries<'_> {}

/// What a get has listed.
#[derive(Clone, Debug)]
pub struct Got<'o> {
    /// The first that fitted whole.
    pub entries: Entries<'o>,
    /// Whether another was due.
    pub more: bool,
}

/// What a scan has listed.
#[derive(Clone, Debug)]
pub struct Scanned<'o> {
    /// The first that fitted whole.
    pub entries: Entries<'o>,
    /// Whether another was due.
    pub more: bool,
    /// How many nodes were opened.
    pub opened: u64,
}

/// What a portion has listed, and where the next one starts.
#[derive(Clone, Debug)]
pub struct Portion<'o> {
    /// The first that fitted whole, the smallest key first.
    pub entries: Entries<'o>,
    /// Whether another was due.
    pub more: bool,
    /// How many nodes were opened.
    pub opened: u64,
    /// Where the next portion starts: behind the last entry, or where this one did if it has none.
    pub next: Bound<u64>,
    /// Whether the listing ends with it: there was room for an entry, and no other was due.
    pub ended: bool,
}

/// Which way a scan goes.
#[derive(Clone, Copy, Debug, Default, PartialEq, Eq)]
pub enum Direction {
    /// The smallest key first.
    #[default]
    Up,
    /// The greatest key first.
    Down,
}

/// Which live entries in its range a scan lists.
#[derive(Clone, Copy, Debug, Default, PartialEq, Eq)]
pub enum Sift {
    /// All of them.
    #[default]
    All,
    /// Those of this size or larger.
    SizeAtLeast(u32),
}

impl Sift {
    /// The smallest size that is listed.
    pub(crate) fn least(self) -> u32 {
        match self {
            Sift::All => 0,
            Sift::SizeAtLeast(size) => size,
        }
    }
}
