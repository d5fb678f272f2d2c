//! The module's own surroundings in nebari's `tree`, as far as it asks for them.
use crate::{chunk_cache::CacheEntry, io::File, vault::AnyVault, ArcBytes, ChunkCache, Error};

#[path = "../around.rs"]
pub mod around;
#[path = "../btree_entry.rs"]
#[rustfmt::skip]
pub mod btree_entry;
#[path = "../interior.rs"]
pub mod interior;
#[path = "../joining.rs"]
mod joining;
#[path = "../key_entry.rs"]
pub mod key_entry;
#[path = "../totals.rs"]
pub mod totals;

pub struct PagedWriter<'a> {
    pub file: &'a mut dyn File,
    pub vault: Option<&'a dyn AnyVault>,
    pub cache: Option<&'a ChunkCache>,
}

#[derive(Clone, Copy, Debug, PartialEq, Eq)]
pub enum ScanEvaluation {
    ReadData,
    Skip,
    Stop,
}

pub fn read_chunk(
    _position: u64,
    _validate: bool,
    _file: &mut dyn File,
    _vault: Option<&dyn AnyVault>,
    _cache: Option<&ChunkCache>,
) -> Result<CacheEntry, Error> {
    Ok(CacheEntry::ArcBytes(ArcBytes::default()))
}

pub struct KeyRange<'k, I: Iterator<Item = &'k [u8]>> {
    rest: I,
    current: Option<&'k [u8]>,
}
impl<'k, I: Iterator<Item = &'k [u8]>> KeyRange<'k, I> {
    pub fn new(mut keys: I) -> Self {
        Self { current: keys.next(), rest: keys }
    }
    pub fn current_key(&self) -> Option<&'k [u8]> {
        self.current
    }
}
impl<'k, I: Iterator<Item = &'k [u8]>> Iterator for KeyRange<'k, I> {
    type Item = &'k [u8];
    fn next(&mut self) -> Option<&'k [u8]> {
        let k = self.current;
        self.current = self.rest.next();
        k
    }
}

pub mod serialization {
    use super::PagedWriter;
    use crate::{ArcBytes, Error};
    pub trait BinarySerialization: Sized {
        fn serialize_to(&mut self, writer: &mut Vec<u8>, paged_writer: &mut PagedWriter<'_>) -> Result<usize, Error>;
        fn deserialize_from(reader: &mut ArcBytes<'_>, current_order: Option<usize>) -> Result<Self, Error>;
    }
}

pub mod modify {
    use super::btree_entry::KeyOperation;
    use crate::ArcBytes;
    pub struct Modification<'a, T> {
        pub keys: Vec<ArcBytes<'a>>,
        pub operation: Operation<'a, T>,
    }
    pub enum Operation<'a, T> {
        Set(T),
        SetEach(Vec<T>),
        Remove,
        CompareSwap(Box<dyn FnMut(&ArcBytes<'_>, Option<T>) -> KeyOperation<T> + 'a>),
    }
}

pub mod versioned {
    use super::{interior::Interior, key_entry::KeyEntry};
    #[derive(Clone, Copy, Debug, PartialEq, Eq)]
    pub enum ChangeResult {
        Unchanged,
        Remove,
        Absorb,
        Changed,
        Split,
    }
    pub enum Children<I, R> {
        Leaves(Vec<KeyEntry<I>>),
        Interiors(Vec<Interior<I, R>>),
    }
}
