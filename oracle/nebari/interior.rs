//! An entry of an interior node: its child is always in memory. `number` is the child number that a frame shows.
use super::btree_entry::{BTreeEntry, NodeInclusion, Reducer};
use super::{key_entry::ValueIndex, serialization::BinarySerialization, PagedWriter};
use crate::{error::AbortError, io::File, vault::AnyVault, ArcBytes, ChunkCache, Error};
use std::collections::HashMap;
use std::fmt::{Debug, Display};
use std::io::Read;

#[derive(Clone, Debug)]
pub struct Pointer<I, R> {
    pub number: u32,
    pub entry: Option<Box<BTreeEntry<I, R>>>,
}

impl<I, R> Pointer<I, R> {
    pub fn load(
        &mut self,
        _file: &mut dyn File,
        _validate: bool,
        _vault: Option<&dyn AnyVault>,
        _cache: Option<&ChunkCache>,
        _order: Option<usize>,
    ) -> Result<(), Error> {
        Ok(())
    }
    pub fn get(&self) -> Option<&BTreeEntry<I, R>> {
        self.entry.as_deref()
    }
    pub fn get_mut(&mut self) -> Option<&mut BTreeEntry<I, R>> {
        self.entry.as_deref_mut()
    }
    pub fn map_loaded_entry<O, E: Display + Debug, C>(
        &self,
        file: &mut dyn File,
        _vault: Option<&dyn AnyVault>,
        _cache: Option<&ChunkCache>,
        _order: Option<usize>,
        callback: C,
    ) -> Result<O, AbortError<E>>
    where
        C: FnOnce(&BTreeEntry<I, R>, &mut dyn File) -> Result<O, AbortError<E>>,
    {
        callback(self.get().unwrap(), file)
    }
}

#[derive(Clone, Debug)]
pub struct Interior<I, R> {
    pub key: ArcBytes<'static>,
    pub position: Pointer<I, R>,
    pub stats: R,
}

impl<I, R> From<BTreeEntry<I, R>> for Interior<I, R>
where
    I: ValueIndex + Clone + BinarySerialization + Debug + 'static,
    R: Clone + Reducer<I> + BinarySerialization + Debug + 'static,
{
    fn from(entry: BTreeEntry<I, R>) -> Self {
        Self { key: entry.max_key().clone(), stats: entry.stats(), position: Pointer { number: 0, entry: Some(Box::new(entry)) } }
    }
}

impl<I, R> Interior<I, R> {
    pub fn copy_data_to<C>(
        &mut self,
        _include: NodeInclusion,
        _file: &mut dyn File,
        _copied: &mut HashMap<u64, u64>,
        _writer: &mut PagedWriter<'_>,
        _vault: Option<&dyn AnyVault>,
        _scratch: &mut Vec<u8>,
        _callback: &mut C,
    ) -> Result<bool, Error> {
        unimplemented!("out of document 01's scope")
    }
}

impl<I, R: BinarySerialization> BinarySerialization for Interior<I, R> {
    fn serialize_to(&mut self, writer: &mut Vec<u8>, pw: &mut PagedWriter<'_>) -> Result<usize, Error> {
        writer.extend_from_slice(&self.key);
        writer.extend_from_slice(&self.position.number.to_be_bytes());
        Ok(12 + self.stats.serialize_to(writer, pw)?)
    }
    fn deserialize_from(reader: &mut ArcBytes<'_>, order: Option<usize>) -> Result<Self, Error> {
        let (mut key, mut number) = ([0; 8], [0; 4]);
        reader.read_exact(&mut key)?;
        reader.read_exact(&mut number)?;
        Ok(Self {
            key: ArcBytes::owned(&key),
            position: Pointer { number: u32::from_be_bytes(number), entry: None },
            stats: R::deserialize_from(reader, order)?,
        })
    }
}
