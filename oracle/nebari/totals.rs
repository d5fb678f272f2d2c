//! Document 01's reference (the module's `Index`) and totals (its `Reducer`), with their bytes. Since A3 of document 02 a size sum counts live entries
//! alone.
use super::btree_entry::Reducer;
use super::{key_entry::ValueIndex, serialization::BinarySerialization, PagedWriter};
use crate::{ArcBytes, Error};
use std::io::Read;

#[derive(Clone, Copy, Debug, PartialEq, Eq)]
pub struct Index {
    pub place: u64,
    pub size: u32,
}

impl ValueIndex for Index {
    fn position(&self) -> u64 {
        self.place
    }
}

impl BinarySerialization for Index {
    fn serialize_to(&mut self, w: &mut Vec<u8>, _: &mut PagedWriter<'_>) -> Result<usize, Error> {
        w.extend_from_slice(&self.place.to_be_bytes());
        w.extend_from_slice(&self.size.to_be_bytes());
        Ok(12)
    }
    fn deserialize_from(r: &mut ArcBytes<'_>, _: Option<usize>) -> Result<Self, Error> {
        let (mut p, mut s) = ([0; 8], [0; 4]);
        r.read_exact(&mut p)?;
        r.read_exact(&mut s)?;
        Ok(Index { place: u64::from_be_bytes(p), size: u32::from_be_bytes(s) })
    }
}

#[derive(Clone, Copy, Debug, PartialEq, Eq, Default)]
pub struct Stats {
    pub live: u32,
    pub dead: u32,
    pub size: u64,
}

impl BinarySerialization for Stats {
    fn serialize_to(&mut self, w: &mut Vec<u8>, _: &mut PagedWriter<'_>) -> Result<usize, Error> {
        w.extend_from_slice(&self.live.to_be_bytes());
        w.extend_from_slice(&self.dead.to_be_bytes());
        w.extend_from_slice(&self.size.to_be_bytes());
        Ok(16)
    }
    fn deserialize_from(r: &mut ArcBytes<'_>, _: Option<usize>) -> Result<Self, Error> {
        let (mut l, mut d, mut s) = ([0; 4], [0; 4], [0; 8]);
        r.read_exact(&mut l)?;
        r.read_exact(&mut d)?;
        r.read_exact(&mut s)?;
        Ok(Stats { live: u32::from_be_bytes(l), dead: u32::from_be_bytes(d), size: u64::from_be_bytes(s) })
    }
}

impl Reducer<Index> for Stats {
    fn reduce<'a, Indexes, IndexesIter>(indexes: Indexes) -> Self
    where
        Index: 'a,
        Indexes: IntoIterator<Item = &'a Index, IntoIter = IndexesIter> + ExactSizeIterator,
        IndexesIter: Iterator<Item = &'a Index> + ExactSizeIterator + Clone,
    {
        let mut s = Stats::default();
        for i in indexes {
            if i.place == 0 {
                s.dead += 1
            } else {
                s.live += 1;
                s.size += u64::from(i.size);
            }
        }
        s
    }

    fn rereduce<'a, ReducedIndexes, ReducedIndexesIter>(values: ReducedIndexes) -> Self
    where
        Self: 'a,
        ReducedIndexes: IntoIterator<Item = &'a Self, IntoIter = ReducedIndexesIter> + ExactSizeIterator,
        ReducedIndexesIter: Iterator<Item = &'a Self> + ExactSizeIterator + Clone,
    {
        let mut s = Stats::default();
        for v in values {
            s.live += v.live;
            s.dead += v.dead;
            s.size += v.size;
        }
        s
    }
}
