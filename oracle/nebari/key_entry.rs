//! An entry of a leaf, and its bytes: the widths are document 01's, eight of key and then the reference.
use super::{serialization::BinarySerialization, PagedWriter};
use crate::{io::File, vault::AnyVault, ArcBytes, Error};
use std::{collections::HashMap, io::Read};

pub trait ValueIndex {
    fn position(&self) -> u64;
}

#[derive(Clone, Debug)]
pub struct KeyEntry<I> {
    pub key: ArcBytes<'static>,
    pub index: I,
}

impl<I> KeyEntry<I> {
    pub fn copy_data_to<C>(
        &mut self,
        file: &mut dyn File,
        copied: &mut HashMap<u64, u64>,
        writer: &mut PagedWriter<'_>,
        vault: Option<&dyn AnyVault>,
        callback: &mut C,
    ) -> Result<bool, Error>
    where
        C: FnMut(
            &ArcBytes<'static>,
            &mut I,
            &mut dyn File,
            &mut HashMap<u64, u64>,
            &mut PagedWriter<'_>,
            Option<&dyn AnyVault>,
        ) -> Result<bool, Error>,
    {
        callback(&self.key, &mut self.index, file, copied, writer, vault)
    }
}

impl<I: BinarySerialization> BinarySerialization for KeyEntry<I> {
    fn serialize_to(&mut self, writer: &mut Vec<u8>, pw: &mut PagedWriter<'_>) -> Result<usize, Error> {
        writer.extend_from_slice(&self.key);
        Ok(8 + self.index.serialize_to(writer, pw)?)
    }
    fn deserialize_from(reader: &mut ArcBytes<'_>, order: Option<usize>) -> Result<Self, Error> {
        let mut key = [0; 8];
        reader.read_exact(&mut key)?;
        Ok(Self { key: ArcBytes::owned(&key), index: I::deserialize_from(reader, order)? })
    }
}
