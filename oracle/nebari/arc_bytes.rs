//! Shared bytes with a read position, for nebari's crate arc-bytes.
use std::{cmp::Ordering, io, marker::PhantomData, ops::Deref, rc::Rc};

#[derive(Clone, Debug, Default)]
pub struct ArcBytes<'a> {
    data: Rc<[u8]>,
    at: usize,
    life: PhantomData<&'a ()>,
}

impl<'a> ArcBytes<'a> {
    pub fn owned(data: &[u8]) -> ArcBytes<'a> {
        ArcBytes { data: data.into(), at: 0, life: PhantomData }
    }
    pub fn as_slice(&self) -> &[u8] {
        &self.data[self.at..]
    }
    pub fn into_owned(self) -> ArcBytes<'static> {
        ArcBytes { data: self.data, at: self.at, life: PhantomData }
    }
}

impl Deref for ArcBytes<'_> {
    type Target = [u8];
    fn deref(&self) -> &[u8] {
        self.as_slice()
    }
}

impl PartialEq for ArcBytes<'_> {
    fn eq(&self, o: &Self) -> bool {
        self.as_slice() == o.as_slice()
    }
}
impl Eq for ArcBytes<'_> {}
impl PartialOrd for ArcBytes<'_> {
    fn partial_cmp(&self, o: &Self) -> Option<Ordering> {
        Some(self.cmp(o))
    }
}
impl Ord for ArcBytes<'_> {
    fn cmp(&self, o: &Self) -> Ordering {
        self.as_slice().cmp(o.as_slice())
    }
}
impl PartialEq<[u8]> for ArcBytes<'_> {
    fn eq(&self, o: &[u8]) -> bool {
        self.as_slice() == o
    }
}
impl PartialOrd<[u8]> for ArcBytes<'_> {
    fn partial_cmp(&self, o: &[u8]) -> Option<Ordering> {
        Some(self.as_slice().cmp(o))
    }
}
impl<'b> PartialEq<&'b [u8]> for ArcBytes<'_> {
    fn eq(&self, o: &&'b [u8]) -> bool {
        self.as_slice() == *o
    }
}
impl<'b> PartialOrd<&'b [u8]> for ArcBytes<'_> {
    fn partial_cmp(&self, o: &&'b [u8]) -> Option<Ordering> {
        Some(self.as_slice().cmp(*o))
    }
}

impl io::Read for ArcBytes<'_> {
    fn read(&mut self, b: &mut [u8]) -> io::Result<usize> {
        let n = b.len().min(self.as_slice().len());
        b[..n].copy_from_slice(&self.as_slice()[..n]);
        self.at += n;
        Ok(n)
    }
}
