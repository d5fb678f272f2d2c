//! What the module imports and a tree in memory does not need: files, vaults, caches; and two calls of the crate byteorder.

pub mod io {
    pub trait File {}
    pub struct NoFile;
    impl File for NoFile {}
}

pub mod vault {
    pub trait AnyVault {}
}

pub mod chunk_cache {
    pub struct ChunkCache;
    pub enum CacheEntry {
        ArcBytes(crate::ArcBytes<'static>),
        Decoded(()),
    }
}
pub use chunk_cache::ChunkCache;

pub trait ReadBytesExt: std::io::Read {
    fn read_u8(&mut self) -> std::io::Result<u8> {
        let mut b = [0u8];
        self.read_exact(&mut b)?;
        Ok(b[0])
    }
}
impl<R: std::io::Read + ?Sized> ReadBytesExt for R {}

pub trait WriteBytesExt: std::io::Write {
    fn write_u8(&mut self, n: u8) -> std::io::Result<()> {
        self.write_all(&[n])
    }
}
impl<W: std::io::Write + ?Sized> WriteBytesExt for W {}
