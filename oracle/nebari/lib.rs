//! nebari's btree_entry.rs with what it imports, cut down to memory, and document 01's parts around it (around.rs).
//! Three packages are built from this source: v1 as published, v2 with the three lines corrected, v3 with 01's joining as well.
#![allow(dead_code, unused_variables, unused_imports, clippy::all)]

// The module asks for the crate byteorder: its two calls stand in stand_in.rs.
extern crate self as byteorder;

mod arc_bytes;
pub mod error;
pub mod note;
mod stand_in;
pub mod tree;

pub use arc_bytes::ArcBytes;
pub use error::{AbortError, Error, ErrorKind};
pub use stand_in::{chunk_cache, io, vault, ChunkCache, ReadBytesExt, WriteBytesExt};
pub use tree::around::Tree;

#[derive(Clone, Copy, Debug, PartialEq, Eq)]
pub enum Variant {
    Published,
    Corrected,
    Joining,
}

impl Variant {
    /// The three lines are corrected: EDIT 1, 2 and 3.
    pub const fn corrected(self) -> bool {
        matches!(self, Variant::Corrected | Variant::Joining)
    }
    /// Joining is document 01's: EDIT 4.
    pub const fn joins_by_01(self) -> bool {
        matches!(self, Variant::Joining)
    }
}

#[cfg(feature = "variant_1")]
pub const VARIANT: Variant = Variant::Published;
#[cfg(feature = "variant_2")]
pub const VARIANT: Variant = Variant::Corrected;
#[cfg(feature = "variant_3")]
pub const VARIANT: Variant = Variant::Joining;
