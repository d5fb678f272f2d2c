//! The index of an alarm register: two B-trees of 8-byte keys in a pool of bytes that the caller lends.
//!
//! It is verified software. This crate calls the archive of its C functions and adds no behaviour: each call takes any input, and is
//! done or answers with a [`Refusal`], which leaves every lent byte as it was. Nothing is allocated, and nothing is kept between calls
//! but the bytes of the pool; they may be stored, copied, and lent again later. What a listing in portions keeps besides, the start of the next
//! one and whether it has ended, stands in the caller's [`Listing`].
//!
//! A key is a `u64`. It stands for a [`Reference`], a place and a size. Place 0 marks a deletion: such an entry is dead, the others are
//! live. Changes are made in batches of at most `order` keys, which ascend, equal neighbours allowed, and are taken first to last.
//!
//! A call that reads or changes one tree names it, a [`Tree`]. The two have no entry in common, and each has an order and a minimum of its own,
//! [`Limits`]. They share the nodes of the pool: a node that one frees serves either, and a batch on one tree changes nothing of the other but
//! how many nodes are unused for it ([`Refusal::TooFewNodes`]).
//!
//! ```
//! use alarm_index::{pool_len, Direction, Limits, Pool, Reference, Settings, Sift, Tree};
//!
//! # fn main() -> Result<(), alarm_index::Refusal> {
//! // by time in the first tree, by pen in the second
//! let mut bytes = [0; pool_len(16, 4, 8)];
//! let (first, second) = (Limits { order: 4, minimum: 2 }, Limits { order: 8, minimum: 4 });
//! let mut pool = Pool::open(&mut bytes, Settings { nodes: 16, first, second })?;
//! let counts = pool.set(Tree::First, &[1, 2, 5], Reference { place: 256, size: 16 })?;
//! assert_eq!(counts.added, 3);
//! pool.set(Tree::Second, &[7], Reference { place: 256, size: 16 })?;
//!
//! let mut out = [0; 8 * alarm_index::ENTRY_LEN];
//! let scanned = pool.view().scan(Tree::First, 2.., Direction::Up, Sift::All, &mut out)?;
//! assert!(scanned.entries.map(|e| e.key).eq([2, 5]));
//! assert!(!scanned.more);
//! assert_eq!(pool.view().totals(Tree::Second)?.live, 1);
//! # Ok(())
//! # }
//! ```
//!
//! [`View::scan`] lists what fits into one output. Where there may be more, [`Listing`] goes on from portion to portion, whatever changes between
//! them, and [`View::list`] through all entries of a pool that stays as it is.
//!
//! # The archive
//!
//! `link/archive` of the repository writes it, for x86-64; the variable `ALARM_LIB` names it to cargo, by its whole path:
//!
//! ```text
//! ALARM_LIB="$PWD/$(link/archive)" cargo build --manifest-path rust/alarm-index/Cargo.toml
//! ```
//!
//! The archive asks for `memcpy` and `memset`. A call takes at most 16 KB of stack.
#![no_std]
#![deny(missing_docs)]

#[cfg(not(target_pointer_width = "64"))]
compile_error!("the archive's counts have 64 bits");

mod batch;
mod frame;
mod listing;
mod pool;
mod portions;
pub mod raw;
mod refusal;

pub use batch::{Action, Counts, Expectation, Operation, Reference};
pub use frame::{write_interior, write_leaf, Branch, Frame, Rows};
pub use listing::{Direction, Entries, Entry, Got, Portion, Scanned, Sift};
pub use pool::{pool_len, Limits, Pool, Settings, Totals, Tree, View};
pub use portions::{List, Listing};
pub use refusal::Refusal;

/// The bytes of an entry in the output of a listing.
pub const ENTRY_LEN: usize = 24;

/// The most entries of a frame.
pub const FRAME_ENTRIES: usize = 32;

/// The length of the longest line of a frame.
pub const LINE_LEN: usize = 1794;

/// The number of a pool's layout, which its first eight bytes hold.
pub const LAYOUT: u64 = 2;
