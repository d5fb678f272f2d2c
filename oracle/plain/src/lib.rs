//! Document 01, and what document 02 adds to it, in plain Rust: one file to an idea, after the definitions of the same names in crates/model/specs,
//! of packing in crates/model_pack/specs, and of portions in crates/look_portion/specs. `pool` and `sound` say what they become in bytes (docs/POOL.md).
pub mod change;
pub mod forest;
pub mod frame;
pub mod list;
pub mod look;
pub mod pack;
pub mod pool;
pub mod portion;
pub mod read_frame;
pub mod refuse;
pub mod share;
pub mod sound;
pub mod tree;
pub mod types;

pub use types::*;
