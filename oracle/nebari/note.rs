//! Notes of where an edit could matter, so that a difference can be laid to its cause.
use std::cell::Cell;

thread_local! {
    static UNEQUAL: Cell<u64> = Cell::new(0);
    static ABSORBED: Cell<u64> = Cell::new(0);
}

/// Two amounts of which the Rust takes the larger.
pub fn amounts(free: usize, eligible: usize) {
    if free != eligible {
        UNEQUAL.with(|n| n.set(n.get() + 1));
    }
}

/// `process_absorb` was entered.
pub fn absorbed() {
    ABSORBED.with(|n| n.set(n.get() + 1));
}

/// How often the two amounts differed, and how often a node was absorbed, since the last call.
pub fn take() -> (u64, u64) {
    (UNEQUAL.with(|n| n.replace(0)), ABSORBED.with(|n| n.replace(0)))
}
