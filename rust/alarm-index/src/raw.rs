//! The C functions behind safe calls, as C has them: a call answers 0 where it was done, and else the number of a refusal, and writes
//! what it tells into small buffers, which a refused call leaves as they were. `include/alarm_index.h` says what each does.
//!
//! The rest of the crate is built on these; use them where the numbers themselves are wanted.
use core::ops::Bound;

mod c {
    extern "C" {
        pub fn alarm_pool_len(nodes: u64, order0: u64, minimum0: u64, order1: u64, minimum1: u64) -> u64;
        pub fn alarm_open(pool: *mut u8, pool_n: usize, nodes: u64, order0: u64, minimum0: u64, order1: u64, minimum1: u64) -> u32;
        pub fn alarm_totals(pool: *const u8, pool_n: usize, tree: u64, totals: *mut [u64; 3]) -> u32;
        pub fn alarm_pack(source: *const u8, source_n: usize, target: *mut u8, target_n: usize) -> u32;
        pub fn alarm_set(
            pool: *mut u8,
            pool_n: usize,
            tree: u64,
            keys: *const u64,
            keys_n: usize,
            place: u64,
            size: u32,
            counts: *mut [u64; 4],
        ) -> u32;
        pub fn alarm_set_each(
            pool: *mut u8,
            pool_n: usize,
            tree: u64,
            keys: *const u64,
            keys_n: usize,
            places: *const u64,
            places_n: usize,
            sizes: *const u32,
            sizes_n: usize,
            counts: *mut [u64; 4],
        ) -> u32;
        pub fn alarm_remove(pool: *mut u8, pool_n: usize, tree: u64, keys: *const u64, keys_n: usize, counts: *mut [u64; 4]) -> u32;
        pub fn alarm_compare(
            pool: *mut u8,
            pool_n: usize,
            tree: u64,
            keys: *const u64,
            keys_n: usize,
            holds: bool,
            expected_place: u64,
            expected_size: u32,
            set: bool,
            place: u64,
            size: u32,
            counts: *mut [u64; 4],
        ) -> u32;
        pub fn alarm_get(
            pool: *const u8,
            pool_n: usize,
            tree: u64,
            keys: *const u64,
            keys_n: usize,
            out: *mut u8,
            out_n: usize,
            told: *mut [u64; 2],
        ) -> u32;
        pub fn alarm_scan(
            pool: *const u8,
            pool_n: usize,
            tree: u64,
            start_bounded: bool,
            start_included: bool,
            start: u64,
            end_bounded: bool,
            end_included: bool,
            end: u64,
            down: bool,
            least: u32,
            out: *mut u8,
            out_n: usize,
            told: *mut [u64; 3],
        ) -> u32;
        pub fn alarm_portion(
            pool: *const u8,
            pool_n: usize,
            tree: u64,
            from: *mut [u64; 3],
            end_bounded: bool,
            end_included: bool,
            end: u64,
            least: u32,
            out: *mut u8,
            out_n: usize,
            told: *mut [u64; 4],
        ) -> u32;
        pub fn alarm_frame(pool: *const u8, pool_n: usize, tree: u64, i: u64, line: *mut u8, line_n: usize, len: *mut u64) -> u32;
        pub fn alarm_read_frame(
            line: *const u8,
            line_n: usize,
            head: *mut [u64; 2],
            keys: *mut [u64; 32],
            wide: *mut [u64; 32],
            narrow: *mut [u32; 32],
            live: *mut [u32; 32],
            dead: *mut [u32; 32],
        ) -> u32;
        pub fn alarm_write_leaf(
            count: u64,
            keys: *const [u64; 32],
            places: *const [u64; 32],
            sizes: *const [u32; 32],
            line: *mut u8,
            line_n: usize,
            len: *mut u64,
        ) -> u32;
        pub fn alarm_write_interior(
            count: u64,
            keys: *const [u64; 32],
            children: *const [u32; 32],
            live: *const [u32; 32],
            dead: *const [u32; 32],
            sums: *const [u64; 32],
            line: *mut u8,
            line_n: usize,
            len: *mut u64,
        ) -> u32;
    }
}

// SAFETY, of every call below: the pointers are of slices and arrays that live through the call, with their own counts, and Rust's
// references see to it that what is written overlaps nothing else. The functions keep none of them.

/// The exact length of a pool, in bytes; 0 where a setting is wrong.
#[must_use]
pub fn pool_len(nodes: u64, order0: u64, minimum0: u64, order1: u64, minimum1: u64) -> u64 {
    unsafe { c::alarm_pool_len(nodes, order0, minimum0, order1, minimum1) }
}

/// Makes the pool two empty leaves, one of each tree, whatever it held. Refused as 1.
#[must_use]
pub fn open(pool: &mut [u8], nodes: u64, order0: u64, minimum0: u64, order1: u64, minimum1: u64) -> u32 {
    unsafe { c::alarm_open(pool.as_mut_ptr(), pool.len(), nodes, order0, minimum0, order1, minimum1) }
}

/// Totals: live entries, dead entries, the sum of the sizes of the live ones. A tree, in each call that names one, is 0 or 1. Refused as 2,
/// 19.
#[must_use]
pub fn totals(pool: &[u8], tree: u64, totals: &mut [u64; 3]) -> u32 {
    unsafe { c::alarm_totals(pool.as_ptr(), pool.len(), tree, totals) }
}

/// Copies both trees of the source into the target, a new pool of its orders and minimums: each level as few nodes as can be, every one of them
/// full but the last. Refused as 2, 17, 18, 7.
#[must_use]
pub fn pack(source: &[u8], target: &mut [u8]) -> u32 {
    unsafe { c::alarm_pack(source.as_ptr(), source.len(), target.as_mut_ptr(), target.len()) }
}

/// Sets every key to one reference. Counts, of each batch: keys that added, replaced, removed, did nothing. Refused as 2, 19, 3, 5,
/// 6, 7.
#[must_use]
pub fn set(pool: &mut [u8], tree: u64, keys: &[u64], place: u64, size: u32, counts: &mut [u64; 4]) -> u32 {
    unsafe { c::alarm_set(pool.as_mut_ptr(), pool.len(), tree, keys.as_ptr(), keys.len(), place, size, counts) }
}

/// Sets each key to its own reference. Refused as 2, 19, 3 to 7.
#[must_use]
pub fn set_each(pool: &mut [u8], tree: u64, keys: &[u64], places: &[u64], sizes: &[u32], counts: &mut [u64; 4]) -> u32 {
    let (pool_n, keys_n, places_n, sizes_n) = (pool.len(), keys.len(), places.len(), sizes.len());
    let (keys, places, sizes) = (keys.as_ptr(), places.as_ptr(), sizes.as_ptr());
    unsafe { c::alarm_set_each(pool.as_mut_ptr(), pool_n, tree, keys, keys_n, places, places_n, sizes, sizes_n, counts) }
}

/// Removes every key that is present. Refused as 2, 19, 3, 5.
#[must_use]
pub fn remove(pool: &mut [u8], tree: u64, keys: &[u64], counts: &mut [u64; 4]) -> u32 {
    unsafe { c::alarm_remove(pool.as_mut_ptr(), pool.len(), tree, keys.as_ptr(), keys.len(), counts) }
}

/// For every key that is as expected: sets it to a place and a size, or removes it where there is no action. Expected is a place and a
/// size, or, where there are none, that the key is absent. Refused as 2, 19, 3, 5, 6, 7.
#[must_use]
pub fn compare(
    pool: &mut [u8],
    tree: u64,
    keys: &[u64],
    expected: Option<(u64, u32)>,
    action: Option<(u64, u32)>,
    counts: &mut [u64; 4],
) -> u32 {
    let (pool_n, keys_n, keys) = (pool.len(), keys.len(), keys.as_ptr());
    let (holds, (old_place, old_size)) = (expected.is_some(), expected.unwrap_or_default());
    let (sets, (place, size)) = (action.is_some(), action.unwrap_or_default());
    unsafe { c::alarm_compare(pool.as_mut_ptr(), pool_n, tree, keys, keys_n, holds, old_place, old_size, sets, place, size, counts) }
}

/// Lists one entry for each key that is present. Told: entries written, and 1 where another was due. Refused as 2, 19, 5.
#[must_use]
pub fn get(pool: &[u8], tree: u64, keys: &[u64], out: &mut [u8], told: &mut [u64; 2]) -> u32 {
    unsafe { c::alarm_get(pool.as_ptr(), pool.len(), tree, keys.as_ptr(), keys.len(), out.as_mut_ptr(), out.len(), told) }
}

/// Lists the live entries in a range whose size is `least` or more. Told: entries written, 1 where another was due, and nodes opened.
/// Refused as 2, 19.
#[must_use]
#[allow(clippy::too_many_arguments)] // as C has them, but for the bounds
pub fn scan(
    pool: &[u8],
    tree: u64,
    start: Bound<u64>,
    end: Bound<u64>,
    down: bool,
    least: u32,
    out: &mut [u8],
    told: &mut [u64; 3],
) -> u32 {
    let ((start_bounded, start_included, start), (end_bounded, end_included, end)) = (flags(start), flags(end));
    unsafe {
        c::alarm_scan(
            pool.as_ptr(),
            pool.len(),
            tree,
            start_bounded,
            start_included,
            start,
            end_bounded,
            end_included,
            end,
            down,
            least,
            out.as_mut_ptr(),
            out.len(),
            told,
        )
    }
}

/// Lists a portion, upwards, as [`scan`] does. From: whether its start is bounded, whether it is included, each of them where it is not 0,
/// and the key; afterwards the start of the next portion, or as it was where no entry was written. Told: entries written, 1 where another was
/// due, nodes opened, and 1 where the listing has ended. Refused as 2, 19.
#[must_use]
pub fn portion(pool: &[u8], tree: u64, from: &mut [u64; 3], end: Bound<u64>, least: u32, out: &mut [u8], told: &mut [u64; 4]) -> u32 {
    let (pool_n, out_n, (bounded, included, end)) = (pool.len(), out.len(), flags(end));
    unsafe { c::alarm_portion(pool.as_ptr(), pool_n, tree, from, bounded, included, end, least, out.as_mut_ptr(), out_n, told) }
}

/// A bound as C has it: bounded, included, and the key.
fn flags(bound: Bound<u64>) -> (bool, bool, u64) {
    match bound {
        Bound::Unbounded => (false, false, 0),
        Bound::Included(key) => (true, true, key),
        Bound::Excluded(key) => (true, false, key),
    }
}

/// The start of a portion as [`portion`] takes it.
pub(crate) fn words(start: Bound<u64>) -> [u64; 3] {
    let (bounded, included, key) = flags(start);
    [bounded.into(), included.into(), key]
}

/// The start of a portion as [`portion`] has left it.
pub(crate) fn bound([bounded, included, key]: [u64; 3]) -> Bound<u64> {
    match (bounded, included) {
        (0, _) => Bound::Unbounded,
        (_, 0) => Bound::Excluded(key),
        _ => Bound::Included(key),
    }
}

/// Writes the i-th node of the tree's preorder walk as a line. Refused as 2, 19, 14, 16.
#[must_use]
pub fn frame(pool: &[u8], tree: u64, i: u64, line: &mut [u8], len: &mut u64) -> u32 {
    unsafe { c::alarm_frame(pool.as_ptr(), pool.len(), tree, i, line.as_mut_ptr(), line.len(), len) }
}

/// Reads a line. Head: 1 for a leaf or 0 for an interior, and how many entries. Wide: places, or size sums. Narrow: sizes, or child
/// numbers. Every place past the entries is 0. Refused as 8 to 13.
#[must_use]
pub fn read_frame(
    line: &[u8],
    head: &mut [u64; 2],
    keys: &mut [u64; 32],
    wide: &mut [u64; 32],
    narrow: &mut [u32; 32],
    live: &mut [u32; 32],
    dead: &mut [u32; 32],
) -> u32 {
    unsafe { c::alarm_read_frame(line.as_ptr(), line.len(), head, keys, wide, narrow, live, dead) }
}

/// Writes a leaf of the first `count` entries as a line. Refused as 11, 12, 16.
#[must_use]
pub fn write_leaf(count: u64, keys: &[u64; 32], places: &[u64; 32], sizes: &[u32; 32], line: &mut [u8], len: &mut u64) -> u32 {
    unsafe { c::alarm_write_leaf(count, keys, places, sizes, line.as_mut_ptr(), line.len(), len) }
}

/// Writes an interior of the first `count` entries as a line. Refused as 11, 12, 16.
#[must_use]
#[allow(clippy::too_many_arguments)] // as C has them
pub fn write_interior(
    count: u64,
    keys: &[u64; 32],
    children: &[u32; 32],
    live: &[u32; 32],
    dead: &[u32; 32],
    sums: &[u64; 32],
    line: &mut [u8],
    len: &mut u64,
) -> u32 {
    unsafe { c::alarm_write_interior(count, keys, children, live, dead, sums, line.as_mut_ptr(), line.len(), len) }
}
