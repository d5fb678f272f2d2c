//! The eight-node pool: two trees of order 4, each sound for itself, that share a leaf, while a leaf that nobody names keeps the numbers even. Six nodes
//! are opened from the roots and six slots are in use, so that counting alone would pass it.

/// Its words, with these kinds in slots 2 and 5. Slot 0 is an interior of tree 0 over slots 2 (keys 1 and 2) and 3 (3 and 4), slot 1 an interior
/// of tree 1 over slots 2 and 4 (5 and 6); nobody names slot 5 (7 and 8).
pub fn words(second: u64, fifth: u64) -> Vec<u64> {
    let mut words = vec![0; 8 + 8 * 26];
    words[..8].copy_from_slice(&[2, 8, 4, 2, 0, 4, 2, 0]);
    let mut put = |slot: usize, slot_words: &[u64]| words[8 + 26 * slot..][..slot_words.len()].copy_from_slice(slot_words);
    put(0, &[&[2, 2][..], &branch(2, 2), &branch(4, 3)].concat());
    put(1, &[&[4, 2][..], &branch(2, 2), &branch(6, 4)].concat());
    for (slot, kind, key) in [(2, second, 1), (3, 1, 3), (4, 3, 5), (5, fifth, 7)] {
        put(slot, &[&[kind, 2][..], &entry(key), &entry(key + 1)].concat());
    }
    words
}

/// The ways in which slots 2 and 5 may be leaves of either tree.
pub const KINDS: [(u64, u64); 4] = [(1, 1), (1, 3), (3, 1), (3, 3)];

fn entry(key: u64) -> [u64; 3] {
    [key, 256 + key, 16]
}

/// A leaf of two live entries up to this key, in a slot.
fn branch(key: u64, slot: u64) -> [u64; 3] {
    [key, (slot << 40) + (2 << 20), 32]
}
