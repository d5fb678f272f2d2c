//! The numbered cases of document 01 and the readings, by the linked library where there is one; the stored list of calls; the pool of P.
use oracle::library;
use oracle::lines::Lines;
use oracle::{before, cases, eight, wanted};

/// Each answer is the one that is written out, byte for byte, and that of the plain model and of the third variant.
#[test]
fn the_cases_and_the_readings_hold() {
    let lib = library(false);
    let mut lines = Lines::new(&*lib);
    cases::write(&mut lines);
    let heads = |kind: &str| lines.made().iter().filter(|l| l.starts_with(kind)).count();
    assert_eq!((heads("12 "), heads("13 ")), (14, 53));
}

/// What the gate replays was made from these cases.
#[test]
fn the_stored_list_is_the_one_that_sample_writes() {
    let made = std::process::Command::new(env!("CARGO_BIN_EXE_sample")).args(["3000", "1"]).output().expect("the program runs");
    let stored = std::fs::read(concat!(env!("CARGO_MANIFEST_DIR"), "/../crates/trial_replay/stdin")).expect("the list is there");
    assert!(made.status.success() && made.stdout == stored, "write it anew: sample 3000 1 >crates/trial_replay/stdin");
}

/// docs/POOL.md: P in words, its lengths, and that it is sound.
#[test]
fn the_pool_of_p() {
    let lib = library(false);
    let mut lines = Lines::new(&*lib);
    lines.p();
    let bytes = lines.pool();
    let words: Vec<u64> = (0..bytes.len() / 8).map(|i| plain::pool::word(bytes, i)).collect();
    let child = |slot: u64, live: u64, dead: u64| (slot << 40) + (live << 20) + dead;
    let mut wanted = vec![0; 424];
    wanted[..8].copy_from_slice(&[2, 16, 4, 2, 0, 4, 2, 0]);
    wanted[8..16].copy_from_slice(&[2, 2, 3, child(2, 3, 0), 48, 5, child(3, 2, 0), 32]);
    wanted[34] = 3;
    wanted[60..71].copy_from_slice(&[1, 3, 1, 257, 16, 2, 258, 16, 3, 259, 16]);
    wanted[86..94].copy_from_slice(&[1, 2, 4, 260, 16, 5, 261, 16]);
    assert_eq!(words, wanted);
    assert_eq!(plain::sound::forest_of(bytes).as_ref(), Some(&(wanted::DESK, lines.forest().expect("sound").clone())));
    assert_eq!(plain::pool::length_or_none([16, 4, 2, 4, 2]), 3392);
    assert_eq!(plain::pool::length_or_none([16_384, 32, 16, 4, 1]), 25_428_032);
}

/// P in both trees, in words: the second has kinds of its own, and the slots behind those of the first.
#[test]
fn the_pool_of_p_twice() {
    let lib = library(false);
    let mut lines = Lines::new(&*lib);
    lines.p();
    lines.on(1);
    lines.input();
    let (bytes, words) = (lines.pool(), 26 * 8);
    let slot = |i: usize| bytes[64 + i * words..][..words].to_vec();
    for (second, first, kind) in [(4, 2, 3), (5, 3, 3)] {
        let mut turned = slot(first);
        turned[0] = kind;
        assert_eq!(slot(second), turned);
    }
    let mut root = slot(0);
    // the children's slots stand in the upper bytes of the middle words
    (root[0], root[8 * 3 + 5], root[8 * 6 + 5]) = (4, 4, 5);
    assert_eq!(slot(1), root);
}

/// The pool of P as version 2 of the header made it, of one tree.
#[test]
fn the_pool_of_before() {
    let child = |slot: u64, live: u64| (slot << 40) + (live << 20);
    let mut wanted = vec![0; 420];
    wanted[..4].copy_from_slice(&[1, 16, 4, 2]);
    wanted[4..12].copy_from_slice(&[2, 2, 3, child(1, 3), 48, 5, child(2, 2), 32]);
    wanted[30..41].copy_from_slice(&[1, 3, 1, 257, 16, 2, 258, 16, 3, 259, 16]);
    wanted[56..64].copy_from_slice(&[1, 2, 4, 260, 16, 5, 261, 16]);
    assert_eq!(before::one_tree(&plain::Settings { nodes: 16, order: 4, minimum: 2 }, &wanted::p_of_before()), wanted);
}

/// The eight-node pool is not sound for the shared leaf alone: with the leaf that nobody names in its place each tree has its own.
#[test]
fn the_eight_node_pool() {
    let bytes = |words: Vec<u64>| words.into_iter().flat_map(u64::to_le_bytes).collect::<Vec<u8>>();
    for (second, fifth) in eight::KINDS {
        assert_eq!(plain::sound::forest_of(&bytes(eight::words(second, fifth))), None);
    }
    let mut words = eight::words(1, 3);
    let (child_of_slot_1, slot_2, slot_5) = (8 + 26 + 3, 8 + 2 * 26, 8 + 5 * 26);
    words[child_of_slot_1] += 3 << 40;
    words.copy_within(slot_2 + 1..slot_2 + 26, slot_5 + 1);
    let (ps, f) = plain::sound::forest_of(&bytes(words)).expect("sound");
    assert_eq!((ps, f.unused), (plain::PoolSettings::alike(8, 4, 2), vec![6, 7]));
    assert_eq!(f.roots.map(|root| root.picture()), ["((1 2) (3 4))", "((1 2) (5 6))"]);
}
