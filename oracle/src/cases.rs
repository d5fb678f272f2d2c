//! The numbered cases of document 01, in its order, and the readings of what it and document 02 leave open, whose reasons are in
//! docs/DECISIONS.md: as lines that crates/trial_replay replays. What is wanted is written out here, and every answer is held to it as its line
//! is made.
use crate::lines::Lines;
use crate::script::Cursor;
use crate::wanted::{deepest, down, entry, grove, p_of_before, set, two_groves, up, DESK, FROM_3, WHOLE};
use crate::{before, eight};
use plain::Bound::{Excluded, Included, Unbounded};
use plain::{Action, Call, Entry, Expectation, Limits, PoolSettings, Request, Settings};

pub const CASES: [fn(&mut Lines); 14] =
    [case_1, case_2, case_3, case_4, case_5, case_6, case_7, case_8, case_9, case_10, case_11, case_12, case_13, case_14];

pub const READINGS: [fn(&mut Lines); 53] = [
    slots_of_p,
    compare_removes,
    dead_entry,
    start_above_end,
    output_full,
    steps_back,
    previous_first,
    joined_and_halved,
    collapses_twice,
    equal_reference,
    joined_in_a_batch,
    below_minimum,
    frames_read_back,
    zeros_behind,
    depth_8,
    excluded_end,
    size_at_least,
    packs_p,
    packed_and_set,
    emptied_is_new,
    just_as_large,
    first_of_three,
    nothing_to_pack,
    packed_twice,
    worn_is_packed,
    unsound_first,
    dead_ones_packed,
    dead_sizes_are_free,
    old_sums,
    no_such_tree,
    the_other_stays,
    order_of_its_own,
    depth_of_its_own,
    unused_of_the_pool,
    freed_by_the_other,
    six_unused,
    roots_stay,
    both_are_packed,
    either_differs,
    kinds_of_the_other,
    zero_words,
    eight_nodes,
    one_tree,
    just_filled_ends,
    room_left_ends,
    no_room,
    greatest_key,
    below_and_above,
    cursor_removed,
    after_the_end,
    beside_the_other,
    range_and_sift,
    portion_refused,
];

pub fn write(lines: &mut Lines) {
    for (n, case) in (1..).zip(CASES) {
        lines.case(n);
        case(lines);
    }
    for (n, reading) in (1..).zip(READINGS) {
        lines.reading(n);
        reading(lines);
    }
}

// THE NUMBERED CASES (order 4, minimum 2; P = the pool after the program's input), all of tree 0

/// 1. New pool: one frame, `01`.
fn case_1(l: &mut Lines) {
    l.new_pool(16);
    l.frames_are(&["01"]);
}

/// 2. P is leaves 1,2,3 and 4,5.
fn case_2(l: &mut Lines) {
    l.p();
    l.tree_is(&[2], &[&[1, 2, 3], &[4, 5]]);
    l.frames_are(&FRAMES_OF_P);
}

/// As the page prints them.
const FRAMES_OF_P: [&str; 3] = [
    "000000000000000003000000010000000300000000000000000000003000000000000000050000000200000002000000000000000000000020",
    "01000000000000000100000000000001010000001000000000000000020000000000000102000000100000000000000003000000000000010300000010",
    "0100000000000000040000000000000104000000100000000000000005000000000000010500000010",
];

/// 3. P with 6, 7, 8 set one by one: 1-4 and 5-8.
fn case_3(l: &mut Lines) {
    l.p();
    l.one_by_one(6..=8);
    l.tree_is(&[2], &[&[1, 2, 3, 4], &[5, 6, 7, 8]]);
}

/// 4. Then 9: 1-4, 5-7, 8-9.
fn case_4(l: &mut Lines) {
    l.p();
    l.one_by_one(6..=9);
    l.tree_is(&[3], &[&[1, 2, 3, 4], &[5, 6, 7], &[8, 9]]);
}

/// 5. P, remove 4: one leaf 1,2,3,5.
fn case_5(l: &mut Lines) {
    l.p();
    l.done(&Call::remove(&[4]), [0, 0, 1, 0]);
    l.tree_is(&[], &[&[1, 2, 3, 5]]);
}

/// 6. After case 3, remove 5,6,7: 1,2,3 and 4,8.
fn case_6(l: &mut Lines) {
    l.p();
    l.one_by_one(6..=8);
    l.done(&Call::remove(&[5, 6, 7]), [0, 0, 3, 0]);
    l.tree_is(&[2], &[&[1, 2, 3], &[4, 8]]);
}

/// 7. Interior of 5 beside a previous of 3: 4 and 4.
///
/// Keys that are set in ascending order fill leaf after leaf: with 28 the root has interiors of 3 and of 4 full leaves, and one more key makes
/// the second one 5 long. The same once more of leaves written by hand, most of them below the minimum.
fn case_7(l: &mut Lines) {
    l.new_pool(32);
    l.one_by_one(1..=28);
    let full: Vec<Vec<u64>> = (0..7).map(|i| (4 * i + 1..=4 * i + 4).collect()).collect();
    let mut leaves: Vec<&[u64]> = full.iter().map(Vec::as_slice).collect();
    l.tree_is(&[2, 3, 4], &leaves);
    l.done(&set(&[29]), [1, 0, 0, 0]);
    leaves.splice(6.., [&[25, 26, 27][..], &[28, 29]]);
    l.tree_is(&[2, 4, 4], &leaves);
    l.totals_are(29, 0, 464);

    let f = two_groves(32, &[&[1], &[2], &[3]], &[&[4], &[5], &[6, 7, 8, 9], &[10, 11, 12, 13]]);
    l.by_hand(PoolSettings { nodes: 32, ..DESK }, &f);
    l.done(&set(&[14]), [1, 0, 0, 0]);
    l.tree_is(&[2, 4, 4], &[&[1], &[2], &[3], &[4], &[5], &[6, 7, 8, 9], &[10, 11, 12], &[13, 14]]);
}

/// 8. N = 8, new: one key done, two keys refused 7. Six nodes are unused, of which one key asks for 6, and two for 8.
fn case_8(l: &mut Lines) {
    l.new_pool(8);
    l.refused(&set(&[1, 2]), 7);
    l.done(&set(&[1]), [1, 0, 0, 0]);
    l.totals_are(1, 0, 16);
}

/// 9. N = 16, new: four keys done, five refused 3.
fn case_9(l: &mut Lines) {
    l.new_pool(16);
    l.refused(&set(&[1, 2, 3, 4, 5]), 3);
    l.done(&set(&[1, 2, 3, 4]), [4, 0, 0, 0]);
    l.totals_are(4, 0, 64);
}

/// 10. N = 16, new, SetEach of 7 twice: second reference stays; counts 1, 1, 0, 0.
fn case_10(l: &mut Lines) {
    l.new_pool(16);
    l.done(&Call::set_each(&[7, 7], &[257, 258], &[16, 17]), [1, 1, 0, 0]);
    l.gets(&[7], &[Entry { key: 7, place: 258, size: 17 }]);
}

/// 11. P, scan Excluded 3 to Included 5: 4,5; two opened, either way.
fn case_11(l: &mut Lines) {
    l.p();
    l.lists(up(Excluded(3), Included(5)), 9, &[4, 5], 2, false);
    l.lists(down(Excluded(3), Included(5)), 9, &[5, 4], 2, false);
}

/// 12. P, scan Included 1 to Included 2: two opened up, three down; end Included 3: three opened up.
fn case_12(l: &mut Lines) {
    l.p();
    l.lists(up(Included(1), Included(2)), 9, &[1, 2], 2, false);
    l.lists(down(Included(1), Included(2)), 9, &[2, 1], 3, false);
    l.lists(up(Included(1), Included(3)), 9, &[1, 2, 3], 3, false);
}

/// 13. P, get 2,2,9: entry 2 twice.
fn case_13(l: &mut Lines) {
    l.p();
    l.gets(&[2, 2, 9], &[entry(2), entry(2)]);
}

/// 14. P, whole scan, no output room: nothing written, more true.
fn case_14(l: &mut Lines) {
    l.p();
    l.lists(up(Unbounded, Unbounded), 0, &[], 2, true);
}

// THE READINGS

/// 1. P stands in the slots 0, 2 and 3, since slot 1 is tree 1's root; after case 5 the last two are unused again.
fn slots_of_p(l: &mut Lines) {
    l.p();
    l.slots_are(&[2, 3, 1, 1]);
    l.done(&Call::remove(&[4]), [0, 0, 1, 0]);
    l.slots_are(&[1, 3]);
}

/// 2. Compare whose action is Remove: on an absent key it does nothing, and refusal 7 is for it too.
fn compare_removes(l: &mut Lines) {
    let absent = Call::compare(&[1], Expectation::Absent, Action::Remove);
    l.new_pool(16);
    l.done(&absent, [0, 0, 0, 1]);

    l.new_pool(8);
    l.one_by_one(1..=5);
    l.refused(&absent, 7);
}

/// 3. A dead entry is no more listed by a scan, still found by a get, and counted as dead. Its size is in no sum, nor in an interior's frame.
fn dead_entry(l: &mut Lines) {
    l.p();
    l.done(&Call::set(&[2], 0, 5), [0, 1, 0, 0]);
    l.lists(up(Unbounded, Included(3)), 9, &[1, 3], 3, false);
    l.gets(&[2], &[Entry { key: 2, place: 0, size: 5 }]);
    l.totals_are(4, 1, 64);
    l.frames_are(&[
        "000000000000000003000000010000000200000001000000000000002000000000000000050000000200000002000000000000000000000020",
        "01000000000000000100000000000001010000001000000000000000020000000000000000000000050000000000000003000000000000010300000010",
        FRAMES_OF_P[2],
    ]);
}

/// 4. A start above the end: nothing is listed, and nodes are opened by the rule.
fn start_above_end(l: &mut Lines) {
    l.p();
    l.lists(up(Included(5), Included(1)), 9, &[], 1, false);
    l.lists(down(Included(5), Included(1)), 9, &[], 2, false);
}

/// 5. The output full: counting goes on to the node that holds the next entry due.
fn output_full(l: &mut Lines) {
    l.p();
    l.lists(up(Unbounded, Unbounded), 2, &[1, 2], 2, true);
    l.lists(up(Unbounded, Unbounded), 3, &[1, 2, 3], 3, true);
    l.lists(up(Unbounded, Unbounded), 5, &[1, 2, 3, 4, 5], 3, false);
}

/// 6. After sharing with the previous child the walk steps back: 7 goes before 10.
fn steps_back(l: &mut Lines) {
    l.by_hand(DESK, &grove(&[&[1, 2], &[10, 20, 30, 40]]));
    l.done(&set(&[5, 7]), [2, 0, 0, 0]);
    l.tree_is(&[2], &[&[1, 2, 5, 7], &[10, 20, 30, 40]]);
}

/// 7. The previous sibling is shared with first.
fn previous_first(l: &mut Lines) {
    l.by_hand(DESK, &grove(&[&[10, 20, 30], &[50, 60, 70], &[80, 90]]));
    l.done(&set(&[55, 65]), [2, 0, 0, 0]);
    l.tree_is(&[3], &[&[10, 20, 30, 50], &[55, 60, 65, 70], &[80, 90]]);
}

/// 8. The previous sibling is joined with first, unless the child is the first; a joint length above the order is halved.
fn joined_and_halved(l: &mut Lines) {
    l.p();
    l.one_by_one(6..=9);
    l.done(&Call::remove(&[5, 6]), [0, 0, 2, 0]);
    l.tree_is(&[3], &[&[1, 2, 3], &[4, 7], &[8, 9]]);
}

/// 9. An only leaf of an only interior: the root collapses twice.
fn collapses_twice(l: &mut Lines) {
    l.by_hand(DESK, &two_groves(16, &[&[1]], &[&[2]]));
    l.done(&Call::remove(&[2]), [0, 0, 1, 0]);
    l.tree_is(&[], &[&[1]]);
    l.slots_are(&[1, 3]);
}

/// 10. Setting an equal reference again is a change, so that a leaf below the minimum is joined; at minimum 2 and at minimum 3.
fn equal_reference(l: &mut Lines) {
    for ps in [DESK, BROAD] {
        l.by_hand(ps, &grove(&[&[1, 2, 3], &[4]]));
        l.done(&set(&[4]), [0, 1, 0, 0]);
        l.tree_is(&[], &[&[1, 2, 3, 4]]);
    }
}

const BROAD: PoolSettings = PoolSettings::alike(16, 7, 3);

/// 11. Joined in the middle of a batch, the walk goes on from the joint node.
fn joined_in_a_batch(l: &mut Lines) {
    l.by_hand(BROAD, &grove(&[&[1, 2, 3], &[4]]));
    l.done(&set(&[5, 6]), [2, 0, 0, 0]);
    l.tree_is(&[], &[&[1, 2, 3, 4, 5, 6]]);
}

/// 12. A node beside siblings may stay below the minimum.
fn below_minimum(l: &mut Lines) {
    l.by_hand(DESK, &two_groves(16, &[&[1, 2, 3], &[4, 5], &[6, 7, 8, 9]], &[&[10, 11, 12], &[13, 14]]));
    l.done(&Call::remove(&[11, 12, 13, 14]), [0, 0, 4, 0]);
    l.tree_is(&[4], &[&[1, 2, 3], &[4, 5], &[6, 7, 8, 9], &[10]]);
}

/// 13. The frames of P, read and written again, are the same lines.
fn frames_read_back(l: &mut Lines) {
    l.p();
    l.frames_are(&FRAMES_OF_P);
    FRAMES_OF_P.iter().for_each(|line| l.reads_back(line));
}

/// 14. The last frame of P with eight more zeros at its end is refused as 10.
fn zeros_behind(l: &mut Lines) {
    l.does_not_read(&format!("{}00000000", FRAMES_OF_P[2]), 10);
}

/// 15. At depth 8 no key is set, also none that is present. A removal is done, and what it leaves collapses to a leaf.
fn depth_8(l: &mut Lines) {
    let f = deepest(16);
    assert_eq!(f.roots[0].depth(), 8);
    l.by_hand(DESK, &f);
    l.refused(&set(&[2]), 6);
    l.done(&Call::remove(&[2]), [0, 0, 1, 0]);
    l.tree_is(&[], &[&[1]]);
}

/// 16. An Excluded end: upwards the loop ends once the previous separator is at it, backwards it does not.
fn excluded_end(l: &mut Lines) {
    l.p();
    l.lists(up(Included(1), Excluded(3)), 9, &[1, 2], 2, false);
    l.lists(down(Included(1), Excluded(3)), 9, &[2, 1], 3, false);
    l.lists(up(Unbounded, Excluded(4)), 9, &[1, 2, 3], 3, false);
    l.lists(down(Unbounded, Excluded(4)), 9, &[3, 2, 1], 3, false);
}

/// 17. SizeAtLeast, of leaves of 3 × 5 and 2 × 16: a child is opened for its total size, an entry is listed for its own.
fn size_at_least(l: &mut Lines) {
    l.p();
    l.done(&Call::set_each(&[1, 2, 3], &[257, 258, 259], &[5, 5, 5]), [0, 3, 0, 0]);
    for (least, listed, opened) in [(15, vec![4, 5], 3), (16, vec![4, 5], 2), (17, vec![], 2), (33, vec![], 1)] {
        let backwards: Vec<u64> = listed.iter().rev().copied().collect();
        l.lists(Request { least, ..up(Unbounded, Unbounded) }, 9, &listed, opened, false);
        l.lists(Request { least, ..down(Unbounded, Unbounded) }, 9, &backwards, opened, false);
    }
}

/// 18. P packs to leaves 1,2,3,4 and 5, in the slots 0, 2 and 3: the last node of a level may be below the minimum. P is only read.
fn packs_p(l: &mut Lines) {
    l.p();
    l.beside(DESK);
    l.packs();
    l.turn();
    l.tree_is(&[2], &[&[1, 2, 3, 4], &[5]]);
    l.slots_are(&[2, 3, 1, 1]);
    l.turn();
    l.tree_is(&[2], &[&[1, 2, 3], &[4, 5]]);
}

/// 19. There 5 set again is a change that leaves its leaf below the minimum, and the two are evened out; 6 set makes the leaf long enough.
fn packed_and_set(l: &mut Lines) {
    l.p();
    l.beside(DESK);
    l.packs();
    l.turn();
    l.done(&set(&[5]), [0, 1, 0, 0]);
    l.tree_is(&[2], &[&[1, 2, 3], &[4, 5]]);

    l.turn();
    l.beside(DESK);
    l.packs();
    l.turn();
    l.done(&set(&[6]), [1, 0, 0, 0]);
    l.tree_is(&[2], &[&[1, 2, 3, 4], &[5, 6]]);
}

/// 20. A target that was emptied again is new, one that holds a dead entry is not.
fn emptied_is_new(l: &mut Lines) {
    l.p();
    l.turn();
    l.p();
    l.turn();
    l.does_not_pack(18);
    l.turn();
    l.done(&Call::remove(&[1, 2, 3, 5]), [0, 0, 4, 0]);
    l.done(&Call::set(&[4], 0, 0), [0, 1, 0, 0]);
    l.turn();
    l.does_not_pack(18);
    l.turn();
    l.done(&Call::remove(&[4]), [0, 0, 1, 0]);
    l.turn();
    l.packs();
    l.turn();
    l.tree_is(&[2], &[&[1, 2, 3, 4], &[5]]);
}

/// Twenty-one keys, one by one: six leaves, and with them nine nodes, are the fewest that hold them.
fn twenty_one(l: &mut Lines) {
    l.new_pool(32);
    l.one_by_one(1..=21);
}
const LEAVES_OF_21: [&[u64]; 6] = [&[1, 2, 3, 4], &[5, 6, 7, 8], &[9, 10, 11, 12], &[13, 14, 15, 16], &[17, 18, 19, 20], &[21]];

/// 21. A target with just as many nodes as the packed trees need, their roots' too, and one with a node less.
fn just_as_large(l: &mut Lines) {
    twenty_one(l);
    l.beside(PoolSettings { nodes: 9, ..DESK });
    l.does_not_pack(7);
    l.beside(PoolSettings { nodes: 10, ..DESK });
    l.packs();
    l.turn();
    l.tree_is(&[2, 4, 2], &LEAVES_OF_21);
    l.refused(&set(&[22]), 7);
}

/// 22. A target to which 17, 18 and 7 apply, then 18 and 7, then 7, then none. It is 17 where the minimum alone differs, too.
fn first_of_three(l: &mut Lines) {
    twenty_one(l);
    for (order, minimum) in [(5, 2), (4, 1)] {
        l.turn();
        l.open(PoolSettings::alike(8, order, minimum));
        l.done(&set(&[7]), [1, 0, 0, 0]);
        l.turn();
        l.does_not_pack(17);
        l.beside(PoolSettings::alike(16, order, minimum));
        l.does_not_pack(17);
    }
    l.turn();
    l.new_pool(8);
    l.done(&set(&[7]), [1, 0, 0, 0]);
    l.turn();
    l.does_not_pack(18);
    l.turn();
    l.done(&Call::remove(&[7]), [0, 0, 1, 0]);
    l.turn();
    l.does_not_pack(7);
    l.beside(DESK);
    l.packs();
}

/// 23. An empty source leaves the target as it was, which must be new all the same.
fn nothing_to_pack(l: &mut Lines) {
    l.new_pool(8);
    l.beside(DESK);
    let before = l.other_pool().to_vec();
    l.packs();
    assert_eq!(l.other_pool(), before);
    l.turn();
    l.frames_are(&["01"]);
    l.done(&set(&[1]), [1, 0, 0, 0]);
    l.turn();
    l.does_not_pack(18);
}

/// 24. Packed a second time, or packed from what was packed, the bytes are the same.
fn packed_twice(l: &mut Lines) {
    twenty_one(l);
    l.beside(DESK);
    l.packs();
    let packed = l.other_pool().to_vec();
    l.beside(DESK);
    l.packs();
    assert_eq!(l.other_pool(), packed);
    l.turn();
    l.beside(DESK);
    l.packs();
    assert_eq!(l.other_pool(), packed);
}

/// 25. Worn pools of depth 3.
///
/// Ten leaves to which clearing has left two keys each pack to five, and the last interior keeps one child. Six leaves that have one or two keys
/// pack to three, and the tree loses a level.
fn worn_is_packed(l: &mut Lines) {
    l.new_pool(32);
    l.one_by_one(1..=40);
    for k in (1..=40).step_by(4) {
        l.done(&Call::remove(&[k + 1, k + 2]), [0, 0, 2, 0]);
    }
    let halves: Vec<[u64; 2]> = (0..10).map(|i| [4 * i + 1, 4 * i + 4]).collect();
    let leaves: Vec<&[u64]> = halves.iter().map(|h| &h[..]).collect();
    l.tree_is(&[3, 4, 3, 3], &leaves);
    l.beside(DESK);
    l.packs();
    l.turn();
    l.tree_is(&[2, 4, 1], &[&[1, 4, 5, 8], &[9, 12, 13, 16], &[17, 20, 21, 24], &[25, 28, 29, 32], &[33, 36, 37, 40]]);
    l.totals_are(20, 0, 320);

    let f = two_groves(32, &[&[1], &[2, 3], &[4]], &[&[5, 6], &[7], &[8, 9]]);
    l.by_hand(PoolSettings { nodes: 32, ..DESK }, &f);
    l.beside(DESK);
    l.packs();
    l.turn();
    l.tree_is(&[3], &[&[1, 2, 3, 4], &[5, 6, 7, 8], &[9]]);
    l.slots_are(&[2, 3, 1, 1, 1]);
}

/// 26. Either pool not sound, a target of no bytes too: 2, whatever else applies.
fn unsound_first(l: &mut Lines) {
    let broad = PoolSettings { nodes: 8, ..BROAD };
    l.p();
    l.turn();
    l.open_refused(DESK.numbers(), 0);
    l.turn();
    l.does_not_pack(2);
    l.beside(broad);
    l.does_not_pack(17);
    l.damage();
    l.does_not_pack(2);

    l.p();
    l.turn();
    l.open(broad);
    l.done(&set(&[1]), [1, 0, 0, 0]);
    l.damage();
    l.turn();
    l.does_not_pack(2);
}

/// 27. Dead entries are packed like the others.
fn dead_ones_packed(l: &mut Lines) {
    l.p();
    l.done(&Call::set(&[2], 0, 5), [0, 1, 0, 0]);
    l.beside(DESK);
    l.packs();
    l.turn();
    l.totals_are(4, 1, 64);
    l.gets(&[2, 3], &[Entry { key: 2, place: 0, size: 5 }, entry(3)]);
    l.lists(up(Unbounded, Included(4)), 9, &[1, 3, 4], 3, false);
}

/// 28. A leaf of 100 dead beside 16 is no more opened for 50, where document 01's sum had it opened.
///
/// One whose entries are all dead has sum 0: it is opened by SizeAtLeast 0, which is All.
fn dead_sizes_are_free(l: &mut Lines) {
    l.p();
    l.done(&Call::set(&[4], 0, 100), [0, 1, 0, 0]);
    l.totals_are(4, 1, 64);
    l.lists(Request { least: 50, ..up(Unbounded, Unbounded) }, 9, &[], 1, false);
    l.lists(Request { least: 50, ..down(Unbounded, Unbounded) }, 9, &[], 1, false);

    l.done(&Call::set(&[5], 0, 100), [0, 1, 0, 0]);
    l.totals_are(3, 2, 48);
    l.lists(up(Unbounded, Unbounded), 9, &[1, 2, 3], 3, false);
    l.lists(Request { least: 1, ..up(Unbounded, Unbounded) }, 9, &[1, 2, 3], 2, false);
}

/// 29. A pool whose sum counts a dead entry, as all did before, is refused as 2 by every call, and with the new sum it is none such.
///
/// One in which the dead entry has size 0, and a lone leaf, which stores no sum, have the bytes that they had.
fn old_sums(l: &mut Lines) {
    l.p();
    l.done(&Call::set(&[4], 0, 100), [0, 1, 0, 0]);
    assert_eq!(l.with_old_sums(), [(15, 116)]);
    l.refused_by_all();
    l.put(15, 16);
    l.totals_are(4, 1, 64);

    l.p();
    l.done(&Call::set(&[4], 0, 0), [0, 1, 0, 0]);
    assert_eq!(l.with_old_sums(), []);
    l.totals_are(4, 1, 64);

    l.new_pool(16);
    l.done(&set(&[1, 2]), [2, 0, 0, 0]);
    l.done(&Call::set(&[2], 0, 5), [0, 1, 0, 0]);
    assert_eq!(l.with_old_sums(), []);
    l.totals_are(1, 1, 16);
}

/// 30. A tree's number that is neither 0 nor 1 is refused as 19: after 2, and before every other number, also for a batch of no keys.
fn no_such_tree(l: &mut Lines) {
    l.p();
    for tree in [2, 3, u64::MAX] {
        l.on(tree);
        l.all_refused(19);
    }
    l.on(0);
    l.totals_are(5, 0, 80);

    // where 6 and 7 apply too
    l.by_hand(DESK, &deepest(16));
    l.on(2);
    l.all_refused(19);
    l.damage();
    l.all_refused(2);
}

/// 31. A batch on one tree leaves the other's frames, totals and lists, though both hold the same keys.
fn the_other_stays(l: &mut Lines) {
    l.p();
    l.on(1);
    l.frames_are(&["01"]);
    l.input();
    l.frames_are(&FRAMES_OF_P);
    l.slots_are(&[2, 4, 1, 1, 3, 3]);
    l.done(&Call::set(&[2], 0, 7), [0, 1, 0, 0]);
    l.done(&Call::remove(&[4, 5]), [0, 0, 2, 0]);
    l.done(&set(&[6]), [1, 0, 0, 0]);

    l.on(0);
    l.frames_are(&FRAMES_OF_P);
    l.totals_are(5, 0, 80);
    l.gets(&[2, 2, 9], &[entry(2), entry(2)]);
    l.lists(up(Excluded(3), Included(5)), 9, &[4, 5], 2, false);
    l.done(&Call::remove(&[1, 2, 3, 4]), [0, 0, 4, 0]);

    l.on(1);
    l.totals_are(3, 1, 48);
    l.gets(&[2, 4], &[Entry { key: 2, place: 0, size: 7 }]);
    l.lists(down(Unbounded, Unbounded), 9, &[6, 3, 1], 1, false);
}

/// Trees of orders 4 and 6.
const TWO_ORDERS: PoolSettings = PoolSettings { nodes: 16, trees: [Limits { order: 4, minimum: 2 }, Limits { order: 6, minimum: 3 }] };

/// 32. Each tree has its own order: 3 is given, and nodes are split and joined, by that of the tree that is named.
///
/// Slots are as wide as the larger one asks.
fn order_of_its_own(l: &mut Lines) {
    l.open(TWO_ORDERS);
    assert_eq!(l.pool().len(), 8 * (8 + 16 * (2 + 6 * 6)));
    l.refused(&set(&[1, 2, 3, 4, 5]), 3);
    l.on(1);
    l.done(&set(&[1, 2, 3, 4, 5]), [5, 0, 0, 0]);
    l.refused(&set(&[1, 2, 3, 4, 5, 6, 7]), 3);
    l.one_by_one(6..=7);
    l.tree_is(&[2], &[&[1, 2, 3, 4], &[5, 6, 7]]);
    l.on(0);
    l.input();
    l.tree_is(&[2], &[&[1, 2, 3], &[4, 5]]);
    l.slots_are(&[2, 4, 3, 3, 1, 1]);
    l.on(1);
    l.done(&Call::remove(&[6]), [0, 0, 1, 0]);
    l.tree_is(&[], &[&[1, 2, 3, 4, 5, 7]]);
}

/// 33. Depth, for 6 and in 7, is that of the tree that is named.
fn depth_of_its_own(l: &mut Lines) {
    l.by_hand(PoolSettings { nodes: 32, ..DESK }, &deepest(32));
    l.refused(&set(&[2]), 6);
    l.on(1);
    l.done(&set(&[2]), [1, 0, 0, 0]);

    // six unused nodes: one key asks for 7 of them at depth 3, and for 6 at depth 1
    l.by_hand(PoolSettings { nodes: 14, ..DESK }, &two_groves(14, &[&[1], &[2]], &[&[3], &[4]]));
    l.on(0);
    l.refused(&set(&[5]), 7);
    l.on(1);
    l.refused(&set(&[5, 6]), 7);
    l.done(&set(&[5]), [1, 0, 0, 0]);
}

/// 34. Unused nodes, in 7, are those of the pool: a batch on one tree can bring 7 to the other, and one that frees nodes can take it away.
fn unused_of_the_pool(l: &mut Lines) {
    l.new_pool(8);
    l.one_by_one(1..=4);
    l.on(1);
    l.one_by_one(1..=3);
    l.on(0);
    l.one_by_one(5..=5);
    l.on(1);
    l.refused(&set(&[4]), 7);
    l.on(0);
    l.refused(&set(&[6]), 7);
    l.done(&Call::remove(&[4]), [0, 0, 1, 0]);
    l.on(1);
    l.one_by_one(4..=5);
    l.tree_is(&[2], &[&[1, 2, 3], &[4, 5]]);
    l.on(0);
    l.refused(&set(&[6]), 7);
    l.tree_is(&[], &[&[1, 2, 3, 5]]);
}

/// 35. A slot that one tree frees is taken by the other, the lowest first.
fn freed_by_the_other(l: &mut Lines) {
    l.p();
    l.on(1);
    l.input();
    l.slots_are(&[2, 4, 1, 1, 3, 3]);
    l.on(0);
    l.done(&Call::remove(&[4]), [0, 0, 1, 0]);
    l.slots_are(&[1, 4, 0, 0, 3, 3]);
    l.on(1);
    l.one_by_one(6..=9);
    l.tree_is(&[3], &[&[1, 2, 3, 4], &[5, 6, 7], &[8, 9]]);
    l.slots_are(&[1, 4, 3, 0, 3, 3]);
    l.on(0);
    l.one_by_one(6..=6);
    l.slots_are(&[2, 4, 3, 1, 3, 3, 1]);
}

/// 36. Case 8 of tree 1, and of tree 0 behind it: a leaf takes no further node.
fn six_unused(l: &mut Lines) {
    l.new_pool(8);
    for tree in [1, 0] {
        l.on(tree);
        l.refused(&set(&[1, 2]), 7);
        l.done(&set(&[1]), [1, 0, 0, 0]);
        l.totals_are(1, 0, 16);
    }
}

/// 37. Roots never move: what document 01 says of slot 0 is said of slot 1 too, in a tree that is split, collapses, and is emptied.
fn roots_stay(l: &mut Lines) {
    l.new_pool(16);
    l.on(1);
    l.input();
    l.slots_are(&[1, 4, 3, 3]);
    l.done(&Call::remove(&[4]), [0, 0, 1, 0]);
    l.slots_are(&[1, 3]);
    l.done(&Call::remove(&[1, 2, 3, 5]), [0, 0, 4, 0]);
    l.slots_are(&[1, 3]);
    l.frames_are(&["01"]);
}

/// 38. Packing copies both trees: the roots in slots 0 and 1, then the other nodes of tree 0 in preorder, then those of tree 1.
///
/// 7 counts the nodes of both.
fn both_are_packed(l: &mut Lines) {
    l.new_pool(40);
    for k in 1..=21 {
        for tree in [1, 0] {
            l.on(tree);
            l.one_by_one(k..=k);
        }
    }
    l.beside(PoolSettings { nodes: 17, ..DESK });
    l.does_not_pack(7);
    l.beside(PoolSettings { nodes: 18, ..DESK });
    l.packs();
    l.turn();
    for tree in [0, 1] {
        l.on(tree);
        l.tree_is(&[2, 4, 2], &LEAVES_OF_21);
        l.totals_are(21, 0, 336);
    }
    l.slots_are(&[2, 4, 2, 1, 1, 1, 1, 2, 1, 1, 4, 3, 3, 3, 3, 4, 3, 3]);

    // a tree that is one leaf has no further node
    l.new_pool(16);
    l.on(1);
    l.input();
    l.beside(DESK);
    l.packs();
    l.turn();
    l.tree_is(&[2], &[&[1, 2, 3, 4], &[5]]);
    l.slots_are(&[1, 4, 3, 3]);
}

/// 39. 17 where order or minimum of either tree differs, and 18 where either of the target's holds an entry.
fn either_differs(l: &mut Lines) {
    l.p();
    let [same, other_minimum, other_order] = [(4, 2), (4, 1), (5, 2)].map(|(order, minimum)| Limits { order, minimum });
    for trees in [[same, other_minimum], [other_minimum, same], [same, other_order], [other_order, same]] {
        l.beside(PoolSettings { nodes: 16, trees });
        l.does_not_pack(17);
    }
    for tree in [1, 0] {
        l.beside(DESK);
        l.on(tree);
        l.turn();
        l.done(&set(&[7]), [1, 0, 0, 0]);
        l.turn();
        l.does_not_pack(18);
        l.turn();
        l.done(&Call::remove(&[7]), [0, 0, 1, 0]);
        l.turn();
        l.packs();
    }
}

/// 40. A tree's nodes all carry its own kinds.
///
/// P in both trees: a leaf of tree 0 with the kind of tree 1's, tree 0's root over a leaf of tree 1 that holds the very entries of its own, and then
/// tree 1's root over tree 0's leaf as well, so that each node is reached once, are refused as 2 by every call.
fn kinds_of_the_other(l: &mut Lines) {
    l.p();
    l.on(1);
    l.input();
    let (slot_2, first_child, of_tree_1) = (8 + 2 * 26, 8 + 3, 8 + 26 + 3);
    l.put(slot_2, 3);
    l.refused_by_all();
    l.put(slot_2, 1);
    l.totals_are(5, 0, 80);
    l.put(first_child, (4 << 40) + (3 << 20));
    l.refused_by_all();
    l.put(of_tree_1, (2 << 40) + (3 << 20));
    l.refused_by_all();
    l.put(of_tree_1, (4 << 40) + (3 << 20));
    l.put(first_child, (2 << 40) + (3 << 20));
    l.totals_are(5, 0, 80);
}

/// 41. The word beside each tree's settings is zero.
fn zero_words(l: &mut Lines) {
    l.p();
    for word in [4, 7] {
        l.put(word, 1);
        l.refused_by_all();
        l.put(word, 0);
        l.totals_are(5, 0, 80);
    }
}

/// 42. A leaf that both trees name, while one that nobody names keeps the numbers even: refused as 2, whichever kinds these two have.
fn eight_nodes(l: &mut Lines) {
    l.new_pool(8);
    for (second, fifth) in eight::KINDS {
        l.write(&eight::words(second, fifth));
        l.refused_by_all();
    }
}

/// 43. A pool of one tree, as it was before there were two: refused as 2.
///
/// Here it has the length of a pool of two trees, and then that one's layout number as well.
fn one_tree(l: &mut Lines) {
    l.open(PoolSettings::alike(8, 5, 2));
    l.write(&before::one_tree(&Settings { nodes: 10, order: 4, minimum: 2 }, &p_of_before()));
    l.refused_by_all();
    l.put(0, 2);
    l.refused_by_all();
}

/// 44. P in portions of 2, 2 and 1: the last one is just filled, and ends.
fn just_filled_ends(l: &mut Lines) {
    l.p();
    let mut c = WHOLE;
    l.shows(&mut c, 2, &[1, 2], 2, false);
    assert_eq!(c.from, [1, 0, 2]);
    l.shows(&mut c, 2, &[3, 4], 3, false);
    l.shows(&mut c, 1, &[5], 2, true);
    assert_eq!(c.from, [1, 0, 5]);
}

/// 45. P in one portion of 5; and in portions of 2, the last of which has room left.
fn room_left_ends(l: &mut Lines) {
    l.p();
    let (mut at_once, mut c) = (WHOLE, WHOLE);
    l.shows(&mut at_once, 5, &[1, 2, 3, 4, 5], 3, true);
    l.shows(&mut c, 2, &[1, 2], 2, false);
    l.shows(&mut c, 2, &[3, 4], 3, false);
    l.shows(&mut c, 2, &[5], 2, true);
}

/// 46. Without room for an entry nothing is shown, nothing ends, and the start stays as it is, also where its flags are neither 0 nor 1.
///
/// So it is of P, of which more is due, and of a range that holds nothing; with room for one entry this range ends at once.
fn no_room(l: &mut Lines) {
    l.p();
    l.shows_nothing(&WHOLE, 0, 2, true);
    for bytes in [0, 0, 23] {
        l.shows_nothing(&FROM_3, bytes, 2, true);
    }
    let (mut some, mut nothing) = (FROM_3, Cursor { end: Excluded(3), ..FROM_3 });
    for bytes in [0, 0, 23] {
        l.shows_nothing(&nothing, bytes, 2, false);
    }
    l.shows(&mut nothing, 1, &[], 2, true);
    assert_eq!(nothing.from, [7, 9, 3]);
    l.shows(&mut some, 1, &[3], 3, false);
}

/// 47. The last key may be 2^64 - 1. The next portion starts behind it, and so shows nothing and ends.
fn greatest_key(l: &mut Lines) {
    l.new_pool(16);
    l.done(&set(&[7, u64::MAX]), [2, 0, 0, 0]);
    let mut c = WHOLE;
    l.shows(&mut c, 1, &[7], 1, false);
    l.shows(&mut c, 1, &[u64::MAX], 1, true);
    assert_eq!(c.from, [1, 0, u64::MAX]);
    l.shows(&mut c, 1, &[], 1, true);
    assert_eq!(c.from, [1, 0, u64::MAX]);
}

/// 48. Keys set between two portions, one below the last key shown and one above it: the second is shown, the first is not.
fn below_and_above(l: &mut Lines) {
    l.p();
    let mut c = WHOLE;
    l.shows(&mut c, 2, &[1, 2], 2, false);
    l.done(&set(&[0]), [1, 0, 0, 0]);
    l.done(&set(&[6]), [1, 0, 0, 0]);
    l.tree_is(&[2], &[&[0, 1, 2, 3], &[4, 5, 6]]);
    l.shows(&mut c, 9, &[3, 4, 5, 6], 3, true);
}

/// 49. The last key shown is removed before the next portion: what is left is shown, and nothing twice. So it is where all of its leaf is removed.
fn cursor_removed(l: &mut Lines) {
    l.p();
    let mut c = WHOLE;
    l.shows(&mut c, 2, &[1, 2], 2, false);
    l.done(&Call::remove(&[2]), [0, 0, 1, 0]);
    l.shows(&mut c, 1, &[3], 3, false);
    l.done(&Call::remove(&[1, 3]), [0, 0, 2, 0]);
    l.tree_is(&[], &[&[4, 5]]);
    l.shows(&mut c, 2, &[4, 5], 1, true);
}

/// 50. A call after the end is a portion from there: a key that was set above since then is shown, and else nothing.
fn after_the_end(l: &mut Lines) {
    l.p();
    let mut c = WHOLE;
    l.shows(&mut c, 5, &[1, 2, 3, 4, 5], 3, true);
    l.shows(&mut c, 5, &[], 1, true);
    l.done(&set(&[6]), [1, 0, 0, 0]);
    l.shows(&mut c, 5, &[6], 2, true);
    l.shows(&mut c, 5, &[], 1, true);
}

/// 51. Batches on the other tree, also such as set and remove keys that are still to be shown, change nothing; that tree has a listing of its own.
fn beside_the_other(l: &mut Lines) {
    l.p();
    let (mut first, mut second) = (WHOLE, WHOLE);
    l.shows(&mut first, 2, &[1, 2], 2, false);
    l.on(1);
    l.input();
    l.done(&Call::remove(&[1, 3]), [0, 0, 2, 0]);
    l.shows(&mut second, 1, &[2], 1, false);
    l.on(0);
    l.shows(&mut first, 2, &[3, 4], 3, false);
    l.on(1);
    l.shows(&mut second, 2, &[4, 5], 1, true);
    l.on(0);
    l.shows(&mut first, 2, &[5], 2, true);
}

/// 52. A range and a sift in portions of 1: behind 1, up to 4, and of at least 16, where 2 has size 5.
fn range_and_sift(l: &mut Lines) {
    l.p();
    l.done(&Call::set(&[2], 258, 5), [0, 1, 0, 0]);
    let mut c = Cursor { from: [1, 0, 1], end: Included(4), least: 16 };
    l.shows(&mut c, 1, &[3], 3, false);
    l.shows(&mut c, 1, &[4], 2, true);
}

/// 53. A portion is refused as 2, or else as 19, and by no other number; it leaves the words of its start, also their flags.
fn portion_refused(l: &mut Lines) {
    l.p();
    for tree in [2, u64::MAX] {
        l.on(tree);
        l.does_not_show(&FROM_3, 19);
    }
    l.damage();
    for tree in [0, 1, 2] {
        l.on(tree);
        l.does_not_show(&FROM_3, 2);
    }
}
