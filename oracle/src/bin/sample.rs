//! Writes calls (at least so many) with their answers, for a program that replays them: one call a line, decimal numbers, one space between.
//! Behind them it writes packings of worn pools, with listings of what was packed, the numbered cases of document 01, and the readings
//! (oracle/src/cases.rs).
//!
//!     sample [CALLS] [SEED]
//!
//! A line is: kind, how many arguments, the arguments, how many answers, the answers. A list among the arguments is its length and then
//! its numbers. The first answer is 0 or the number of a refusal; behind a refusal stands nothing but, where a pool is lent for change, its
//! check. The check of bytes is h = (31 h + byte) mod 1000000007 over all of them, from 0.
//!
//! There are two pools, each of no bytes at first. One of them is at hand, and "the pool" below is that one; an opening says how many bytes of it
//! are lent from there on. Which of the two is at hand, kind 15 turns round.
//!
//! A tree is 0 or 1. Other numbers are given too, and refused.
//!
//! | kind | arguments | answers when done |
//! |---|---|---|
//! | 1 open | nodes, order and minimum of tree 0, order and minimum of tree 1, bytes lent (0x5a each) | check of the pool |
//! | 2 totals | tree | live, dead, size |
//! | 3 set | tree, place, size, keys | four counts, check of the pool |
//! | 4 set each | tree, keys, places, sizes | four counts, check of the pool |
//! | 5 remove | tree, keys | four counts, check of the pool |
//! | 6 compare | tree, holds, expected place and size, set, place and size, keys | four counts, check of the pool |
//! | 7 get | tree, bytes of room, keys | written, more, check of the output written |
//! | 8 scan | tree; start: bounded, included, key; end: the same; down, least, bytes of room | written, more, opened, check of the output written |
//! | 9 frame | tree, i, bytes of room | length, check of the line |
//! | 10 read frame | bytes of the line | kind, count, check of its entries as 64-bit words: key, wide, narrow, live, dead, 32 each |
//! | 11 put | word, value: the pool is damaged, or written by hand | check of the pool |
//! | 12 case | n: what follows is numbered case n | none, not even 0: it is no call |
//! | 13 reading | n: what follows is reading n | the same |
//! | 14 pack | none: the pool is packed into the other one | check of the other pool, where it is refused too |
//! | 15 turn | none: the other pool is at hand from here on | none, not even 0: it is no call |
//! | 16 portion | tree; start, end: as of a scan; least, bytes of room | written, more, opened, ended, check of the output written and next start |
//!
//! The next start stands behind the output as three 64-bit words: bounded, included, key. Bounded and included are 0 or 1, and a start that is not
//! bounded is 0, 0, 0, among the arguments too.
use oracle::cases;
use oracle::frames;
use oracle::lines::Lines;
use oracle::random::Random;
use oracle::script::Step;
use oracle::stand_in::StandIn;
use oracle::trees;
use oracle::walk::{cursor, Keys, Mood, Walk};
use oracle::worn::{Room, Target};
use plain::forest::Forest;
use plain::pool::length;
use plain::{Limits, Operation, PoolSettings};

fn main() {
    let args: Vec<u64> = std::env::args().skip(1).map(|a| a.parse().expect("a number")).collect();
    let (calls, seed) = (args.first().copied().unwrap_or(1000), args.get(1).copied().unwrap_or(1));
    let mut lines = Lines::new(&StandIn);
    sample(&mut lines, calls, &mut Random::new(seed));
    sample_packs(&mut lines, &mut Random::new(seed));
    cases::write(&mut lines);
    for line in lines.made() {
        println!("{line}");
    }
}

fn sample(lines: &mut Lines, calls: u64, r: &mut Random) {
    wrong_openings(lines);
    let end = lines.made().len() + calls as usize;
    deep_pool(lines, r, 0);
    deep_pool(lines, r, 1);
    while lines.made().len() < end {
        let left = end - lines.made().len();
        one_pool(lines, r, left.min(80));
        for _ in 0..6 {
            lines.read(&some_line(r));
        }
    }
}

/// A frame, often a faulty one, of few entries or of about as many as there may be.
fn some_line(r: &mut Random) -> Vec<u8> {
    let (n, fault) = (if r.one_in(8) { r.between(31, 33) } else { r.below(5) }, r.one_in(4));
    let mut line = frames::random(r, n, fault).line();
    match r.below(7) {
        0 => line.push(b'0'),
        1 => line.extend(b"00000000"),
        2 => line.clear(),
        3 => {
            let at = r.below(line.len());
            line[at] = r.pick(b"0123gG z");
        }
        // a header that is neither
        4 => line[1] = r.pick(b"23f"),
        _ => {}
    }
    line
}

/// Openings whose settings are wrong by one, of one tree or the other, or whose length is, or is that of a pool of one tree.
fn wrong_openings(lines: &mut Lines) {
    let right = PoolSettings { nodes: 8, trees: [Limits { order: 4, minimum: 2 }, Limits { order: 5, minimum: 3 }] };
    let lent = length(&right) as u64;
    for (at, wrong) in [(0, 7), (0, 16_385), (1, 3), (1, 33), (2, 0), (2, 3), (3, 3), (3, 33), (4, 0), (4, 4)] {
        let mut numbers = right.numbers();
        numbers[at] = wrong;
        lines.open_refused(numbers, lent);
    }
    for len in [lent - 1, 0, 8 * (4 + 8 * (2 + 6 * 5)), 8 * (8 + 8 * (2 + 6 * 4))] {
        lines.open_refused(right.numbers(), len);
    }
}

/// A pool, after an opening over eight bytes too many.
fn open(lines: &mut Lines, ps: PoolSettings) {
    lines.open_refused(ps.numbers(), length(&ps) as u64 + 8);
    lines.open(ps);
}

fn limits(r: &mut Random, orders: &[usize]) -> Limits {
    let order = r.pick(orders);
    Limits { order, minimum: r.between(1, (order + 1) / 2) }
}

/// A pool from its opening on, with random calls on both trees. One of its last calls damages it.
fn one_pool(lines: &mut Lines, r: &mut Random, calls: usize) {
    let orders = [4, 4, 4, 5, 7, 8, 32];
    let ps = PoolSettings { nodes: r.pick(&[9, 16, 20, 40]), trees: [limits(r, &orders), limits(r, &orders)] };
    open(lines, ps);
    let mut walk = Walk::random(r, &ps);
    for turn in 0..calls {
        let mood = if turn < calls / 2 { Mood::Grow } else { Mood::Clear };
        let step = if turn + 4 == calls {
            Step::Put { word: r.below(length(&ps) / 8), value: r.below(9) as u64 }
        } else if r.one_in(3) {
            walk.look(r, lines.forest())
        } else {
            walk.batch(r, lines.forest(), mood)
        };
        lines.play(&step);
    }
}

/// A pool with a tree of eight levels, put word by word into an opened one.
fn deep_pool(lines: &mut Lines, r: &mut Random, tree: u64) {
    let ps = PoolSettings::alike(16, 4, 2);
    open(lines, ps);
    lines.fill(&trees::deepest(tree, 16));
    let mut walk = Walk { settings: ps, keys: [Keys::Below(4); 2] };
    // at eight levels nothing may be set, however often it is tried; a removal that joins makes room
    for _ in 0..10 {
        let step = walk.batch(r, lines.forest(), Mood::Grow);
        if !matches!(&step, Step::Batch { call, .. } if call.operation == Operation::Remove) {
            lines.play(&step);
        }
    }
    for _ in 0..30 {
        lines.play(&walk.look(r, lines.forest()));
        lines.play(&walk.batch(r, lines.forest(), Mood::Churn));
    }
}

/// A worn pool packed into no bytes, and worn pools packed into others of any kind; calls on what was packed, and listings, or, for some, damage.
fn sample_packs(lines: &mut Lines, r: &mut Random) {
    worn_pool(lines, r);
    lines.pack();
    for turn in 0..24 {
        worn_pool(lines, r);
        pack_into(lines, r, |_| Target::new(Room::Less));
        pack_into(lines, r, Target::random);
        pack_into(lines, r, Target::random);
        if turn % 6 == 5 {
            lines.damage();
        }
        pack_into(lines, r, |r| Target::new(r.pick(&[Room::More, Room::Exact])));
        lines.turn();
        let mut walk = Walk::random(r, &lines.settings());
        for _ in 0..8 {
            let step = if r.one_in(3) { walk.look(r, lines.forest()) } else { walk.batch(r, lines.forest(), Mood::Churn) };
            lines.play(&step);
        }
        if turn % 3 == 0 {
            list(lines, r, &mut walk);
        }
    }
}

/// A tree of the pool at hand in portions, with a batch behind each of them; at last the pool is damaged, and the next one refused.
fn list(lines: &mut Lines, r: &mut Random, walk: &mut Walk) {
    let i = r.below(2);
    let mut cursor = cursor(r, lines.forest().map(|f| &f.roots[i]), &mut walk.keys[i]);
    for _ in 0..6 {
        let portion = Step::Portion { tree: i as u64, cursor, room: 24 * r.below(6) };
        cursor.from = lines.play(&portion).next.expect("a portion");
        let batch = walk.batch(r, lines.forest(), Mood::Churn);
        lines.play(&batch);
    }
    lines.damage();
    lines.play(&Step::Portion { tree: i as u64, cursor, room: 24 });
}

/// A pool whose trees are grown by batches, and then thinned.
fn worn_pool(lines: &mut Lines, r: &mut Random) {
    let orders = [4, 4, 5, 6, 8, 13];
    let ps = PoolSettings { nodes: r.pick(&[24, 40, 60]), trees: [limits(r, &orders), limits(r, &orders)] };
    lines.open(ps);
    let mut walk = Walk { settings: ps, keys: [0, 1].map(|_| r.pick(&[Keys::Below(1000), Keys::Ascending(0), Keys::Any])) };
    for turn in 0..40 {
        let mood = if turn < 30 { Mood::Grow } else { Mood::Clear };
        let step = walk.batch(r, lines.forest(), mood);
        lines.play(&step);
    }
}

/// The pool at hand packed into the other one, which is opened for it.
fn pack_into(lines: &mut Lines, r: &mut Random, target: impl Fn(&mut Random) -> Target) {
    let ps = lines.settings();
    let f = lines.forest().cloned().unwrap_or_else(|| Forest::new(ps.nodes));
    let script = target(r).script(r, &ps, &f);
    lines.turn();
    lines.open(script.settings);
    for step in &script.steps {
        lines.play(step);
    }
    lines.turn();
    lines.pack();
}
