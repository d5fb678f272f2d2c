//! Shows with the first two variants of the published module the differences that docs/DIFFERENCES.md lists: the inputs given there, the
//! smallest found by search, what of it is met from an empty tree on, and that no other cause of a difference was met.
//!
//!     differences [SEQUENCES]
//!
//! The number is how many random sequences are tried from an empty tree, for each question; 3000 where none is given.
use oracle::random::Random;
use oracle::search::{smallest, Input, Range};
use oracle::variants::{agree, first, second, shown, third};
use oracle::walk::{batch, Keys, Mood};
use oracle::{reach, trees};
use plain::frame::Frame;
use plain::tree::Node;
use plain::{Call, Entry, Reference, Settings};

fn main() {
    larger_amount();
    stopped_get();
    lost_keys();
    shares_first();
    set_each();
    frames();
    from_empty();
    no_other_cause();
}

fn leaf(keys: &[u64]) -> Node {
    Node::leaf(0, keys.iter().map(|&k| trees::entry_for(k)).collect())
}

fn leaves(kss: &[&[u64]]) -> Node {
    Node::interior(0, kss.iter().map(|k| leaf(k)).collect())
}

/// One input through all three variants.
fn show(title: &str, i: &Input) {
    println!("  {title}: {}", i.shown());
    println!("    published    {}", shown(&first(i.order, i.minimum, &i.root, &i.call).0));
    println!("    corrected    {}", shown(&second(i.order, i.minimum, &i.root, &i.call).0));
    println!("    01's joining {}", shown(&third(i.order, i.minimum, &i.root, &i.call).0));
}

fn found(title: &str, range: &Range, test: impl FnMut(&Input) -> bool) {
    match smallest(range, test) {
        (Some(i), seen) => show(&format!("{title}, smallest of {seen} tried"), &i),
        (None, seen) => println!("  {title}: none among {seen} tried"),
    }
}

fn larger_amount() {
    println!("1. Upper nodes hand over the larger of two amounts");
    let root = Node::interior(0, vec![leaves(&[&[1], &[2], &[3]]), leaves(&[&[4], &[5], &[6, 7, 8, 9], &[10, 11, 12, 13]])]);
    show("as listed", &Input { order: 4, minimum: 2, root, call: Call::set(&[14], 1, 1) });
    // an interior must be split, so three levels; one more key sets it off, and no node is absorbed
    let alone = |i: &Input| {
        let ((a, met), (b, met_b)) = (first(i.order, i.minimum, &i.root, &i.call), second(i.order, i.minimum, &i.root, &i.call));
        !agree(&a, &b) && met.absorbed == 0 && met_b.absorbed == 0
    };
    let range = |settings, most_keys, sizes| Range { settings, sizes, most_keys, depths: 3..=3, sets: true, removes: false };
    found("where no node is absorbed", &range(vec![(4, 1), (4, 2)], 1, 3..=13), alone);
    let any = |i: &Input| !agree(&first(i.order, i.minimum, &i.root, &i.call).0, &second(i.order, i.minimum, &i.root, &i.call).0);
    found("at all (here after absorbing)", &range(vec![(4, 1), (4, 2), (5, 1), (5, 2), (5, 3)], 2, 1..=8), any);
    let flat = Range { settings: vec![(4, 2), (5, 3)], sizes: 1..=9, most_keys: 2, depths: 1..=2, sets: true, removes: true };
    found("in trees of one level or two", &flat, any);
    println!();
}

fn stopped_get() {
    println!("2. A lookup told to stop carries on in a tree of three levels");
    let (mut tried, mut by_room, mut asked, mut once) = (0u64, None, None, None);
    for n in 1..=6u64 {
        let held: Vec<u64> = (1..=n).collect();
        for root in trees::up_to(&held, 4, 3) {
            let (a, b) = (nebari_v1::Tree::build(4, 2, &root), nebari_v2::Tree::build(4, 2, &root));
            for room in 0..n as usize {
                tried += 1;
                let (g, h) = (a.get(&held, room), b.get(&held, room));
                if g.listed != h.listed && by_room.is_none() {
                    by_room = Some(format!("{}, room {room}", root.picture()));
                }
                if g.after_stop > h.after_stop && asked.is_none() {
                    asked = Some(format!(
                        "{}, get {held:?}, room {room}: {} asked after the stop beside {}; the root answers 'go on': {} beside {}",
                        root.picture(),
                        g.after_stop,
                        h.after_stop,
                        g.went_on,
                        h.went_on
                    ));
                }
            }
            for &stop in &held {
                let (g, h) = (a.get_until(&held, |_, k| k == stop), b.get_until(&held, |_, k| k == stop));
                if g.listed.written != h.listed.written && once.is_none() {
                    let keys = |l: &[Entry]| l.iter().map(|e| e.key).collect::<Vec<_>>();
                    once = Some(format!(
                        "{}, get {held:?}, stop said at {stop}: {:?} beside {:?}",
                        root.picture(),
                        keys(&g.listed.written),
                        keys(&h.listed.written)
                    ));
                }
            }
        }
    }
    println!("  smallest of {tried} tried, where the next key is asked after a stop: {}", asked.unwrap_or_default());
    println!("  smallest where stop is said at one key only, published beside corrected: {}", once.unwrap_or_default());
    println!(
        "  where stop is said because the output is full, another list: {}",
        by_room.unwrap_or_else(|| "none (the output stays full)".to_string())
    );
    println!();
}

fn lost_keys() {
    println!("3. Absorbing again and again, stepping back once");
    let root = leaves(&[&[1], &[2], &[3], &[4, 5], &[6, 7, 8, 9], &[10, 11, 12, 13]]);
    show("as listed", &Input { order: 7, minimum: 4, root, call: Call::remove(&[4, 6]) });
    let wrong = |i: &Input| {
        let mut list = i.root.entries();
        let counts = plain::list::plain_batch(&i.call, &mut list);
        !matches!(second(i.order, i.minimum, &i.root, &i.call).0, Ok((n, c)) if n.entries() == list && c == counts)
    };
    let settings: Vec<(usize, usize)> = (4..=8).flat_map(|o| (2..=(o + 1) / 2).map(move |m| (o, m))).collect();
    let range = |sets, removes, sizes| Range { settings: settings.clone(), sizes, most_keys: 2, depths: 2..=3, sets, removes };
    found("another list than the plain one, removing", &range(false, true, 2..=10), wrong);
    found("another list than the plain one, setting", &range(true, false, 2..=9), wrong);
    println!();
}

fn shares_first() {
    println!("4. A joint length above the order is shared with the neighbours first");
    let root = leaves(&[&[1, 2, 3, 4], &[5, 6, 7], &[8, 9]]);
    show("as listed", &Input { order: 4, minimum: 2, root, call: Call::remove(&[5, 6]) });
    let differs = |i: &Input| !agree(&second(i.order, i.minimum, &i.root, &i.call).0, &third(i.order, i.minimum, &i.root, &i.call).0);
    let range = |settings| Range { settings, sizes: 1..=10, most_keys: 2, depths: 1..=3, sets: true, removes: true };
    found("desk settings", &range(vec![(4, 2)]), differs);
    found(
        "any of orders 4 to 6 (here absorbing again matters too)",
        &range(vec![(4, 1), (4, 2), (5, 1), (5, 2), (5, 3), (6, 1), (6, 2), (6, 3)]),
        differs,
    );
    println!();
}

fn set_each() {
    println!("5. SetEach with fewer or more references than keys");
    let r = |place| Reference { place, size: 16 };
    for (keys, references) in [(vec![1, 2], vec![r(7)]), (vec![1], vec![]), (vec![1], vec![r(7), r(8)]), (vec![], vec![r(7)])] {
        let mut tree = nebari_v1::Tree::open(4, 2);
        let told = tree.batch(&keys, plain::Operation::SetEach, &references);
        println!(
            "  keys {keys:?}, {} reference(s): published {}, tree {}; here refused 4, nothing done",
            references.len(),
            told.map_or_else(|e| format!("error '{e}'"), |c| format!("done {:?}", c.numbers())),
            tree.shape().picture()
        );
    }
    println!();
}

fn frames() {
    println!("6. A frame whose keys do not strictly ascend");
    let e = Entry { key: 1, place: 257, size: 16 };
    for (what, f) in [("the same entry twice", Frame::Leaf(vec![e, e])), ("descending", Frame::Leaf(vec![Entry { key: 2, ..e }, e]))] {
        let bytes = nebari_v1::Tree::write(&f);
        let line = plain::frame::hex(&bytes);
        println!(
            "  {what}: published reads it: {}, writes it: {}; here read {:?}, written {:?}",
            nebari_v1::Tree::read(&bytes) == Ok(f.clone()),
            bytes == f.bytes(),
            plain::read_frame::read_line(&line),
            plain::frame::write_frame(1000, &f)
        );
    }
    println!();
}

/// What of this is met by batches from an empty tree.
fn from_empty() {
    println!("From an empty tree on, by batches of up to order keys");
    let mut r = Random::new(2);
    let tries = std::env::args().nth(1).map_or(3000, |a| a.parse().expect("a number"));
    let kinds: [(&str, reach::Run, reach::Bad); 5] = [
        ("published, a node above the order", reach::first, reach::too_long),
        ("published, another list than the plain one", reach::first, reach::wrong_list),
        ("corrected, another list than the plain one", reach::second, reach::wrong_list),
        ("corrected, a node above the order", reach::second, reach::too_long),
        ("01's joining, either", reach::third, |run, st, calls| reach::wrong_list(run, st, calls) || reach::too_long(run, st, calls)),
    ];
    for (what, run, bad) in kinds {
        let (count, best) = reach::search(&mut r, tries, run, bad);
        println!("  {what}: {count} of {tries} sequences");
        let Some((st, calls)) = best else { continue };
        let shown: Vec<String> =
            calls.iter().map(|c| format!("{} {:?}", if c.operation == plain::Operation::Remove { "remove" } else { "set" }, c.keys)).collect();
        println!("    smallest found: order {}, minimum {}: {}", st.order, st.minimum, shown.join(", "));
        println!("    before the last: {}", run(&st, &calls[..calls.len() - 1]).map_or_else(|e| e, |n| n.picture()));
        println!("    left: {}", run(&st, &calls).map_or_else(|e| e, |n| n.picture()));
        println!("    plain list: {:?}", reach::plain_list(&calls).iter().map(|e| e.key).collect::<Vec<_>>());
    }
    println!();
}

/// Random trees and batches: the first two variants part only where the amounts differed, the last two only where a node was absorbed.
fn no_other_cause() {
    println!("No other cause");
    let mut r = Random::new(1);
    let (mut tried, mut by_amount, mut by_joining, mut panics, mut lost, mut other) = (0u64, 0u64, 0u64, 0u64, 0u64, 0u64);
    for _ in 0..150_000 {
        let order = r.pick(&[4, 4, 5, 6, 7, 8, 16]);
        let st = Settings { nodes: 200, order, minimum: r.between(1, (order + 1) / 2) };
        let (depth, most) = (r.between(1, 4), r.between(1, 60));
        let root = trees::random(&mut r, order, depth, most, 3);
        let mood = r.pick(&[Mood::Grow, Mood::Churn, Mood::Clear]);
        let mut c = batch(&mut r, &st, Some(&root), &mut Keys::Below(120), mood);
        c.keys.truncate(order);
        c.keys.sort_unstable();
        c.places.resize(c.keys.len(), 5);
        c.sizes.resize(c.keys.len(), 5);
        tried += 1;
        let ((a, met), (b, met_b), (d, met_d)) =
            (first(order, st.minimum, &root, &c), second(order, st.minimum, &root, &c), third(order, st.minimum, &root, &c));
        let mut list = root.entries();
        let counts = plain::list::plain_batch(&c, &mut list);
        let right = |l: &Result<(Node, plain::Counts), String>| matches!(l, Ok((n, c)) if n.entries() == list && *c == counts);
        panics += u64::from(a.is_err());
        lost += u64::from(!right(&b));
        other += u64::from(!right(&d));
        if !agree(&a, &b) {
            by_amount += 1;
            other += u64::from(met.unequal == 0 && met_b.unequal == 0);
        }
        if !agree(&b, &d) {
            by_joining += 1;
            other += u64::from(met_b.absorbed == 0 && met_d.absorbed == 0);
        }
    }
    println!("  of {tried} random batches on random trees of orders 4 to 16:");
    println!("  {by_amount} end otherwise as published than corrected, each where the two amounts differed; {panics} of them panic");
    println!(
        "  {by_joining} end otherwise corrected than with 01's joining, each where a node was absorbed; in {lost} the list or the counts are wrong"
    );
    println!("  with another cause, or wrong with 01's joining: {other}");
    if other > 0 {
        std::process::exit(1);
    }
}
