//! The linked library by the typed calls of the crate alarm-index: what they tell is written down as the C functions would, where they were
//! not refused. A number of no tree cannot be given to them; it goes to the C functions. Built where an archive is linked.
#![cfg(linked)]
use crate::alarm::Archive;
use crate::library::{range_end, start, Comparison, Library, RawFrame};
use alarm_index::{write_interior, write_leaf, Action, Branch, Counts, Direction, Entry, Expectation, Frame, Limits, Operation, Pool};
use alarm_index::{Reference, Refusal, Settings, Sift, Tree, View};
use plain::Request;
use std::ops::Bound;

pub struct Typed;

fn tell<T, N>(answer: Result<T, Refusal>, told: &mut N, numbers: impl FnOnce(T) -> N) -> u32 {
    match answer {
        Ok(answer) => {
            *told = numbers(answer);
            0
        }
        Err(refusal) => refusal.number(),
    }
}

fn reference((place, size): (u64, u32)) -> Reference {
    Reference { place, size }
}

fn counted(answer: Result<Counts, Refusal>, counts: &mut [u64; 4]) -> u32 {
    tell(answer, counts, |c| [c.added, c.replaced, c.removed, c.nothing])
}

fn given([nodes, order0, minimum0, order1, minimum1]: [u64; 5]) -> Settings {
    Settings { nodes, first: Limits { order: order0, minimum: minimum0 }, second: Limits { order: order1, minimum: minimum1 } }
}

fn sift(least: u32) -> Sift {
    if least == 0 {
        Sift::All
    } else {
        Sift::SizeAtLeast(least)
    }
}

/// The words of a start.
fn words(b: Bound<u64>) -> [u64; 3] {
    match b {
        Bound::Unbounded => [0, 0, 0],
        Bound::Included(k) => [1, 1, k],
        Bound::Excluded(k) => [1, 0, k],
    }
}

fn fields(frame: &Frame) -> RawFrame {
    let mut f = RawFrame::zero();
    match frame {
        Frame::Leaf(rows) => {
            f.head = [1, rows.len() as u64];
            for (i, e) in rows.iter().enumerate() {
                (f.keys[i], f.wide[i], f.narrow[i]) = (e.key, e.place, e.size);
            }
        }
        Frame::Interior(rows) => {
            f.head = [0, rows.len() as u64];
            for (i, b) in rows.iter().enumerate() {
                (f.keys[i], f.wide[i], f.narrow[i], f.live[i], f.dead[i]) = (b.key, b.size, b.child, b.live, b.dead);
            }
        }
    }
    f
}

/// The first `count` rows of 32, and so many more that there are `count`.
fn rows<T: Copy>(count: u64, row: impl Fn(usize) -> T) -> Vec<T> {
    (0..count.min(33) as usize).map(|i| row(i.min(31))).collect()
}

impl Library for Typed {
    fn name(&self) -> String {
        "the linked library, by typed calls".to_string()
    }
    fn pool_len(&self, settings: [u64; 5]) -> u64 {
        given(settings).pool_len().unwrap_or(0) as u64
    }
    fn open(&self, pool: &mut [u8], settings: [u64; 5]) -> u32 {
        tell(Pool::open(pool, given(settings)), &mut (), |_| ())
    }
    fn totals(&self, pool: &[u8], tree: u64, totals: &mut [u64; 3]) -> u32 {
        let Some(tree) = Tree::from_number(tree) else { return Archive.totals(pool, tree, totals) };
        tell(View::new(pool).totals(tree), totals, |t| [t.live, t.dead, t.size])
    }
    fn set(&self, pool: &mut [u8], tree: u64, keys: &[u64], place: u64, size: u32, counts: &mut [u64; 4]) -> u32 {
        let Some(tree) = Tree::from_number(tree) else { return Archive.set(pool, tree, keys, place, size, counts) };
        counted(Pool::new(pool).set(tree, keys, reference((place, size))), counts)
    }
    fn set_each(&self, pool: &mut [u8], tree: u64, keys: &[u64], places: &[u64], sizes: &[u32], counts: &mut [u64; 4]) -> u32 {
        let Some(tree) = Tree::from_number(tree) else { return Archive.set_each(pool, tree, keys, places, sizes, counts) };
        counted(Pool::new(pool).set_each(tree, keys, places, sizes), counts)
    }
    fn remove(&self, pool: &mut [u8], tree: u64, keys: &[u64], counts: &mut [u64; 4]) -> u32 {
        let Some(tree) = Tree::from_number(tree) else { return Archive.remove(pool, tree, keys, counts) };
        counted(Pool::new(pool).remove(tree, keys), counts)
    }
    fn compare(&self, pool: &mut [u8], tree: u64, keys: &[u64], how: Comparison, counts: &mut [u64; 4]) -> u32 {
        let Some(tree) = Tree::from_number(tree) else { return Archive.compare(pool, tree, keys, how, counts) };
        let expectation = how.expected.map_or(Expectation::Absent, |r| Expectation::Holds(reference(r)));
        let action = how.action.map_or(Action::Remove, |r| Action::Set(reference(r)));
        counted(Pool::new(pool).batch(tree, keys, Operation::Compare(expectation, action)), counts)
    }
    fn get(&self, pool: &[u8], tree: u64, keys: &[u64], out: &mut [u8], told: &mut [u64; 2]) -> u32 {
        let Some(tree) = Tree::from_number(tree) else { return Archive.get(pool, tree, keys, out, told) };
        tell(View::new(pool).get(tree, keys, out), told, |g| [g.entries.len() as u64, g.more.into()])
    }
    fn scan(&self, pool: &[u8], tree: u64, q: &Request, out: &mut [u8], told: &mut [u64; 3]) -> u32 {
        let Some(tree) = Tree::from_number(tree) else { return Archive.scan(pool, tree, q, out, told) };
        let direction = if q.down { Direction::Down } else { Direction::Up };
        let answer = View::new(pool).scan(tree, (range_end(q.start), range_end(q.end)), direction, sift(q.least), out);
        tell(answer, told, |s| [s.entries.len() as u64, s.more.into(), s.opened])
    }
    fn portion(&self, pool: &[u8], tree: u64, from: &mut [u64; 3], end: plain::Bound, least: u32, out: &mut [u8], told: &mut [u64; 4]) -> u32 {
        let Some(tree) = Tree::from_number(tree) else { return Archive.portion(pool, tree, from, end, least, out, told) };
        let begin = range_end(start(*from));
        tell(View::new(pool).portion(tree, begin, range_end(end), sift(least), out), told, |p| {
            // a start that stays is told as a bound, by which the flags that were lent cannot be known
            if p.next != begin {
                *from = words(p.next);
            }
            [p.entries.len() as u64, p.more.into(), p.opened, p.ended.into()]
        })
    }
    fn frame(&self, pool: &[u8], tree: u64, i: u64, line: &mut [u8], len: &mut u64) -> u32 {
        let Some(tree) = Tree::from_number(tree) else { return Archive.frame(pool, tree, i, line, len) };
        tell(View::new(pool).frame(tree, i, line), len, |l| l.len() as u64)
    }
    fn read_frame(&self, line: &[u8], frame: &mut RawFrame) -> u32 {
        tell(Frame::read(line), frame, |f| fields(&f))
    }
    fn write_leaf(&self, count: u64, keys: &[u64; 32], places: &[u64; 32], sizes: &[u32; 32], line: &mut [u8], len: &mut u64) -> u32 {
        let entries = rows(count, |i| Entry { key: keys[i], place: places[i], size: sizes[i] });
        tell(write_leaf(&entries, line), len, |l| l.len() as u64)
    }
    fn write_interior(&self, count: u64, f: &RawFrame, line: &mut [u8], len: &mut u64) -> u32 {
        let branches = rows(count, |i| Branch { key: f.keys[i], child: f.narrow[i], live: f.live[i], dead: f.dead[i], size: f.wide[i] });
        tell(write_interior(&branches, line), len, |l| l.len() as u64)
    }
    fn pack(&self, source: &[u8], target: &mut [u8]) -> u32 {
        tell(View::new(source).pack_into(&mut Pool::new(target)), &mut (), |()| ())
    }
}
