//! The plain model over bytes, in the library's place: each call reads the pool from nothing and writes its image back.
use crate::library::{start, words, Comparison, Library, RawFrame};
use plain::forest::Forest;
use plain::frame::{write_frame, write_node, Branch, Frame};
use plain::look::{get_all, scan};
use plain::pack;
use plain::pool::{image, length, length_or_none, settings};
use plain::portion::portion;
use plain::read_frame::read_line;
use plain::refuse::{batch_refusal, get_refusal, tree_refusal};
use plain::sound::forest_of;
use plain::tree::Node;
use plain::{Bound, Call, Entry, Request};

pub struct StandIn;

/// Entries as get and scan write them.
pub fn entry_bytes(es: &[Entry]) -> Vec<u8> {
    es.iter().flat_map(|e| [e.key, e.place, u64::from(e.size)]).flat_map(u64::to_le_bytes).collect()
}

fn put_line(written: Result<Vec<u8>, u32>, line: &mut [u8], len: &mut u64) -> u32 {
    tell(written, len, |l| {
        line[..l.len()].copy_from_slice(&l);
        l.len() as u64
    })
}

/// A frame as the library gives it, zeros past its count.
pub fn raw_frame(f: &Frame) -> RawFrame {
    let mut r = RawFrame::zero();
    match f {
        Frame::Leaf(es) => {
            r.head = [1, es.len() as u64];
            for (i, e) in es.iter().enumerate() {
                (r.keys[i], r.wide[i], r.narrow[i]) = (e.key, e.place, e.size);
            }
        }
        Frame::Interior(bs) => {
            r.head = [0, bs.len() as u64];
            for (i, b) in bs.iter().enumerate() {
                (r.keys[i], r.wide[i], r.narrow[i], r.live[i], r.dead[i]) = (b.key, b.size, b.child, b.live, b.dead);
            }
        }
    }
    r
}

/// The root of one of the trees that a pool holds, after refusals 2 and 19.
fn held(pool: &[u8], tree: u64) -> Result<Node, u32> {
    let (_, mut f) = forest_of(pool).ok_or(2u32)?;
    match tree_refusal(tree) {
        0 => Ok(f.take(tree as usize).root),
        n => Err(n),
    }
}

fn answer(pool: &mut [u8], tree: u64, c: &Call, counts: &mut [u64; 4]) -> u32 {
    let Some((ps, mut f)) = forest_of(pool) else { return 2 };
    let n = batch_refusal(&ps, tree, c, &f);
    if n == 0 {
        *counts = f.batch(&ps, tree as usize, c).numbers();
        pool.copy_from_slice(&image(&ps, &f));
    }
    n
}

/// What a call tells, and 0; or the number of its refusal.
fn tell<T, N>(answer: Result<T, u32>, told: &mut N, numbers: impl FnOnce(T) -> N) -> u32 {
    match answer {
        Err(n) => n,
        Ok(answer) => {
            *told = numbers(answer);
            0
        }
    }
}

fn put_entries(es: &[Entry], out: &mut [u8]) -> u64 {
    let bytes = entry_bytes(es);
    out[..bytes.len()].copy_from_slice(&bytes);
    es.len() as u64
}

impl Library for StandIn {
    fn name(&self) -> String {
        "the stand-in (the plain model over bytes, not the library)".to_string()
    }
    fn pool_len(&self, settings: [u64; 5]) -> u64 {
        length_or_none(settings)
    }
    fn open(&self, pool: &mut [u8], numbers: [u64; 5]) -> u32 {
        match settings(numbers) {
            Some(ps) if pool.len() == length(&ps) => {
                pool.copy_from_slice(&image(&ps, &Forest::new(ps.nodes)));
                0
            }
            _ => 1,
        }
    }
    fn totals(&self, pool: &[u8], tree: u64, totals: &mut [u64; 3]) -> u32 {
        tell(held(pool, tree).map(|root| root.totals()), totals, |t| [t.live, t.dead, t.size])
    }
    fn set(&self, pool: &mut [u8], tree: u64, keys: &[u64], place: u64, size: u32, counts: &mut [u64; 4]) -> u32 {
        answer(pool, tree, &Call::set(keys, place, size), counts)
    }
    fn set_each(&self, pool: &mut [u8], tree: u64, keys: &[u64], places: &[u64], sizes: &[u32], counts: &mut [u64; 4]) -> u32 {
        answer(pool, tree, &Call::set_each(keys, places, sizes), counts)
    }
    fn remove(&self, pool: &mut [u8], tree: u64, keys: &[u64], counts: &mut [u64; 4]) -> u32 {
        answer(pool, tree, &Call::remove(keys), counts)
    }
    fn compare(&self, pool: &mut [u8], tree: u64, keys: &[u64], how: Comparison, counts: &mut [u64; 4]) -> u32 {
        let (expectation, action) = how.parts();
        answer(pool, tree, &Call::compare(keys, expectation, action), counts)
    }
    fn get(&self, pool: &[u8], tree: u64, keys: &[u64], out: &mut [u8], told: &mut [u64; 2]) -> u32 {
        let answer = held(pool, tree).and_then(|root| match get_refusal(tree, keys) {
            0 => Ok(get_all(keys, out.len() / 24, &root)),
            n => Err(n),
        });
        tell(answer, told, |l| [put_entries(&l.written, out), l.more.into()])
    }
    fn scan(&self, pool: &[u8], tree: u64, q: &Request, out: &mut [u8], told: &mut [u64; 3]) -> u32 {
        let answer = held(pool, tree).map(|root| scan(q, out.len() / 24, &root));
        tell(answer, told, |s| [put_entries(&s.listed.written, out), s.listed.more.into(), s.opened])
    }
    fn portion(&self, pool: &[u8], tree: u64, from: &mut [u64; 3], end: Bound, least: u32, out: &mut [u8], told: &mut [u64; 4]) -> u32 {
        let answer = held(pool, tree).map(|root| portion(start(*from), end, least, out.len() / 24, &root));
        tell(answer, told, |p| {
            let listed = &p.scanned.listed;
            // a start that stays keeps its words, whatever its flags are
            if !listed.written.is_empty() {
                *from = words(p.next);
            }
            [put_entries(&listed.written, out), listed.more.into(), p.scanned.opened, p.ended.into()]
        })
    }
    fn frame(&self, pool: &[u8], tree: u64, i: u64, line: &mut [u8], len: &mut u64) -> u32 {
        put_line(held(pool, tree).and_then(|root| write_node(i, line.len(), &root)), line, len)
    }
    fn read_frame(&self, line: &[u8], frame: &mut RawFrame) -> u32 {
        tell(read_line(line), frame, |f| raw_frame(&f))
    }
    fn write_leaf(&self, count: u64, keys: &[u64; 32], places: &[u64; 32], sizes: &[u32; 32], line: &mut [u8], len: &mut u64) -> u32 {
        if count > 32 {
            return 11;
        }
        let es = (0..count as usize).map(|i| Entry { key: keys[i], place: places[i], size: sizes[i] }).collect();
        put_line(write_frame(line.len(), &Frame::Leaf(es)), line, len)
    }
    fn write_interior(&self, count: u64, f: &RawFrame, line: &mut [u8], len: &mut u64) -> u32 {
        if count > 32 {
            return 11;
        }
        let bs =
            (0..count as usize).map(|i| Branch { key: f.keys[i], child: f.narrow[i], live: f.live[i], dead: f.dead[i], size: f.wide[i] }).collect();
        put_line(write_frame(line.len(), &Frame::Interior(bs)), line, len)
    }
    fn pack(&self, source: &[u8], target: &mut [u8]) -> u32 {
        let (Some((ps, x)), Some((pu, y))) = (forest_of(source), forest_of(target)) else { return 2 };
        let n = pack::refusal(&ps, &pu, &x, &y);
        if n == 0 {
            target.copy_from_slice(&image(&pu, &pack::pack(&pu, &x)));
        }
        n
    }
}
