//! The linked library, by the crate alarm-index: the C functions as C has them, so that it is seen whether a refusal leaves the small
//! buffers as they were. Built where an archive is linked.
#![cfg(linked)]
use crate::library::{range_end, Comparison, Library, RawFrame};
use alarm_index::raw;
use plain::{Bound, Request};

pub struct Archive;

impl Library for Archive {
    fn name(&self) -> String {
        "the linked library".to_string()
    }
    fn pool_len(&self, settings: [u64; 5]) -> u64 {
        let [nodes, order0, minimum0, order1, minimum1] = settings;
        raw::pool_len(nodes, order0, minimum0, order1, minimum1)
    }
    fn open(&self, pool: &mut [u8], settings: [u64; 5]) -> u32 {
        let [nodes, order0, minimum0, order1, minimum1] = settings;
        raw::open(pool, nodes, order0, minimum0, order1, minimum1)
    }
    fn totals(&self, pool: &[u8], tree: u64, totals: &mut [u64; 3]) -> u32 {
        raw::totals(pool, tree, totals)
    }
    fn set(&self, pool: &mut [u8], tree: u64, keys: &[u64], place: u64, size: u32, counts: &mut [u64; 4]) -> u32 {
        raw::set(pool, tree, keys, place, size, counts)
    }
    fn set_each(&self, pool: &mut [u8], tree: u64, keys: &[u64], places: &[u64], sizes: &[u32], counts: &mut [u64; 4]) -> u32 {
        raw::set_each(pool, tree, keys, places, sizes, counts)
    }
    fn remove(&self, pool: &mut [u8], tree: u64, keys: &[u64], counts: &mut [u64; 4]) -> u32 {
        raw::remove(pool, tree, keys, counts)
    }
    fn compare(&self, pool: &mut [u8], tree: u64, keys: &[u64], how: Comparison, counts: &mut [u64; 4]) -> u32 {
        raw::compare(pool, tree, keys, how.expected, how.action, counts)
    }
    fn get(&self, pool: &[u8], tree: u64, keys: &[u64], out: &mut [u8], told: &mut [u64; 2]) -> u32 {
        raw::get(pool, tree, keys, out, told)
    }
    fn scan(&self, pool: &[u8], tree: u64, q: &Request, out: &mut [u8], told: &mut [u64; 3]) -> u32 {
        raw::scan(pool, tree, range_end(q.start), range_end(q.end), q.down, q.least, out, told)
    }
    fn portion(&self, pool: &[u8], tree: u64, from: &mut [u64; 3], end: Bound, least: u32, out: &mut [u8], told: &mut [u64; 4]) -> u32 {
        raw::portion(pool, tree, from, range_end(end), least, out, told)
    }
    fn frame(&self, pool: &[u8], tree: u64, i: u64, line: &mut [u8], len: &mut u64) -> u32 {
        raw::frame(pool, tree, i, line, len)
    }
    fn read_frame(&self, line: &[u8], f: &mut RawFrame) -> u32 {
        raw::read_frame(line, &mut f.head, &mut f.keys, &mut f.wide, &mut f.narrow, &mut f.live, &mut f.dead)
    }
    fn write_leaf(&self, count: u64, keys: &[u64; 32], places: &[u64; 32], sizes: &[u32; 32], line: &mut [u8], len: &mut u64) -> u32 {
        raw::write_leaf(count, keys, places, sizes, line, len)
    }
    fn write_interior(&self, count: u64, f: &RawFrame, line: &mut [u8], len: &mut u64) -> u32 {
        raw::write_interior(count, &f.keys, &f.narrow, &f.live, &f.dead, &f.wide, line, len)
    }
    fn pack(&self, source: &[u8], target: &mut [u8]) -> u32 {
        raw::pack(source, target)
    }
}
