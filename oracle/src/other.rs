//! What a tree answers to a few calls of each kind. A batch on one tree must leave all of it as it was for the other.
use crate::library::{words, Library};
use crate::session::{pattern, same, Difference, UNTOLD};
use crate::stand_in::entry_bytes;
use plain::frame::frames_of;
use plain::look::{get_all, scan};
use plain::portion::portion;
use plain::tree::{Items, Node};
use plain::{Bound, Request};

/// Each with the number of its refusal, and with every byte of its output.
#[derive(Clone, PartialEq)]
pub struct Answers {
    totals: (u32, [u64; 3]),
    got: (u32, [u64; 2], Vec<u8>),
    scanned: (u32, [u64; 3], Vec<u8>),
    shown: (u32, [u64; 4], [u64; 3], Vec<u8>),
    frames: Vec<(u32, u64, Vec<u8>)>,
}

/// The entries for which a scan has room.
const ROOM: usize = 6;
const ALL: Request = Request { start: Bound::Unbounded, end: Bound::Unbounded, down: false, least: 0 };

/// The entries for which a portion has room.
const SIZE: usize = 2;

/// A portion starts behind the first of these keys.
fn behind_first(keys: &[u64]) -> Bound {
    keys.first().map_or(Bound::Unbounded, |k| Bound::Excluded(*k))
}

/// The first key, one in the middle, and the last.
fn some_keys(root: &Node) -> Vec<u64> {
    let es = root.entries();
    let mut keys: Vec<u64> = [0, es.len() / 2, es.len().saturating_sub(1)].iter().filter_map(|&i| es.get(i)).map(|e| e.key).collect();
    keys.dedup();
    keys
}

/// The root's frame, and the last one.
fn some_frames(root: &Node) -> [u64; 2] {
    [0, root.nodes() as u64 - 1]
}

/// A little more than the longest line of these frames takes: 28 bytes a row at most.
fn line_room(root: &Node) -> usize {
    let mut last = root;
    while let Items::Nodes(ns) = &last.items {
        last = ns.last().expect("a child");
    }
    56 * (root.len().max(last.len()) + 1)
}

impl Answers {
    /// What differs from these, if anything does.
    pub fn same(&self, what: &str, wanted: &Answers) -> Result<(), Difference> {
        if self == wanted {
            return Ok(());
        }
        same(&format!("{what}, totals"), self.totals, wanted.totals)?;
        same(&format!("{what}, get"), &self.got, &wanted.got)?;
        same(&format!("{what}, scan"), &self.scanned, &wanted.scanned)?;
        same(&format!("{what}, portion"), &self.shown, &wanted.shown)?;
        let line = |(number, len, line): &(u32, u64, Vec<u8>)| (*number, *len, String::from_utf8_lossy(line).into_owned());
        same(&format!("{what}, frames"), self.frames.iter().map(line).collect(), wanted.frames.iter().map(line).collect::<Vec<_>>())
    }

    /// What the library answers for a tree, which has this root.
    pub fn asked(lib: &dyn Library, pool: &[u8], tree: u64, root: &Node) -> Answers {
        let keys = some_keys(root);
        let mut totals = [UNTOLD; 3];
        let totals = (lib.totals(pool, tree, &mut totals), totals);
        let (mut out, mut told) = (pattern(24 * keys.len()), [UNTOLD; 2]);
        let got = (lib.get(pool, tree, &keys, &mut out, &mut told), told, out);
        let (mut out, mut told) = (pattern(24 * ROOM), [UNTOLD; 3]);
        let scanned = (lib.scan(pool, tree, &ALL, &mut out, &mut told), told, out);
        let (mut out, mut told, mut next) = (pattern(24 * SIZE), [UNTOLD; 4], words(behind_first(&keys)));
        let shown = (lib.portion(pool, tree, &mut next, Bound::Unbounded, 0, &mut out, &mut told), told, next, out);
        let room = line_room(root);
        let frame = |i| {
            let (mut line, mut len) = (pattern(room), UNTOLD);
            (lib.frame(pool, tree, i, &mut line, &mut len), len, line)
        };
        Answers { totals, got, scanned, shown, frames: some_frames(root).map(frame).to_vec() }
    }

    /// What the plain rules want.
    pub fn wanted(root: &Node) -> Answers {
        let keys = some_keys(root);
        let t = root.totals();
        let g = get_all(&keys, keys.len(), root);
        let s = scan(&ALL, ROOM, root);
        let p = portion(behind_first(&keys), Bound::Unbounded, 0, SIZE, root);
        let listed = &p.scanned.listed;
        let (frames, room) = (frames_of(root), line_room(root));
        let frame = |i: u64| {
            let line = frames[i as usize].line();
            (0, line.len() as u64, over(&line, room))
        };
        Answers {
            totals: (0, [t.live, t.dead, t.size]),
            got: (0, [g.written.len() as u64, g.more.into()], over(&entry_bytes(&g.written), 24 * keys.len())),
            scanned: (0, [s.listed.written.len() as u64, s.listed.more.into(), s.opened], over(&entry_bytes(&s.listed.written), 24 * ROOM)),
            shown: (
                0,
                [listed.written.len() as u64, listed.more.into(), p.scanned.opened, p.ended.into()],
                words(p.next),
                over(&entry_bytes(&listed.written), 24 * SIZE),
            ),
            frames: some_frames(root).map(frame).to_vec(),
        }
    }
}

/// A buffer of so many bytes after these were written into it.
fn over(written: &[u8], room: usize) -> Vec<u8> {
    let mut bytes = pattern(room);
    bytes[..written.len()].copy_from_slice(written);
    bytes
}
