//! Frames: the nodes of a tree in preorder, as bytes and as lines of hexadecimal, and what writing one refuses.
use crate::tree::{Items, Node};
use crate::{Entry, Totals};

#[derive(Clone, Copy, Debug, PartialEq, Eq)]
pub struct Branch {
    pub key: u64,
    pub child: u32,
    pub live: u32,
    pub dead: u32,
    pub size: u64,
}

#[derive(Clone, Debug, PartialEq, Eq)]
pub enum Frame {
    Leaf(Vec<Entry>),
    Interior(Vec<Branch>),
}

impl Frame {
    pub fn keys(&self) -> Vec<u64> {
        match self {
            Frame::Leaf(es) => es.iter().map(|e| e.key).collect(),
            Frame::Interior(bs) => bs.iter().map(|b| b.key).collect(),
        }
    }
    pub fn bytes(&self) -> Vec<u8> {
        let mut out = vec![];
        match self {
            Frame::Leaf(es) => {
                out.push(1);
                for e in es {
                    out.extend(e.key.to_be_bytes());
                    out.extend(e.place.to_be_bytes());
                    out.extend(e.size.to_be_bytes());
                }
            }
            Frame::Interior(bs) => {
                out.push(0);
                for b in bs {
                    out.extend(b.key.to_be_bytes());
                    out.extend(b.child.to_be_bytes());
                    out.extend(b.live.to_be_bytes());
                    out.extend(b.dead.to_be_bytes());
                    out.extend(b.size.to_be_bytes());
                }
            }
        }
        out
    }
    pub fn line(&self) -> Vec<u8> {
        hex(&self.bytes())
    }
}

pub fn hex(bytes: &[u8]) -> Vec<u8> {
    bytes.iter().flat_map(|b| [b"0123456789abcdef"[usize::from(b / 16)], b"0123456789abcdef"[usize::from(b % 16)]]).collect()
}

/// The frames of a tree, its root having the next number; the separator and the totals of the tree.
fn frames_from(n: &Node, out: &mut Vec<Frame>) -> (u64, Totals) {
    match &n.items {
        Items::Entries(es) => out.push(Frame::Leaf(es.clone())),
        Items::Nodes(ns) => {
            let me = out.len();
            out.push(Frame::Interior(vec![]));
            let branches = ns
                .iter()
                .map(|n| {
                    let child = out.len() as u32;
                    let (key, t) = frames_from(n, out);
                    Branch { key, child, live: t.live as u32, dead: t.dead as u32, size: t.size }
                })
                .collect();
            out[me] = Frame::Interior(branches);
        }
    }
    (n.greatest_key(), n.totals())
}

pub fn frames_of(root: &Node) -> Vec<Frame> {
    let mut out = vec![];
    frames_from(root, &mut out);
    out
}

/// Refusals 11 and 12.
pub fn entries_refusal(keys: &[u64]) -> u32 {
    if keys.len() > 32 {
        11
    } else if keys.windows(2).any(|w| w[0] >= w[1]) {
        12
    } else {
        0
    }
}

/// The line, where it fits; refusal 16.
pub fn fitted(room: usize, line: Vec<u8>) -> Result<Vec<u8>, u32> {
    if line.len() > room {
        Err(16)
    } else {
        Ok(line)
    }
}

/// The i-th frame of a tree.
pub fn write_node(i: u64, room: usize, root: &Node) -> Result<Vec<u8>, u32> {
    let frames = frames_of(root);
    match usize::try_from(i).ok().and_then(|i| frames.get(i)) {
        None => Err(14),
        Some(f) => fitted(room, f.line()),
    }
}

/// A frame given by its kind and entries.
pub fn write_frame(room: usize, f: &Frame) -> Result<Vec<u8>, u32> {
    match entries_refusal(&f.keys()) {
        0 => fitted(room, f.line()),
        n => Err(n),
    }
}
