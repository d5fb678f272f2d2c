//! Document 01's parts around the published nodes: the root, counts, sift, output room, frames. No refusals: the caller tests them first.
use super::btree_entry::{BTreeEntry, BTreeNode, KeyOperation, ModificationContext, ScanArgs};
use super::modify::{Modification, Operation};
use super::serialization::BinarySerialization;
use super::totals::{Index, Stats};
use super::{interior::Interior, key_entry::KeyEntry, versioned::ChangeResult, KeyRange, PagedWriter, ScanEvaluation};
use crate::{error::AbortError, ArcBytes};
use plain::frame::{Branch, Frame};
use plain::tree::{Items, Node};
use plain::{Action, Counts, Entry, Expectation, Listing, Reference, Request, Scanned, Totals};
use std::cell::{Cell, RefCell};
use std::{convert::Infallible, marker::PhantomData, ops::Bound};

type Published = BTreeEntry<Index, Stats>;

#[derive(Clone, Debug)]
pub struct Tree {
    pub order: usize,
    pub minimum: usize,
    pub root: Published,
}

/// A get with the root's own answer (true: not stopped) and how many keys were evaluated after the first stop.
pub struct Got {
    pub listed: Listing,
    pub went_on: bool,
    pub after_stop: usize,
}

fn bytes(k: u64) -> ArcBytes<'static> {
    ArcBytes::owned(&k.to_be_bytes())
}

fn number(b: &[u8]) -> u64 {
    let mut a = [0; 8];
    a.copy_from_slice(b);
    u64::from_be_bytes(a)
}

fn index(r: Reference) -> Index {
    Index { place: r.place, size: r.size }
}

fn entry(k: &[u8], i: &Index) -> Entry {
    Entry { key: number(k), place: i.place, size: i.size }
}

fn built(n: &Node) -> Published {
    Published::from(match &n.items {
        Items::Entries(v) => BTreeNode::Leaf(v.iter().map(|e| KeyEntry { key: bytes(e.key), index: index(e.reference()) }).collect()),
        Items::Nodes(v) => BTreeNode::Interior(v.iter().map(|n| Interior::from(built(n))).collect()),
    })
}

/// Document 01's operations as the module's.
fn operation(op: plain::Operation, references: &[Reference]) -> Operation<'static, Index> {
    match op {
        plain::Operation::Set(r) => Operation::Set(index(r)),
        plain::Operation::SetEach => Operation::SetEach(references.iter().rev().map(|r| index(*r)).collect()),
        plain::Operation::Remove => Operation::Remove,
        plain::Operation::Compare(e, a) => Operation::CompareSwap(Box::new(move |_key: &ArcBytes<'_>, held: Option<Index>| {
            let met = match e {
                Expectation::Absent => held.is_none(),
                Expectation::Holds(r) => held == Some(index(r)),
            };
            match (met, a) {
                (false, _) => KeyOperation::Skip,
                (true, Action::Set(r)) => KeyOperation::Set(index(r)),
                (true, Action::Remove) => KeyOperation::Remove,
            }
        })),
    }
}

/// The indexer counts: what is set is added or replaced, what is not is removed if it was there.
fn indexer(
    _key: &ArcBytes<'_>,
    value: Option<&Index>,
    existing: Option<&Index>,
    counts: &mut Counts,
    _w: &mut PagedWriter<'_>,
) -> Result<KeyOperation<Index>, crate::Error> {
    match (value, existing) {
        (Some(_), Some(_)) => counts.replaced += 1,
        (Some(_), None) => counts.added += 1,
        (None, Some(_)) => counts.removed += 1,
        (None, None) => {}
    }
    Ok(value.map_or(KeyOperation::Remove, |v| KeyOperation::Set(*v)))
}

impl Tree {
    pub fn open(order: usize, minimum: usize) -> Tree {
        Tree { order, minimum, root: Published::default() }
    }

    pub fn build(order: usize, minimum: usize, root: &Node) -> Tree {
        Tree { order, minimum, root: built(root) }
    }

    /// A batch; the module's own error, if it gives one. `references` are a SetEach's.
    pub fn batch(&mut self, keys: &[u64], op: plain::Operation, references: &[Reference]) -> Result<Counts, String> {
        let mut file = crate::io::NoFile;
        let mut writer = PagedWriter { file: &mut file, vault: None, cache: None };
        let mut modification = Modification { keys: keys.iter().rev().map(|k| bytes(*k)).collect(), operation: operation(op, references) };
        let context = ModificationContext {
            current_order: self.order,
            minimum_children: self.minimum,
            indexer,
            loader: |i: &Index, _w: &mut PagedWriter<'_>| Ok(Some(*i)),
            _phantom: PhantomData,
        };
        let mut counts = Counts::default();
        while !modification.keys.is_empty() {
            let left = modification.keys.len();
            match self.root.modify(&mut modification, &context, None, &mut counts, &mut writer).map_err(|e| e.0)? {
                ChangeResult::Split => self.root.split_root(),
                ChangeResult::Remove => self.root.node = BTreeNode::Leaf(Vec::new()),
                ChangeResult::Absorb | ChangeResult::Changed | ChangeResult::Unchanged => {}
            }
            if modification.keys.len() == left {
                return Err("a call of the root took no key".to_string());
            }
        }
        self.collapse();
        counts.nothing = keys.len() as u64 - counts.added - counts.replaced - counts.removed;
        Ok(counts)
    }

    fn collapse(&mut self) {
        loop {
            let only = match &mut self.root.node {
                BTreeNode::Interior(c) if c.len() == 1 => c.pop().unwrap(),
                _ => break,
            };
            self.root = *only.position.entry.unwrap();
        }
    }

    pub fn scan(&self, q: &Request, room: usize) -> Scanned {
        let key = |b: plain::Bound| match b {
            plain::Bound::Unbounded => [0; 8],
            plain::Bound::Included(k) | plain::Bound::Excluded(k) => k.to_be_bytes(),
        };
        fn view(b: plain::Bound, k: &[u8]) -> Bound<&[u8]> {
            match b {
                plain::Bound::Unbounded => Bound::Unbounded,
                plain::Bound::Included(_) => Bound::Included(k),
                plain::Bound::Excluded(_) => Bound::Excluded(k),
            }
        }
        let (s, e) = (key(q.start), key(q.end));
        let range = (view(q.start, &s), view(q.end, &e));
        let (opened, more, list) = (Cell::new(1), Cell::new(false), RefCell::new(vec![]));
        let mut args = ScanArgs::new(
            !q.down,
            |_k: &ArcBytes<'static>, st: &Stats, _d: usize| {
                if st.size < u64::from(q.least) {
                    return ScanEvaluation::Skip;
                }
                opened.set(opened.get() + 1);
                ScanEvaluation::ReadData
            },
            |_k: &ArcBytes<'static>, i: &Index| {
                if i.size < q.least {
                    ScanEvaluation::Skip
                } else if i.place != 0 && list.borrow().len() == room {
                    more.set(true);
                    ScanEvaluation::Stop
                } else {
                    ScanEvaluation::ReadData
                }
            },
            |k: ArcBytes<'static>, i: &Index, _data: ArcBytes<'static>| -> Result<(), AbortError<Infallible>> {
                list.borrow_mut().push(entry(&k, i));
                Ok(())
            },
        );
        let mut file = crate::io::NoFile;
        let went_on = self.root.scan(&range, &mut args, &mut file, None, None, 0).unwrap();
        assert_eq!(went_on, !more.get());
        drop(args);
        Scanned { listed: Listing { written: list.into_inner(), more: more.get() }, opened: opened.get() }
    }

    /// A get that stops where the output is full.
    pub fn get(&self, keys: &[u64], room: usize) -> Got {
        let mut stopped = false;
        self.get_until(keys, |written, _key| {
            stopped |= written == room;
            stopped
        })
    }

    /// A get that stops where it is told to, by the number written so far and the key.
    pub fn get_until(&self, keys: &[u64], mut stop: impl FnMut(usize, u64) -> bool) -> Got {
        let ks: Vec<[u8; 8]> = keys.iter().map(|k| k.to_be_bytes()).collect();
        let mut range = KeyRange::new(ks.iter().map(|k| &k[..]));
        let (mut more, mut after_stop) = (false, 0);
        let list = RefCell::new(vec![]);
        let mut file = crate::io::NoFile;
        let mut evaluate = |k: &ArcBytes<'static>, _i: &Index| {
            after_stop += usize::from(more);
            if stop(list.borrow().len(), number(k)) {
                more = true;
                ScanEvaluation::Stop
            } else {
                ScanEvaluation::ReadData
            }
        };
        let mut read = |k: ArcBytes<'static>, i: &Index| {
            list.borrow_mut().push(entry(&k, i));
            Ok(())
        };
        let went_on = self.root.get(&mut range, &mut evaluate, &mut read, &mut file, None, None).unwrap();
        Got { listed: Listing { written: list.into_inner(), more }, went_on, after_stop }
    }

    pub fn totals(&self) -> Totals {
        let s = self.root.stats();
        Totals { live: s.live.into(), dead: s.dead.into(), size: s.size }
    }

    /// The tree as plain nodes, all in slot 0: the module has no slots.
    pub fn shape(&self) -> Node {
        fn go(e: &Published) -> Node {
            match &e.node {
                BTreeNode::Leaf(v) => Node::leaf(0, v.iter().map(|e| entry(&e.key, &e.index)).collect()),
                BTreeNode::Interior(c) => Node::interior(0, c.iter().map(|c| go(c.position.get().unwrap())).collect()),
                BTreeNode::Uninitialized => unreachable!(),
            }
        }
        go(&self.root)
    }

    /// All frames' bytes by the published serializer, children numbered in preorder.
    pub fn frames(&self) -> Vec<Vec<u8>> {
        fn go(e: &mut Published, out: &mut Vec<Vec<u8>>) {
            let me = out.len();
            out.push(vec![]);
            if let BTreeNode::Interior(c) = &mut e.node {
                for c in c.iter_mut() {
                    c.position.number = out.len() as u32;
                    go(c.position.get_mut().unwrap(), out);
                }
            }
            out[me] = node_bytes(e);
        }
        let mut out = vec![];
        go(&mut self.root.clone(), &mut out);
        out
    }

    /// The published reader on node bytes: the frame it gives, or its message.
    pub fn read(bytes: &[u8]) -> Result<Frame, String> {
        let e = Published::deserialize_from(&mut ArcBytes::owned(bytes), Some(32)).map_err(|e| e.0)?;
        Ok(match e.node {
            BTreeNode::Leaf(v) => Frame::Leaf(v.iter().map(|e| entry(&e.key, &e.index)).collect()),
            BTreeNode::Interior(c) => Frame::Interior(
                c.iter()
                    .map(|c| Branch { key: number(&c.key), child: c.position.number, live: c.stats.live, dead: c.stats.dead, size: c.stats.size })
                    .collect(),
            ),
            BTreeNode::Uninitialized => unreachable!(),
        })
    }

    /// The published writer on entries.
    pub fn write(f: &Frame) -> Vec<u8> {
        let key = |k: u64| bytes(k);
        node_bytes(&mut Published::from(match f {
            Frame::Leaf(v) => BTreeNode::Leaf(v.iter().map(|e| KeyEntry { key: key(e.key), index: index(e.reference()) }).collect()),
            Frame::Interior(v) => BTreeNode::Interior(
                v.iter()
                    .map(|b| Interior {
                        key: key(b.key),
                        position: super::interior::Pointer { number: b.child, entry: None },
                        stats: Stats { live: b.live, dead: b.dead, size: b.size },
                    })
                    .collect(),
            ),
        }))
    }
}

fn node_bytes(e: &mut Published) -> Vec<u8> {
    let mut file = crate::io::NoFile;
    let mut w = PagedWriter { file: &mut file, vault: None, cache: None };
    let mut b = vec![];
    let n = e.serialize_to(&mut b, &mut w).unwrap();
    assert_eq!(n, b.len());
    b
}
