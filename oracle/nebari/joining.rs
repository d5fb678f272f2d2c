//! Document 01's joining, called by EDIT 4 in place of the published `process_absorb`: a node below the minimum is joined with the
//! previous sibling, or with the next if it is the first; up to order the two merge, else the lower keeps half, rounded up.
use super::btree_entry::{BTreeEntry, BTreeNode, Reducer};
use super::{interior::Interior, key_entry::ValueIndex, serialization::BinarySerialization, versioned::ChangeResult};
use std::fmt::Debug;

impl<Index, ReducedIndex> BTreeEntry<Index, ReducedIndex>
where
    Index: ValueIndex + Clone + BinarySerialization + Debug + 'static,
    ReducedIndex: Clone + Reducer<Index> + BinarySerialization + Debug + 'static,
{
    /// The result is Changed and the walk steps back.
    pub(super) fn join_with_sibling(child_index: usize, children: &mut Vec<Interior<Index, ReducedIndex>>, order: usize) -> (ChangeResult, bool) {
        let lower = child_index.saturating_sub(1);
        let mut upper_child = children.remove(lower + 1);
        let upper_entry = upper_child.position.get_mut().unwrap();
        let lower_child = &mut children[lower];
        let lower_entry = lower_child.position.get_mut().unwrap();
        let left = match (&mut lower_entry.node, &mut upper_entry.node) {
            (BTreeNode::Leaf(joint), BTreeNode::Leaf(more)) => join(joint, more, order),
            (BTreeNode::Interior(joint), BTreeNode::Interior(more)) => join(joint, more, order),
            _ => unreachable!(),
        };
        lower_entry.dirty = true;
        upper_entry.dirty = true;
        lower_child.key = lower_entry.max_key().clone();
        lower_child.stats = lower_entry.stats();
        if left > 0 {
            upper_child.key = upper_entry.max_key().clone();
            upper_child.stats = upper_entry.stats();
            children.insert(lower + 1, upper_child);
        }
        (ChangeResult::Changed, true)
    }
}

/// How many items are left to the upper node.
fn join<T>(lower: &mut Vec<T>, upper: &mut Vec<T>, order: usize) -> usize {
    lower.append(upper);
    if lower.len() > order {
        *upper = lower.split_off((lower.len() + 1) / 2);
    }
    upper.len()
}
