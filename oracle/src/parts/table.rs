//! Calls to which several numbers of the table apply: the first of them must be given.
use super::{Found, Work};
use crate::script::{Cursor, Step};
use crate::session::Session;
use crate::trees;
use plain::forest::Forest;
use plain::{Action, Bound, Call, Expectation, Limits, Operation, PoolSettings, Reference, Request};
use std::time::Instant;

/// Every operation on some keys, with so many places and sizes lent.
fn every(keys: &[u64], places: usize, sizes: usize) -> Vec<Call> {
    let r = Reference { place: 3, size: 3 };
    let operations = [
        Operation::Set(r),
        Operation::SetEach,
        Operation::Remove,
        Operation::Compare(Expectation::Absent, Action::Set(r)),
        Operation::Compare(Expectation::Absent, Action::Remove),
        Operation::Compare(Expectation::Holds(r), Action::Remove),
    ];
    operations.into_iter().map(|operation| Call { operation, places: vec![7; places], sizes: vec![8; sizes], keys: keys.to_vec() }).collect()
}

impl Work<'_> {
    pub(super) fn table(&mut self, _until: Instant) -> Result<(), Found> {
        let pool = |nodes| PoolSettings { nodes, trees: [Limits { order: 4, minimum: 2 }, Limits { order: 5, minimum: 2 }] };
        let few = trees::all(&[2, 4, 6, 8, 10], 4, 2).swap_remove(0);
        let pools = [
            (pool(8), None),
            (pool(16), None),
            (pool(16), Some(trees::deepest(0, 16))),
            (pool(60), Some(trees::deepest(1, 60))),
            (pool(10), Some(trees::planted([few, trees::empty()], 10, None))),
        ];
        for (settings, start) in pools {
            let n = plain::pool::length(&settings) / 8;
            for damage in
                [None, Some(Step::Put { word: 0, value: 1 }), Some(Step::Put { word: n - 1, value: 1 }), Some(Step::Resize { len: 8 * n - 8 })]
            {
                for tree in [0, 1, 2] {
                    self.all_calls(settings, start.as_ref(), damage.clone(), tree)?;
                }
            }
        }
        Ok(())
    }

    fn all_calls(&mut self, ps: PoolSettings, start: Option<&Forest>, damage: Option<Step>, tree: u64) -> Result<(), Found> {
        let mut first = Self::fail(ps, start, &[], Session::new(self.lib, ps, start))?;
        let before: Vec<Step> = damage.into_iter().collect();
        for step in &before {
            Self::fail(ps, start, &before, first.step(step))?;
        }
        let mut steps = vec![];
        for len in 0..=ps.larger_order() + 1 {
            let up: Vec<u64> = (1..=len as u64).collect();
            let down: Vec<u64> = up.iter().rev().copied().collect();
            let turned: Vec<u64> = up.iter().map(|&k| if k == len as u64 { 1 } else { k + 1 }).collect();
            for keys in [up, down, turned, vec![5; len]] {
                for places in [len.saturating_sub(1), len, len + 1] {
                    for sizes in [len.saturating_sub(1), len, len + 1] {
                        steps.extend(every(&keys, places, sizes).into_iter().map(|c| Step::batch(tree, c)));
                    }
                }
                steps.extend([0, 23, 24, 100].map(|room| Step::Get { tree, keys: keys.clone(), room }));
            }
        }
        steps.extend([0, 1, 14, 15, 16, 17, u64::MAX].iter().flat_map(|&i| [0, 1, 2, 500].map(|room| Step::Frame { tree, i, room })));
        steps.push(Step::Totals { tree });
        steps.push(Step::Scan { tree, request: Request { start: Bound::Unbounded, end: Bound::Unbounded, down: false, least: 0 }, room: 24 });
        let cursors = [[0, 0, 0], [7, 9, 5], [1, 0, 5]].map(|from| Cursor { from, end: Bound::Unbounded, least: 0 });
        steps.extend(cursors.iter().flat_map(|&cursor| [0, 23, 24, 100].map(|room| Step::Portion { tree, cursor, room })));
        for step in steps {
            let mut s = first.fork();
            let both: Vec<Step> = before.iter().cloned().chain([step.clone()]).collect();
            Self::fail(ps, start, &both, s.step(&step))?;
            self.tally.add(&s.tally);
        }
        Ok(())
    }
}
