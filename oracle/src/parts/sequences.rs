//! All sequences of a few short batches from a new pool.
use super::{Found, Work};
use crate::script::Step;
use crate::session::Session;
use plain::forest::Forest;
use plain::{Action, Call, Expectation, Limits, PoolSettings, Reference};
use std::time::Instant;

/// All ascending lists of up to `most` of these keys, equal neighbours allowed.
pub(super) fn batches(keys: &[u64], most: usize) -> Vec<Vec<u64>> {
    let mut out = vec![vec![]];
    let mut last: Vec<Vec<u64>> = vec![vec![]];
    for _ in 0..most {
        last = last
            .iter()
            .flat_map(|b| keys.iter().filter(|k| b.last().is_none_or(|l| l <= k)).map(|&k| b.iter().copied().chain([k]).collect()))
            .collect();
        out.extend(last.iter().cloned());
    }
    out
}

/// One key's references in turn; the fourth is dead.
fn each(keys: &[u64], turn: usize) -> Call {
    let places: Vec<u64> = (0..keys.len()).map(|i| ((i + turn) % 4) as u64 * 256).collect();
    Call::set_each(keys, &places, &(0..keys.len()).map(|i| 8 * (i + turn) as u32 % 40).collect::<Vec<_>>())
}

/// The batch operations that the exhaustive parts use, on some keys.
pub(super) fn calls(keys: &[u64], all: bool) -> Vec<Call> {
    let r = Reference { place: 259, size: 16 };
    let mut v = vec![each(keys, 1), Call::remove(keys), Call::compare(keys, Expectation::Absent, Action::Set(r))];
    if all {
        v.push(Call::set(keys, 256, 16));
        v.push(Call::set(keys, 0, 5));
        v.push(Call::compare(keys, Expectation::Absent, Action::Remove));
        v.push(Call::compare(keys, Expectation::Holds(r), Action::Remove));
        v.push(Call::compare(keys, Expectation::Holds(Reference { place: 256, size: 8 }), Action::Set(r)));
    }
    v
}

/// These calls on some lists of keys, on one tree.
fn steps(tree: u64, lists: &[Vec<u64>], all: bool) -> Vec<Step> {
    lists.iter().flat_map(|keys| calls(keys, all)).map(|call| Step::batch(tree, call)).collect()
}

impl Work<'_> {
    /// From a new pool: all sequences of two batches, with every operation on one tree and three of them on the other; and of three batches, with
    /// three operations on both.
    pub(super) fn sequences(&mut self, until: Instant) -> Result<(), Found> {
        let limits = |order, minimum| Limits { order, minimum };
        let pools = [
            (16, [limits(4, 2), limits(4, 2)]),
            (16, [limits(4, 1), limits(5, 3)]),
            (9, [limits(5, 2), limits(4, 1)]),
            (10, [limits(4, 2), limits(5, 2)]),
        ];
        let lists = batches(&[1, 2, 3, 4], 3);
        let begin = Instant::now();
        for (i, (nodes, trees)) in (1..).zip(pools) {
            // each pool has its share of the time
            let until = begin + (until.saturating_duration_since(begin) * i) / 4;
            let ps = PoolSettings { nodes, trees };
            let start = Self::fail(ps, None, &[], Session::new(self.lib, ps, None))?;
            self.tally.add(&start.tally);
            let [few, also] = [0, 1].map(|tree| steps(tree, &lists, false));
            let more = u64::from(i % 2 == 0);
            let wide = [steps(more, &lists, true), if more == 0 { also.clone() } else { few.clone() }].concat();
            self.onward(&start, None, &wide, 2, &mut vec![], until)?;
            self.onward(&start, None, &[few, also].concat(), 3, &mut vec![], until)?;
            if Instant::now() > until {
                println!("  (out of time with {ps:?})");
            }
        }
        Ok(())
    }

    /// All sequences of so many of the calls, from where a session stands.
    pub(super) fn onward(
        &mut self,
        s: &Session<'_>,
        start: Option<&Forest>,
        calls: &[Step],
        left: usize,
        done: &mut Vec<Step>,
        until: Instant,
    ) -> Result<(), Found> {
        if left == 0 || Instant::now() > until {
            return Ok(());
        }
        for c in calls {
            let mut t = s.fork();
            done.push(c.clone());
            Self::fail(s.settings, start, done, t.step(c))?;
            self.tally.add(&t.tally);
            self.onward(&t, start, calls, left - 1, done, until)?;
            done.pop();
        }
        Ok(())
    }
}
