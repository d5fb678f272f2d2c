//! Inputs in order of size: trees by their entries, then batches by their keys, settings from the narrowest on.
use crate::trees;
use plain::tree::Node;
use plain::Call;

#[derive(Clone, Debug)]
pub struct Input {
    pub order: usize,
    pub minimum: usize,
    pub root: Node,
    pub call: Call,
}

impl Input {
    pub fn shown(&self) -> String {
        let what = match self.call.operation {
            plain::Operation::Remove => "remove",
            _ => "set",
        };
        format!("order {}, minimum {}, {}, {what} {:?}", self.order, self.minimum, self.root.picture(), self.call.keys)
    }
}

/// What to look through.
pub struct Range {
    pub settings: Vec<(usize, usize)>,
    /// Entries and keys together.
    pub sizes: std::ops::RangeInclusive<usize>,
    pub most_keys: usize,
    pub depths: std::ops::RangeInclusive<usize>,
    pub sets: bool,
    pub removes: bool,
}

/// Ascending lists of n of the keys.
fn lists(keys: &[u64], n: usize) -> Vec<Vec<u64>> {
    if n == 0 {
        return vec![vec![]];
    }
    let shorter = lists(keys, n - 1);
    shorter
        .iter()
        .flat_map(|l| keys.iter().filter(|&&k| l.last().is_none_or(|&last| last < k)).map(|&k| l.iter().copied().chain([k]).collect()))
        .collect()
}

/// The first input of which the test says so, and how many were looked at.
pub fn smallest(range: &Range, mut test: impl FnMut(&Input) -> bool) -> (Option<Input>, u64) {
    let mut seen = 0;
    for size in range.sizes.clone() {
        for b in 1..=range.most_keys.min(size) {
            let n = (size - b) as u64;
            let held: Vec<u64> = (1..=n).map(|i| 2 * i).collect();
            let any: Vec<u64> = (1..=2 * n + 1).collect();
            for &(order, minimum) in &range.settings {
                for root in range.depths.clone().flat_map(|d| trees::all(&held, order, d)) {
                    let mut calls = vec![];
                    if range.removes {
                        calls.extend(lists(&held, b).iter().map(|k| Call::remove(k)));
                    }
                    if range.sets {
                        calls.extend(lists(&any, b).iter().map(|k| Call::set(k, 1, 1)));
                    }
                    for call in calls {
                        seen += 1;
                        let input = Input { order, minimum, root: root.clone(), call };
                        if test(&input) {
                            return (Some(input), seen);
                        }
                    }
                }
            }
        }
    }
    (None, seen)
}
