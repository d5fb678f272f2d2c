//! Opening with settings and lengths around each limit.
use super::{Found, Work};
use plain::forest::Forest;
use plain::pool::{image, length, length_or_none, settings};
use std::time::Instant;

const NODES: [u64; 10] = [0, 1, 7, 8, 9, 16, 16_384, 16_385, 1 << 32, u64::MAX];
const ORDERS: [u64; 10] = [0, 1, 3, 4, 5, 6, 31, 32, 33, u64::MAX];
const MINIMA: [u64; 10] = [0, 1, 2, 3, 4, 15, 16, 17, 32, u64::MAX];
/// Of the other tree: in limits, and just not.
const OTHERS: [(u64, u64); 5] = [(4, 2), (7, 1), (32, 16), (4, 3), (33, 2)];

impl Work<'_> {
    pub(super) fn openings(&mut self, _until: Instant) -> Result<(), Found> {
        for n in NODES {
            for o in ORDERS {
                for m in MINIMA {
                    for (p, q) in OTHERS {
                        self.opening([n, o, m, p, q])?;
                        self.opening([n, p, q, o, m])?;
                    }
                }
            }
        }
        Ok(())
    }

    fn opening(&mut self, numbers: [u64; 5]) -> Result<(), Found> {
        let len = length_or_none(numbers);
        let got = self.lib.pool_len(numbers);
        if got != len {
            return Err((None, format!("pool length of {numbers:?}: got {got}, wanted {len}")));
        }
        self.tally.count("pool length");
        // the largest pools are opened once
        if len > 100_000 && numbers[1..] != [32, 16, 32, 16] {
            return Ok(());
        }
        for lent in [len, len + 1, len + 8, len.saturating_sub(1), len.saturating_sub(8), 0, 3392, 3360] {
            self.open(lent as usize, numbers)?;
        }
        Ok(())
    }

    fn open(&mut self, lent: usize, numbers: [u64; 5]) -> Result<(), Found> {
        let mut pool = vec![0x5a; lent];
        let got = self.lib.open(&mut pool, numbers);
        self.tally.answered("open", got);
        let (wanted, bytes) = match settings(numbers).filter(|ps| length(ps) == lent) {
            None => (1, vec![0x5a; lent]),
            Some(ps) => (0, image(&ps, &Forest::new(ps.nodes))),
        };
        if got != wanted || pool != bytes {
            return Err((None, format!("open of {lent} bytes with {numbers:?}: got {got}, wanted {wanted}; bytes as wanted: {}", pool == bytes)));
        }
        Ok(())
    }
}
