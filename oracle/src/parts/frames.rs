//! Frames written and read, whole and damaged.
use super::{Found, Work};
use crate::frames;
use crate::session::Difference;
use std::time::Instant;

impl Work<'_> {
    pub(super) fn frames(&mut self, until: Instant) -> Result<(), Found> {
        let fail = |r: Result<(), Difference>| r.map_err(|d| (None, d));
        let (lib, tally, r) = (self.lib, &mut self.tally, &mut self.random);
        for line in ["", "0", "00", "01", "02", "0a", "10", "ff", "zz", "1", "0101", "02zz", "0200", "000", "01 "] {
            fail(frames::read(lib, line.as_bytes(), tally))?;
        }
        let mut first = true;
        while first || Instant::now() < until {
            for n in 0..=32 {
                let fault = r.one_in(4);
                let f = frames::random(r, n, fault);
                let len = f.line().len();
                for room in [len, len + 1, len - 1, 0, len + 300] {
                    fail(frames::write(lib, &f, n as u64, room, tally))?;
                }
                for count in [33, 34, 1 << 32, u64::MAX] {
                    fail(frames::write(lib, &f, count, len + 100, tally))?;
                    fail(frames::write(lib, &f, count, 0, tally))?;
                }
            }
            let f = frames::random(r, 3, false);
            fail(frames::damaged(lib, &f.line(), r, tally))?;
            for n in [31, 32, 33, 34, 40] {
                let fault = r.one_in(3);
                fail(frames::read(lib, &frames::random(r, n, fault).line(), tally))?;
            }
            first = false;
        }
        Ok(())
    }
}
