//! The typed calls of the crate alarm-index answer as the C functions must: every part of the comparison, each for some time.
#![cfg(linked)]
use oracle::parts::Work;
use oracle::typed::Typed;
use std::time::{Duration, Instant};

#[test]
fn typed_calls_agree() {
    let mut work = Work::new(&Typed, 5, false);
    for (what, _, part) in Work::parts() {
        if let Err((_, difference)) = part(&mut work, Instant::now() + Duration::from_millis(700)) {
            panic!("{what}: {difference}");
        }
    }
}
