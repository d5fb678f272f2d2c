//! Times and heap bytes: medians of many, and how far a median may be off.
use std::alloc::{GlobalAlloc, Layout, System};
use std::sync::atomic::{AtomicUsize, Ordering};
use std::time::{Duration, Instant};

/// Counts the bytes that are taken from the heap.
struct Counting;
static TAKEN: AtomicUsize = AtomicUsize::new(0);

unsafe impl GlobalAlloc for Counting {
    unsafe fn alloc(&self, l: Layout) -> *mut u8 {
        TAKEN.fetch_add(l.size(), Ordering::Relaxed);
        System.alloc(l)
    }
    unsafe fn dealloc(&self, p: *mut u8, l: Layout) {
        TAKEN.fetch_sub(l.size(), Ordering::Relaxed);
        System.dealloc(p, l)
    }
}

#[global_allocator]
static HEAP: Counting = Counting;

pub fn taken() -> usize {
    TAKEN.load(Ordering::Relaxed)
}

pub fn nanos(f: impl FnOnce()) -> f64 {
    let t = Instant::now();
    f();
    t.elapsed().as_nanos() as f64
}

/// Readings of one figure.
#[derive(Default)]
pub struct Readings(Vec<f64>);

impl Readings {
    pub fn add(&mut self, nanos: f64) {
        self.0.push(nanos);
    }
    fn at(&self, share: f64) -> f64 {
        let mut v = self.0.clone();
        v.sort_by(f64::total_cmp);
        v[((v.len() - 1) as f64 * share) as usize]
    }
    pub fn median(&self) -> f64 {
        self.at(0.5)
    }
    /// How far the median may be off: 1.57 times the middle half's width over the root of the number of readings.
    pub fn off(&self) -> f64 {
        1.57 * (self.at(0.75) - self.at(0.25)) / (self.0.len() as f64).sqrt()
    }
}

/// Turn after turn until the time is up: at least 9, at most 20,001.
pub fn turns(time: Duration, turn: impl FnMut(usize)) {
    at_least(9, time, turn);
}

fn at_least(least: usize, time: Duration, mut turn: impl FnMut(usize)) {
    let end = Instant::now() + time;
    let mut n = 0;
    while n < least || (Instant::now() < end && n < 20_001) {
        turn(n);
        n += 1;
    }
}

/// The readings of what a turn gives.
pub fn readings(time: Duration, mut turn: impl FnMut() -> f64) -> Readings {
    let mut r = Readings::default();
    turns(time, |_| r.add(turn()));
    r
}

/// The same of a turn that may take the better part of a minute: one is enough.
pub fn long_readings(time: Duration, mut turn: impl FnMut() -> f64) -> Readings {
    let mut r = Readings::default();
    at_least(1, time, |_| r.add(turn()));
    r
}
