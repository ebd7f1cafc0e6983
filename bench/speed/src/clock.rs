//! The shortest of many times.

use std::hint::black_box;
use std::time::{Duration, Instant};

/// A batch of calls takes at least this long, so that reading the clock does not count.
const BATCH: Duration = Duration::from_micros(50);

/// The shortest time of one call so far, in nanoseconds.
pub struct Best {
    pub nanoseconds: f64,
    batch: u32,
}

impl Best {
    pub fn new() -> Best {
        Best {
            nanoseconds: f64::INFINITY,
            batch: 1,
        }
    }

    pub fn note(&mut self, taken: Duration, calls: u32) {
        let each = taken.as_nanos() as f64 / f64::from(calls);
        self.nanoseconds = self.nanoseconds.min(each);
    }

    /// One batch of calls. The first time it is found how many a batch needs.
    pub fn call<T>(&mut self, mut call: impl FnMut() -> T) {
        loop {
            let start = Instant::now();
            for _ in 0..self.batch {
                black_box(call());
            }
            let taken = start.elapsed();
            self.note(taken, self.batch);
            if taken >= BATCH {
                return;
            }
            self.batch *= 2;
        }
    }
}
