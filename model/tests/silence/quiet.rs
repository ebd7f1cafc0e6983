//! What document 02 says of deliveries, and of a record with no message under way.

use model::machine::record::{Phase, Record};

/// "at most 3 × n × n + 2 × n of them".
pub fn most(n: usize) -> usize {
    3 * n * n + 2 * n
}

pub fn collects(r: &Record, s: usize) -> bool {
    matches!(r.stations[s], Phase::Collecting { .. })
}

pub fn holds(r: &Record, s: usize) -> bool {
    matches!(r.stations[s], Phase::Holding { .. })
}

/// No message is under way: no station withdraws, and where one collects another holds.
pub fn assert_quiet(r: &Record, place: &str) {
    for s in 0..r.n {
        assert_ne!(r.stations[s], Phase::Withdrawing, "{place}: station {s}");
        let another = (0..r.n).any(|t| t != s && holds(r, t));
        assert!(!collects(r, s) || another, "{place}: station {s} waits");
    }
}

/// At every arbiter nobody waits, or the first in line does not fit.
pub fn assert_served(r: &Record, place: &str) {
    for (j, arbiter) in r.arbiters[..r.n].iter().enumerate() {
        let fits = |&entry| arbiter.fits(r.n, r.stock, entry);
        assert!(!arbiter.line.first().is_some_and(fits), "{place}: {j}");
    }
}
