//! Records made by hand.

use crate::arbiter::{Arbiter, Entry};
use crate::machine::record::{Lane, Message, Phase, Record};
use crate::table::MOST_STATIONS;

/// P2's fresh record.
pub fn p2() -> Record {
    Record::fresh(3, 1, &[3, 5, 6])
}

/// Three stations share three units of station 0.
pub fn shared() -> Record {
    Record::fresh(3, 3, &[1])
}

/// The same message so many times.
pub fn lane(len: usize, message: Message) -> Lane {
    vec![message; len].into()
}

/// The same entry so many times, and nothing granted.
pub fn waiting(len: usize, station: usize, units: usize) -> Arbiter {
    Arbiter {
        line: vec![Entry { station, units }; len],
        ..Arbiter::empty()
    }
}

pub fn collecting(quorum: usize, units: usize, member: usize) -> Phase {
    Phase::Collecting {
        quorum,
        units,
        member,
    }
}

pub fn holding(quorum: usize, units: usize) -> Phase {
    Phase::Holding { quorum, units }
}

impl Record {
    pub fn with_up(mut self, s: usize, j: usize, lane: Lane) -> Record {
        self.up[s][j] = lane;
        self
    }

    pub fn with_down(mut self, s: usize, j: usize, lane: Lane) -> Record {
        self.down[s][j] = lane;
        self
    }

    pub fn with_phase(mut self, s: usize, phase: Phase) -> Record {
        self.stations[s] = phase;
        self
    }

    pub fn with_arbiter(mut self, j: usize, arbiter: Arbiter) -> Record {
        self.arbiters[j] = arbiter;
        self
    }
}

/// P1's fresh record, with bad contents wherever there is a place that does not belong to it.
pub fn unused_filled() -> Record {
    let mut record = Record::fresh(1, 1, &[1]);
    record.stations = vec![holding(9, 0); MOST_STATIONS];
    record.stations[0] = Phase::Idle;
    for (j, arbiter) in record.arbiters.iter_mut().enumerate() {
        *arbiter = waiting(if j == 0 { 0 } else { 200 }, 99, 0);
        arbiter.granted = vec![255; MOST_STATIONS];
    }
    record.arbiters[0].granted[0] = 0;
    let pairs = (0..MOST_STATIONS).flat_map(|s| (0..MOST_STATIONS).map(move |j| (s, j)));
    for (s, j) in pairs.filter(|&pair| pair != (0, 0)) {
        record.up[s][j] = lane(9, Message::Grant);
        record.down[s][j] = lane(9, Message::Request(0));
    }
    record
}
