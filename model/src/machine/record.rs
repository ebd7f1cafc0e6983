//! The machine's record, whatever it may hold, and whether it is in range.

use crate::arbiter::Arbiter;
use crate::table::{limits, MOST_STATIONS};
use std::collections::VecDeque;

/// "an up lane of at most 4 messages and a down lane of at most 2".
pub const MOST_UP: usize = 4;
pub const MOST_DOWN: usize = 2;

#[derive(Clone, Copy, PartialEq, Eq, Debug)]
pub enum Message {
    Request(usize),
    Release,
    Withdraw,
    Grant,
    Gone,
}

/// Oldest first. A lane that claims to be too long is just that long here.
pub type Lane = VecDeque<Message>;

#[derive(Clone, Copy, PartialEq, Eq, Debug)]
pub enum Phase {
    Idle,
    Collecting {
        quorum: usize,
        units: usize,
        member: usize,
    },
    Holding {
        quorum: usize,
        units: usize,
    },
    /// It keeps nothing else: what it waits for is GONE.
    Withdrawing,
}

/// There are always places for twelve stations, of which the first n count. `up[s][j]` is the lane from station s to
/// arbiter j, and `down[s][j]` the lane back.
#[derive(Clone, PartialEq, Eq, Debug)]
pub struct Record {
    pub n: usize,
    pub stock: usize,
    pub table: Vec<u16>,
    pub stations: Vec<Phase>,
    pub arbiters: Vec<Arbiter>,
    pub up: Vec<Vec<Lane>>,
    pub down: Vec<Vec<Lane>>,
}

impl Record {
    /// "A fresh record has n, the stock and the table, with all idle and empty".
    pub fn fresh(n: usize, stock: usize, quorums: &[u16]) -> Record {
        let lanes = vec![vec![Lane::new(); MOST_STATIONS]; MOST_STATIONS];
        Record {
            n,
            stock,
            table: quorums.to_vec(),
            stations: vec![Phase::Idle; MOST_STATIONS],
            arbiters: vec![Arbiter::empty(); MOST_STATIONS],
            up: lanes.clone(),
            down: lanes,
        }
    }

    pub fn empty() -> Record {
        Record::fresh(0, 0, &[])
    }

    fn units_fit(&self, units: usize) -> bool {
        1 <= units && units <= self.stock
    }

    /// "station and quorum numbers exist"; the member now approached need not belong to the quorum.
    fn phase_fits(&self, phase: &Phase) -> bool {
        match *phase {
            Phase::Idle | Phase::Withdrawing => true,
            Phase::Collecting {
                quorum,
                units,
                member,
            } => quorum < self.table.len() && self.units_fit(units) && member < self.n,
            Phase::Holding { quorum, units } => quorum < self.table.len() && self.units_fit(units),
        }
    }

    /// "up lanes have only REQUEST and RELEASE", and by document 02 WITHDRAW.
    fn up_fits(&self, lane: &Lane) -> bool {
        let fits = |message: &Message| match *message {
            Message::Request(units) => self.units_fit(units),
            Message::Release | Message::Withdraw => true,
            Message::Grant | Message::Gone => false,
        };
        lane.len() <= MOST_UP && lane.iter().all(fits)
    }

    /// "down lanes only GRANT", and by document 02 GONE.
    fn down_fits(&self, lane: &Lane) -> bool {
        let fits = |m: &Message| matches!(m, Message::Grant | Message::Gone);
        lane.len() <= MOST_DOWN && lane.iter().all(fits)
    }

    /// "Outside that: 19." Places of stations from n on do not belong to the record.
    pub fn in_range(&self) -> bool {
        if limits(self.n, self.stock, &self.table) != 0 {
            return false;
        }
        let (n, k) = (self.n, self.stock);
        let pair_fits =
            |s: usize, j: usize| self.up_fits(&self.up[s][j]) && self.down_fits(&self.down[s][j]);
        (0..n).all(|s| self.phase_fits(&self.stations[s]))
            && (0..n).all(|j| self.arbiters[j].in_range(n, k))
            && (0..n).all(|s| (0..n).all(|j| pair_fits(s, j)))
    }
}
