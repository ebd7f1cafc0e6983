//! All records that calls lead to from a fresh one, of few stations and a small stock.

use super::quiet::{assert_quiet, assert_served};
use model::machine::record::{Message, Phase, Record};
use model::page::take_step;
use model::steps::deliveries;
use model::text::{Do, Step};
use std::collections::{HashMap, HashSet};

/// The parts of a record that belong to its stations.
type Key = Vec<u8>;

fn key(r: &Record) -> Key {
    let mut key = Vec::new();
    let lane = |key: &mut Key, messages: &mut dyn Iterator<Item = &Message>| {
        for message in messages {
            key.push(match *message {
                Message::Request(h) => 10 + h as u8,
                Message::Release => 1,
                Message::Withdraw => 2,
                Message::Grant => 3,
                Message::Gone => 4,
            });
        }
        key.push(0);
    };
    for s in 0..r.n {
        let phase = match r.stations[s] {
            Phase::Idle => [0, 0, 0, 0],
            Phase::Collecting {
                quorum,
                units,
                member,
            } => [1, quorum, units, member],
            Phase::Holding { quorum, units } => [2, quorum, units, 0],
            Phase::Withdrawing => [3, 0, 0, 0],
        };
        key.extend(phase.map(|x| x as u8));
        key.extend(r.arbiters[s].granted[..r.n].iter().map(|&g| g as u8));
        for e in &r.arbiters[s].line {
            key.extend([1 + e.station as u8, e.units as u8]);
        }
        key.push(0);
        for j in 0..r.n {
            lane(&mut key, &mut r.up[s][j].iter());
            lane(&mut key, &mut r.down[s][j].iter());
        }
    }
    key
}

/// Every call that might be done.
fn all_steps(r: &Record) -> Vec<Step> {
    let mut steps = deliveries(r);
    for s in 0..r.n {
        for quorum in 0..r.table.len() {
            for units in 1..=r.stock {
                steps.push(Step::new(Do::Request, s, quorum, units));
            }
        }
        steps.push(Step::new(Do::Release, s, 0, 0));
        steps.push(Step::new(Do::Withdraw, s, 0, 0));
    }
    steps
}

/// The most deliveries that can be made from a record, in any order.
fn longest(record: &Record, known: &mut HashMap<Key, usize>) -> usize {
    let key = key(record);
    if let Some(&found) = known.get(&key) {
        return found;
    }
    assert_served(record, "one of all records");
    let found = deliveries(record);
    if found.is_empty() {
        assert_quiet(record, "one of all records");
    }
    let mut most = 0;
    for step in found {
        let answer = take_step(record, &step);
        assert_eq!(answer.refusal, 0, "{record:?}: {step:?}");
        most = most.max(1 + longest(&answer.record, known));
    }
    known.insert(key, most);
    most
}

/// The most deliveries that can be made from any of them.
pub fn most_deliveries(n: usize, k: usize, quorums: &[u16]) -> usize {
    let start = Record::fresh(n, k, quorums);
    let mut seen = HashSet::from([key(&start)]);
    let mut known = HashMap::new();
    let mut open = vec![start];
    let mut most = 0;
    while let Some(record) = open.pop() {
        most = most.max(longest(&record, &mut known));
        for step in all_steps(&record) {
            let answer = take_step(&record, &step);
            if answer.refusal == 0 && seen.insert(key(&answer.record)) {
                open.push(answer.record);
            }
        }
    }
    most
}
