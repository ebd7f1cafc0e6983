//! "Nobody waits on silence": "make only deliveries of messages that exist, chosen in any order. After at most 3 × n × n +
//! 2 × n of them no message is under way. If a station then still collects, another station holds." On the model itself, by
//! random lists and, of one and two stations, by all records that calls lead to; and in the program `journal`.

mod silence {
    pub mod quiet;
    pub mod records;
}
#[allow(dead_code)]
mod texts {
    pub mod program;
}

use model::machine::record::{Message, Phase, Record};
use model::page::{table_lines, take_step, MOST_INPUT};
use model::random;
use model::rng::Rng;
use model::steps::{deliveries, next_step};
use model::table::limits;
use model::text::{Do, Step};
use silence::quiet::{assert_quiet, assert_served, collects, holds, most};
use silence::records::most_deliveries;
use std::collections::BTreeMap;
use texts::program::compare;

const LISTS: u64 = 3_000;
const TEXTS: u64 = 150;

/// Deliveries in a random order until there is none; none is refused, and they are no more than document 02 says.
fn deliver_all(rng: &mut Rng, mut record: Record, place: &str) -> (Vec<Step>, Record) {
    let mut made = Vec::new();
    loop {
        let found = deliveries(&record);
        if found.is_empty() {
            assert_quiet(&record, place);
            return (made, record);
        }
        let step = rng.pick(&found);
        let answer = take_step(&record, &step);
        assert_eq!(answer.refusal, 0, "{place}: {step:?}");
        made.push(step);
        assert!(made.len() <= most(record.n), "{place}");
        record = answer.record;
    }
}

/// A table that passes 1 to 4, accepted or not: the plain machine may be started on it.
fn any_table(rng: &mut Rng, n: usize, k: usize) -> Vec<u16> {
    let quorums = if rng.percent(50) {
        random::accepted(rng, n, k)
    } else {
        let count = rng.between(1, 6);
        random::any(rng, n, count)
    };
    assert_eq!(limits(n, k, &quorums), 0);
    quorums
}

/// What the lists met, so that a generator that has gone quiet is noticed.
#[derive(Default, Debug)]
struct Met {
    deliveries: BTreeMap<usize, usize>,
    /// A station withdrew when deliveries began; a message of each kind was under way.
    withdrawing: usize,
    under_way: [usize; 5],
    /// In the end one station collected, or several did; a holder held nothing of the arbiter that a station waited at.
    one_waits: usize,
    several_wait: usize,
    waits_further: usize,
    all_rest: usize,
}

fn note(met: &mut Met, before: &Record, made: usize, end: &Record) {
    *met.deliveries.entry(made.min(20)).or_insert(0) += 1;
    let stations = 0..before.n;
    let leaves = |s: usize| before.stations[s] == Phase::Withdrawing;
    met.withdrawing += usize::from(stations.clone().any(leaves));
    let lanes = before.up.iter().chain(&before.down).flatten();
    for message in lanes.flatten() {
        let kind = match message {
            Message::Request(_) => 0,
            Message::Release => 1,
            Message::Withdraw => 2,
            Message::Grant => 3,
            Message::Gone => 4,
        };
        met.under_way[kind] += 1;
    }
    let waiting: Vec<usize> = stations.filter(|&s| collects(end, s)).collect();
    met.all_rest += usize::from(waiting.is_empty());
    met.one_waits += usize::from(waiting.len() == 1);
    met.several_wait += usize::from(waiting.len() > 1);
    for &s in &waiting {
        let Phase::Collecting { member, .. } = end.stations[s] else {
            unreachable!("it collects");
        };
        let granted = |t: usize| end.arbiters[member].granted[t] > 0;
        let held = (0..end.n).any(|t| holds(end, t) && granted(t));
        met.waits_further += usize::from(!held);
    }
}

fn run(rng: &mut Rng, start: &Record, most: usize, bytes: usize) -> (Vec<Step>, Record) {
    let mut record = start.clone();
    let (mut steps, mut taken) = (Vec::new(), 0);
    let withdrawals = rng.pick(&[2, 10, 30]);
    for _ in 0..rng.between(0, most) {
        let step = next_step(rng, &record, withdrawals);
        taken += step.lines().len();
        if taken > bytes {
            break;
        }
        record = take_step(&record, &step).record;
        assert_served(&record, &format!("{step:?}"));
        steps.push(step);
    }
    (steps, record)
}

#[test]
fn random_lists() {
    let mut met = Met::default();
    for seed in 0..LISTS {
        let rng = &mut Rng::new(40_000 + seed);
        let (n, k) = (rng.between(1, 12), rng.pick(&[1, 2, 3, 5, 12, 200]));
        let quorums = any_table(rng, n, k);
        let (_, record) = run(rng, &Record::fresh(n, k, &quorums), 200, usize::MAX);
        let (made, end) = deliver_all(rng, record.clone(), &format!("seed {seed}"));
        note(&mut met, &record, made.len(), &end);
    }
    assert!(met.deliveries.values().all(|&seen| seen >= 30), "{met:?}");
    assert!(met.under_way.iter().all(|&seen| seen >= 200), "{met:?}");
    let others = [
        met.withdrawing,
        met.one_waits,
        met.several_wait,
        met.waits_further,
        met.all_rest,
    ];
    assert!(others.iter().all(|&seen| seen >= 100), "{met:?}");
}

/// One station, and two: of the one 3 × n × n + 2 × n, of the two no more than 3 × n × n. (The third table is not accepted.)
#[test]
fn every_record() {
    for k in 1..=2 {
        assert_eq!(most_deliveries(1, k, &[1]), most(1));
    }
    let tables: [&[u16]; 3] = [&[1], &[3], &[1, 2]];
    let of_two = |k: usize| tables.map(|quorums| most_deliveries(2, k, quorums));
    assert_eq!(of_two(1), [9, 10, 10]);
    assert_eq!(of_two(2), [10, 12, 12]);
}

/// The lines of a run from a fresh record, then deliveries until there are none, then every delivery once more: on the page
/// of the program none of the former is refused, and each of the latter by 13.
#[test]
fn pages() {
    let mut longest = 0;
    for number in 0..TEXTS {
        let rng = &mut Rng::new(50_000 + number);
        let (n, k) = (rng.between(1, 12), rng.pick(&[1, 2, 3, 5, 12, 200]));
        let quorums = random::accepted(rng, n, k);
        let (mut steps, record) = run(rng, &Record::fresh(n, k, &quorums), 200, MOST_INPUT / 4);
        let (made, _) = deliver_all(rng, record, &format!("text {number}"));
        longest = longest.max(made.len());
        let before = steps.len();
        steps.extend(&made);
        for s in 0..n {
            for j in 0..n {
                steps.push(Step::new(Do::Up, s, j, 0));
                steps.push(Step::new(Do::Down, s, j, 0));
            }
        }
        let lines: String = steps.iter().map(Step::lines).collect();
        let text = table_lines(n, k, &quorums) + &lines;
        let page = compare("delivered", number, text.as_bytes());
        let refused: Vec<&str> = page.lines().filter(|l| l.starts_with("refused=")).collect();
        let (done, behind) = refused[before..].split_at(made.len());
        assert!(done.iter().all(|&l| l == "refused=0"), "text {number}");
        assert!(behind.iter().all(|&l| l == "refused=13"), "text {number}");
    }
    assert!(longest >= 40, "{longest} deliveries at most");
}
