//! Random steps for runs, mostly such as the machine can take: the model's own record tells which.

use crate::machine::record::{Phase, Record};
use crate::rng::Rng;
use crate::text::{Do, Step};

/// Now and then a number that no machine has.
fn number(rng: &mut Rng, limit: usize) -> usize {
    match rng.below(12) {
        0 => rng.pick(&[12, 13, 64, 200, 255, 256, 257, 65535]),
        1 => rng.below(65536),
        _ => rng.below(limit),
    }
}

/// A step of the form with any numbers; most are refused.
pub fn any_step(rng: &mut Rng, n: usize, k: usize, quorums: usize) -> Step {
    let station = number(rng, n + 1);
    match rng.pick(&Do::ALL) {
        Do::Request => {
            let with = number(rng, quorums + 1);
            Step::new(Do::Request, station, with, number(rng, k + 2))
        }
        Do::Up => Step::new(Do::Up, station, number(rng, n + 1), 0),
        Do::Down => Step::new(Do::Down, station, number(rng, n + 1), 0),
        what => Step::new(what, station, 0, 0),
    }
}

/// Every delivery that there is something to deliver for.
pub fn deliveries(r: &Record) -> Vec<Step> {
    let mut found = Vec::new();
    for s in 0..r.n {
        for j in 0..r.n {
            if !r.up[s][j].is_empty() {
                found.push(Step::new(Do::Up, s, j, 0));
            }
            if !r.down[s][j].is_empty() {
                found.push(Step::new(Do::Down, s, j, 0));
            }
        }
    }
    found
}

fn requests(rng: &mut Rng, r: &Record) -> Vec<Step> {
    let idle = (0..r.n).filter(|&s| r.stations[s] == Phase::Idle);
    idle.map(|s| {
        let units = match rng.below(3) {
            0 => rng.between(1, r.stock.min(2)),
            1 => r.stock,
            _ => rng.between(1, r.stock),
        };
        Step::new(Do::Request, s, rng.below(r.table.len()), units)
    })
    .collect()
}

fn releases(r: &Record) -> Vec<Step> {
    let holding = (0..r.n).filter(|&s| matches!(r.stations[s], Phase::Holding { .. }));
    holding.map(|s| Step::new(Do::Release, s, 0, 0)).collect()
}

fn withdrawals(r: &Record) -> Vec<Step> {
    let collecting = (0..r.n).filter(|&s| matches!(r.stations[s], Phase::Collecting { .. }));
    let withdraw = |s| Step::new(Do::Withdraw, s, 0, 0);
    collecting.map(withdraw).collect()
}

/// Mostly a step that the record allows; in so many cases of a hundred a withdrawal. Where there is none of the kind
/// drawn, it is one of another.
pub fn next_step(rng: &mut Rng, r: &Record, withdrawn: usize) -> Step {
    if rng.percent(10) {
        return any_step(rng, r.n, r.stock, r.table.len());
    }
    let kinds = [deliveries(r), requests(rng, r), releases(r), withdrawals(r)];
    let order = match rng.below(100) {
        _ if rng.percent(withdrawn) => [3, 0, 1, 2],
        0..=64 => [0, 1, 2, 3],
        65..=84 => [1, 2, 0, 3],
        _ => [2, 0, 1, 3],
    };
    match order.into_iter().find(|&kind| !kinds[kind].is_empty()) {
        Some(kind) => rng.pick(&kinds[kind]),
        None => any_step(rng, r.n, r.stock, r.table.len()),
    }
}
