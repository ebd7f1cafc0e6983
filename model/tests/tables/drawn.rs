//! Random tables with their scratch, of all kinds, and all small ones.

use model::random;
use model::rng::Rng;
use model::table::{scratch_after, SCRATCH};
use std::fmt::Debug;

/// A table, its stock, and the scratch that is lent.
pub struct Case {
    pub n: usize,
    pub k: usize,
    pub quorums: Vec<u16>,
    pub scratch: Vec<u8>,
}

/// The library's answer and the wrapper's are the model's, and so is the scratch that each leaves.
pub fn assert_both<A: PartialEq + Debug>(
    seed: u64,
    case: &Case,
    ours: &A,
    theirs: [fn(&Case, &mut [u8]) -> A; 2],
) {
    let after = scratch_after(&case.scratch);
    for theirs in theirs {
        let mut scratch = case.scratch.clone();
        assert_eq!(&theirs(case, &mut scratch), ours, "{}", case.shown(seed));
        assert!(scratch == after, "the scratch of {}", case.shown(seed));
    }
}

impl Case {
    /// As a failed comparison names it.
    fn shown(&self, seed: u64) -> String {
        let Case {
            n,
            k,
            quorums,
            scratch,
        } = self;
        format!(
            "seed {seed}: n = {n}, k = {k}, scratch of {}, {quorums:?}",
            scratch.len()
        )
    }
}

/// Numbers around the limits, and some that a byte, two or four cannot hold.
fn outside(rng: &mut Rng, limit: usize) -> usize {
    let any = rng.draw() as usize;
    let large = [
        255,
        256,
        257,
        65536,
        65537,
        1 << 32,
        (1 << 32) + 1,
        usize::MAX,
        any,
    ];
    match rng.below(3) {
        0 => 0,
        1 => limit + 1 + rng.below(3),
        _ => rng.pick(&large).max(limit + 1),
    }
}

fn stock(rng: &mut Rng) -> usize {
    match rng.below(5) {
        0 => rng.between(1, 200),
        1 => rng.pick(&[1, 2, 199, 200]),
        _ => rng.between(1, 12),
    }
}

/// Up to 64 quorums of n stations, with what is needed for many to be accepted, nested, or wide without a common member.
fn table(rng: &mut Rng, n: usize, k: usize) -> Vec<u16> {
    let count = rng.between(1, 64);
    let raw = match rng.below(8) {
        0 => return random::accepted(rng, n, k),
        1 => random::any(rng, n, count),
        2 => random::with_core(rng, n, count),
        3 => random::large_enough(rng, n, k, count),
        4 | 7 if n > 1 => {
            let width = rng.between(2, n);
            random::of_width(rng, n, count, width)
        }
        5 => random::wide(rng, n, count, 2),
        _ => random::wide(rng, n, count, 5),
    };
    // A nested table, with one quorum twice or as it is, or one that is not.
    if rng.percent(40) {
        return raw;
    }
    random::without_nesting(&raw)
}

/// A ready-made table under other names, for its own stock or one that may be too much for it.
fn renamed(rng: &mut Rng) -> (usize, usize, Vec<u16>) {
    let k = rng.between(1, 11);
    match random::ready_made(rng, k) {
        Some((n, quorums)) => {
            let stock = k + rng.below(3);
            (n, stock, random::renamed(rng, n, &quorums))
        }
        None => (1, k, vec![1]),
    }
}

/// A good table whose numbers or quorums are then put outside the limits in one place of five, and in more than one.
pub fn generate(rng: &mut Rng) -> Case {
    let least = rng.pick(&[1, 7]);
    let (mut n, mut k) = (rng.between(least, 12), stock(rng));
    let mut quorums = table(rng, n, k);
    if rng.percent(20) {
        (n, k, quorums) = renamed(rng);
    }
    if rng.percent(10) {
        quorums = random::turned(rng, n);
    }
    if rng.percent(5) {
        let place = rng.below(quorums.len());
        let high = 2u16.pow(rng.between(n, 15) as u32);
        quorums[place] = rng.pick(&[0, high, high + 1, 65535, 65535 - 1]);
    }
    if rng.percent(5) {
        let size = rng.pick(&[0, 65, 70, 200]);
        quorums.resize(size, quorums[0]);
    }
    if rng.percent(5) {
        k = outside(rng, 200);
    }
    if rng.percent(5) {
        n = outside(rng, 12);
    }
    let enough = rng.pick(&[4096, 4097, 5000]);
    let len = if rng.percent(90) {
        enough
    } else {
        rng.pick(&[0, 1, 4095])
    };
    let scratch = (0..len).map(|_| rng.byte()).collect();
    Case {
        n,
        k,
        quorums,
        scratch,
    }
}

/// Every table of up to three quorums of up to four stations, at a stock of 1 to 4.
pub fn small() -> Vec<Case> {
    let mut cases = Vec::new();
    for n in 1..=4 {
        let sets = 1..2u16.pow(n);
        let mut tables: Vec<Vec<u16>> = vec![vec![]];
        for _ in 0..3 {
            let longer = |t: &Vec<u16>| {
                sets.clone()
                    .map(|q| [t.clone(), vec![q]].concat())
                    .collect::<Vec<_>>()
            };
            tables = tables.iter().flat_map(longer).collect();
            for quorums in &tables {
                cases.extend((1..=4).map(|k| Case {
                    n: n as usize,
                    k,
                    quorums: quorums.clone(),
                    scratch: vec![1; SCRATCH],
                }));
            }
        }
    }
    assert!(cases.len() >= 15_000, "{}", cases.len());
    cases
}
