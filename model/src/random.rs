//! Random tables of several kinds, for the comparisons.

use crate::ready;
use crate::rng::Rng;
use crate::table::{check, contains, members, MOST_QUORUMS, SCRATCH};

/// Each of n stations with that chance in a hundred, at least one of them.
pub fn quorum(rng: &mut Rng, n: usize, chance: usize) -> u16 {
    let mut quorum = 0;
    for i in 0..n {
        if rng.percent(chance) {
            quorum += 2u16.pow(i as u32);
        }
    }
    if quorum == 0 {
        quorum = 2u16.pow(rng.below(n) as u32);
    }
    quorum
}

/// A set of that many of n stations.
pub fn of_size(rng: &mut Rng, n: usize, size: usize) -> u16 {
    let mut stations: Vec<usize> = (0..n).collect();
    rng.shuffle(&mut stations);
    stations[..size].iter().map(|&i| 2u16.pow(i as u32)).sum()
}

/// Any quorums.
pub fn any(rng: &mut Rng, n: usize, count: usize) -> Vec<u16> {
    let chance = rng.between(5, 95);
    (0..count).map(|_| quorum(rng, n, chance)).collect()
}

/// One station belongs to all.
pub fn with_core(rng: &mut Rng, n: usize, count: usize) -> Vec<u16> {
    let core = 2u16.pow(rng.below(n) as u32);
    let mut quorums = any(rng, n, count);
    for quorum in &mut quorums {
        *quorum |= core;
    }
    quorums
}

/// Each quorum lacks 1 to `most` stations: the more that are needed to lose all stations, the wider.
pub fn wide(rng: &mut Rng, n: usize, count: usize, most: usize) -> Vec<u16> {
    let one = |rng: &mut Rng| {
        let lacking = rng.between(1, most);
        of_size(rng, n, n.saturating_sub(lacking).max(1))
    };
    (0..count).map(|_| one(rng)).collect()
}

/// A table of that width, which is 2 to n: the stations stand in as many groups, and each quorum lacks some of one group.
/// One quorum for each group lacks all of it.
pub fn of_width(rng: &mut Rng, n: usize, count: usize, width: usize) -> Vec<u16> {
    let group: Vec<usize> = (0..n)
        .map(|i| if i < width { i } else { rng.below(width) })
        .collect();
    let mut quorums = Vec::new();
    for q in 0..count.max(width) {
        let lacking = if q < width { q } else { rng.below(width) };
        let is_in = |i: &usize| group[*i] != lacking || (q >= width && rng.percent(50));
        let members: Vec<usize> = (0..n).filter(is_in).collect();
        quorums.push(members.iter().map(|&i| 2u16.pow(i as u32)).sum());
    }
    renamed(rng, n, &quorums)
}

/// All quorums have the size that is enough for a common member at a stock of k.
pub fn large_enough(rng: &mut Rng, n: usize, k: usize, count: usize) -> Vec<u16> {
    let size = k * n / (k + 1) + 1;
    (0..count).map(|_| of_size(rng, n, size)).collect()
}

/// One set or two, and all that a turn of the circle of n stations makes of them, each once: all stations belong to equally
/// many.
pub fn turned(rng: &mut Rng, n: usize) -> Vec<u16> {
    let chance = rng.between(30, 90);
    let mut quorums = Vec::new();
    for _ in 0..rng.between(1, 2) {
        let set = members(quorum(rng, n, chance));
        for by in 0..n {
            let turn = set.iter().map(|i| 2u16.pow(((i + by) % n) as u32)).sum();
            if !quorums.contains(&turn) {
                quorums.push(turn);
            }
        }
    }
    quorums
}

/// Without the entries that contain or equal another that stays.
pub fn without_nesting(quorums: &[u16]) -> Vec<u16> {
    let mut kept: Vec<u16> = Vec::new();
    for &quorum in quorums {
        if kept.iter().any(|&other| contains(quorum, other)) {
            continue;
        }
        kept.retain(|&other| !contains(other, quorum));
        kept.push(quorum);
    }
    kept
}

/// A ready-made table with its number of stations, if these arguments have one.
pub fn ready_made(rng: &mut Rng, k: usize) -> Option<(usize, Vec<u16>)> {
    let n = rng.between(1, 12);
    match rng.below(3) {
        0 => ready::singleton(n, rng.below(n)).ok().map(|t| (n, t)),
        1 => ready::uniform(n, k).ok().map(|t| (n, t)),
        _ => ready::cube(rng.between(1, 3), k).ok().map(|t| (t.len(), t)),
    }
}

/// The stations renamed, and the quorums in another order: nothing but the family changes.
pub fn renamed(rng: &mut Rng, n: usize, quorums: &[u16]) -> Vec<u16> {
    let mut names: Vec<usize> = (0..n).collect();
    rng.shuffle(&mut names);
    let rename = |&q: &u16| members(q).iter().map(|&i| 2u16.pow(names[i] as u32)).sum();
    let mut renamed: Vec<u16> = quorums.iter().map(rename).collect();
    rng.shuffle(&mut renamed);
    renamed
}

/// A table of n stations that passes the check at a stock of k.
pub fn accepted(rng: &mut Rng, n: usize, k: usize) -> Vec<u16> {
    for _ in 0..20 {
        let count = rng.between(1, MOST_QUORUMS);
        let raw = match rng.below(5) {
            0 => with_core(rng, n, count),
            1 => large_enough(rng, n, k, count),
            2 => wide(rng, n, count, 3),
            3 if n > 1 => of_width(rng, n, 1, (k + 2).min(n)),
            _ => any(rng, n, 4),
        };
        let quorums = without_nesting(&raw);
        if check(n, k, &quorums, SCRATCH).refusal == 0 {
            return quorums;
        }
    }
    vec![quorum(rng, n, 50)]
}
