//! Document 02, point 4, on the model itself, and the static library against it, on random tables and scratches of all kinds.

mod tables {
    pub mod drawn;
}

use model::outages::{outages, sets, works, Outages};
use model::rng::Rng;
use model::table::{members, SCRATCH};
use pafluzeno::header;
use std::collections::BTreeMap;
use tables::drawn::{self, generate, Case};

/// Two halves, as two tests that may run at the same time.
const HALF: u64 = 12_000;

/// The library's answer in the model's words. What lies beyond the counts is 0.
fn by_library(case: &Case, scratch: &mut [u8]) -> Outages {
    let answer = header::outages(case.n, case.k, &case.quorums, scratch);
    let (counts, beyond) = answer.counts.split_at(answer.size);
    assert!(beyond.iter().all(|&count| count == 0), "{beyond:?}");
    Outages {
        refusal: answer.refusal.into(),
        counts: counts.iter().map(|&count| count.into()).collect(),
    }
}

/// The wrapper's.
fn by_wrapper(case: &Case, scratch: &mut [u8]) -> Outages {
    match pafluzeno::outages(case.n, case.k, &case.quorums, scratch) {
        Ok(survived) => Outages {
            refusal: 0,
            counts: survived
                .counts()
                .iter()
                .map(|&count| count.into())
                .collect(),
        },
        Err(refusal) => Outages {
            refusal: refusal.number().into(),
            counts: vec![],
        },
    }
}

fn compare(seed: u64, case: &Case) -> Outages {
    let ours = outages(case.n, case.k, &case.quorums, case.scratch.len());
    drawn::assert_both(seed, case, &ours, [by_library, by_wrapper]);
    ours
}

/// How many are counted of those that could be: none, some, or all.
fn share(n: usize, u: usize, count: usize) -> &'static str {
    match count {
        0 => "none",
        _ if count == sets(n, u).len() => "all",
        _ => "some",
    }
}

fn compare_half(first: u64) {
    let mut refusals = BTreeMap::new();
    let mut stations = BTreeMap::new();
    let mut shares = BTreeMap::new();
    for seed in first..first + HALF {
        let case = generate(&mut Rng::new(seed));
        let answer = compare(seed, &case);
        *refusals.entry(answer.refusal).or_insert(0) += 1;
        if answer.refusal == 0 {
            *stations.entry(case.n).or_insert(0) += 1;
        }
        // between the empty set, which never contains a quorum, and all stations, which always do
        for u in 1..answer.counts.len().max(1) - 1 {
            *shares
                .entry(share(case.n, u, answer.counts[u]))
                .or_insert(0) += 1;
        }
    }
    for refusal in 0..=7 {
        let seen = refusals.get(&refusal).copied().unwrap_or(0);
        assert!(seen >= 100, "refusals {refusals:?}");
    }
    assert!(stations.len() == 12, "stations {stations:?}");
    assert!(stations.values().all(|&seen| seen >= 50), "{stations:?}");
    assert!(shares.len() == 3, "shares {shares:?}");
    assert!(shares.values().all(|&seen| seen >= 500), "{shares:?}");
}

#[test]
fn first_half() {
    compare_half(0);
}

#[test]
fn second_half() {
    compare_half(HALF);
}

#[test]
fn all_small_tables() {
    for (seed, case) in drawn::small().iter().enumerate() {
        compare(seed as u64, case);
    }
}

/// Worked out by hand: n, k and quorums, then the counts.
#[test]
fn by_hand() {
    let rows: [(usize, usize, &[u16], &[usize]); 6] = [
        // "P2 gives 0, 0, 3, 1."
        (3, 1, &[3, 5, 6], &[0, 0, 3, 1]),
        (1, 1, &[1], &[0, 1]),
        (4, 2, &[7, 11, 13, 14], &[0, 0, 0, 4, 1]),
        // one station of three: all sets that have it
        (3, 200, &[2], &[0, 1, 2, 1]),
        // a pair, or one of it with all others
        (4, 1, &[3, 13, 14], &[0, 0, 1, 4, 1]),
        (2, 1, &[3], &[0, 0, 1]),
    ];
    for (n, k, quorums, counts) in rows {
        let case = Case {
            n,
            k,
            quorums: quorums.to_vec(),
            scratch: vec![7; SCRATCH],
        };
        assert_eq!(compare(0, &case).counts, counts, "{quorums:?}");
    }
    assert_eq!(outages(3, 2, &[3, 5, 6], SCRATCH).counts, [0; 0]);
}

/// "Their sum is the number of station sets that contain a quorum, and no count exceeds the number of sets of that size."
/// And where a count is above 0, so is the next; where it is all sets of its size, so is the next. On the model alone.
#[test]
fn laws() {
    for seed in 0..400 {
        let case = generate(&mut Rng::new(seed));
        let Case { n, k, quorums, .. } = &case;
        let counts = outages(*n, *k, quorums, SCRATCH).counts;
        if counts.is_empty() {
            continue;
        }
        let listed: Vec<Vec<usize>> = quorums.iter().map(|&q| members(q)).collect();
        let working = (0..2u16.pow(*n as u32)).filter(|&set| works(&listed, &members(set)));
        assert_eq!(counts.iter().sum::<usize>(), working.count());
        let shares: Vec<_> = (0..=*n).map(|u| share(*n, u, counts[u])).collect();
        assert!(
            shares
                .is_sorted_by_key(|share| ["none", "some", "all"].iter().position(|s| s == share)),
            "{counts:?}"
        );
        assert_eq!((counts[0], counts[*n]), (0, 1));
    }
}
