//! The two ways to the width agree, and both say what document 01 and Definition 4.1 of 001 say.

use model::random;
use model::rng::Rng;
use model::table::width::{by_common_parts, by_trying_all};
use model::table::{check, common_part, is_member, lacks_common_member};
use std::collections::BTreeMap;

/// A table of up to ten quorums, of any kind.
fn small_table(rng: &mut Rng) -> (usize, Vec<u16>) {
    let n = rng.between(1, 12);
    let count = rng.between(1, 10);
    let quorums = match rng.below(5) {
        0 if n > 1 => {
            let width = rng.between(2, n.min(10));
            random::of_width(rng, n, count, width)
        }
        0 | 4 => random::any(rng, n, count),
        1 => random::wide(rng, n, count, 1),
        2 => random::wide(rng, n, count, 4),
        _ => random::with_core(rng, n, count),
    };
    (n, quorums)
}

#[test]
fn both_ways_agree_on_small_tables() {
    let mut widths = BTreeMap::new();
    for seed in 0..12_000 {
        let (n, quorums) = small_table(&mut Rng::new(seed));
        let tried = by_trying_all(n, &quorums, quorums.len());
        assert_eq!(
            by_common_parts(n, &quorums),
            tried,
            "seed {seed}: n = {n}, {quorums:?}"
        );
        let width = tried.map_or(0, |family| family.len());
        assert!(
            width <= n && width != 1,
            "seed {seed}: n = {n}, {quorums:?}"
        );
        *widths.entry(width).or_insert(0) += 1;
    }
    for width in [0, 2, 3, 4, 5, 6, 7, 8, 9, 10] {
        let seen = widths.get(&width).copied().unwrap_or(0);
        assert!(
            seen >= 50,
            "width {width} was seen {seen} times: {widths:?}"
        );
    }
}

/// Tables of 20 to 64 quorums: all families of up to three, which finds the width if it is that small.
#[test]
fn both_ways_agree_on_narrow_large_tables() {
    let (mut narrow, mut wide) = (0, 0);
    for seed in 0..300 {
        let mut rng = Rng::new(1_000_000 + seed);
        let n = rng.between(4, 12);
        let count = rng.between(20, 64);
        let most = rng.between(1, n);
        let quorums = random::wide(&mut rng, n, count, most);
        let found = by_common_parts(n, &quorums);
        match by_trying_all(n, &quorums, 3) {
            Some(tried) => {
                assert_eq!(found, Some(tried), "seed {seed}: n = {n}, {quorums:?}");
                narrow += 1;
            }
            None => {
                let width = found.map_or(0, |family| family.len());
                assert!(width == 0 || width > 3, "seed {seed}: n = {n}, {quorums:?}");
                wide += 1;
            }
        }
    }
    assert!(narrow >= 50 && wide >= 50, "{narrow} narrow, {wide} wide");
}

/// Larger tables: what is found is a family, it has an empty common part, and leaving one number out it has none.
#[test]
fn large_tables_have_smallest_families() {
    for seed in 0..600 {
        let mut rng = Rng::new(2_000_000 + seed);
        let n = rng.between(1, 12);
        let most = rng.between(1, 3);
        let quorums = random::wide(&mut rng, n, 64, most);
        let Some(family) = by_common_parts(n, &quorums) else {
            let all: Vec<usize> = (0..64).collect();
            assert!(
                common_part(n, &quorums, &all).contains(&true),
                "seed {seed}"
            );
            continue;
        };
        assert!(
            family.len() <= n && family.windows(2).all(|w| w[0] < w[1]),
            "seed {seed}"
        );
        assert!(
            !common_part(n, &quorums, &family).contains(&true),
            "seed {seed}"
        );
        for left_out in 0..family.len() {
            let mut fewer = family.clone();
            fewer.remove(left_out);
            assert!(
                common_part(n, &quorums, &fewer).contains(&true),
                "seed {seed}"
            );
        }
    }
}

/// "For any k+1 quorums" of Definition 4.1, where "a quorum may stand several times among the k + 1".
fn any_k_plus_1_meet(n: usize, k: usize, quorums: &[u16]) -> bool {
    let count = quorums.len();
    let tuples = 0..count.pow(k as u32 + 1);
    tuples.into_iter().all(|tuple| {
        let chosen: Vec<u16> = (0..k as u32 + 1)
            .map(|i| quorums[tuple / count.pow(i) % count])
            .collect();
        (0..n).any(|i| chosen.iter().all(|&q| is_member(q, i)))
    })
}

#[test]
fn width_says_what_definition_4_1_says() {
    let (mut meet, mut lack) = (0, 0);
    for seed in 0..4_000 {
        let mut rng = Rng::new(3_000_000 + seed);
        let n = rng.between(1, 6);
        let k = rng.between(1, 4);
        let count = rng.between(1, 5);
        let quorums = if rng.percent(50) {
            random::any(&mut rng, n, count)
        } else {
            random::wide(&mut rng, n, count, 2)
        };
        let met = any_k_plus_1_meet(n, k, &quorums);
        let width = by_trying_all(n, &quorums, count).map_or(0, |family| family.len());
        let shown = format!("seed {seed}: n = {n}, k = {k}, {quorums:?}");
        assert_eq!(met, !lacks_common_member(width, k), "{shown}");
        assert_eq!(met, check(n, k, &quorums, 4096).refusal != 6, "{shown}");
        *(if met { &mut meet } else { &mut lack }) += 1;
    }
    assert!(meet >= 500 && lack >= 500, "{meet} with, {lack} without");
}
