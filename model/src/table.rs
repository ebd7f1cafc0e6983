//! The table check: "The check tests 1 to 7 in this order".

pub mod width;

pub const MOST_STATIONS: usize = 12;
pub const MOST_STOCK: usize = 200;
pub const MOST_QUORUMS: usize = 64;

/// The bytes of scratch that the check asks for and leaves as zeros.
pub const SCRATCH: usize = 4096;

/// "bit i, worth 2^i, is one exactly when station i is a member".
pub fn is_member(quorum: u16, station: usize) -> bool {
    station < 16 && quorum / 2u16.pow(station as u32) % 2 == 1
}

/// The members of a quorum, lowest first.
pub fn members(quorum: u16) -> Vec<usize> {
    (0..16).filter(|&i| is_member(quorum, i)).collect()
}

/// The set of stations in all quorums of the family. The empty family's is all n stations.
pub fn common_part(n: usize, quorums: &[u16], family: &[usize]) -> Vec<bool> {
    (0..n)
        .map(|i| family.iter().all(|&q| is_member(quorums[q], i)))
        .collect()
}

/// "a table then lacks a common member when 2 <= width <= k + 1".
pub fn lacks_common_member(width: usize, k: usize) -> bool {
    2 <= width && width <= k + 1
}

/// Every member of `inner` belongs to `outer`.
pub fn contains(outer: u16, inner: u16) -> bool {
    (0..16).all(|i| !is_member(inner, i) || is_member(outer, i))
}

/// "It is nested when one entry contains or equals another entry."
pub fn nested(quorums: &[u16]) -> bool {
    let places = 0..quorums.len();
    places.clone().any(|a| {
        places
            .clone()
            .any(|b| a != b && contains(quorums[a], quorums[b]))
    })
}

/// "all stations belong to equally many quorums".
pub fn equal_shares(n: usize, quorums: &[u16]) -> bool {
    let shares: Vec<usize> = (0..n)
        .map(|i| quorums.iter().filter(|&&q| is_member(q, i)).count())
        .collect();
    shares.iter().all(|&share| share == shares[0])
}

/// "all quorums have equal size".
pub fn equal_sizes(quorums: &[u16]) -> bool {
    let sizes: Vec<usize> = quorums.iter().map(|&q| members(q).len()).collect();
    sizes.iter().all(|&size| size == sizes[0])
}

/// "On an accepted table and on 6, even is now 1 exactly when all stations belong to equally many quorums and all quorums
/// have equal size".
pub fn even(n: usize, quorums: &[u16]) -> bool {
    equal_shares(n, quorums) && equal_sizes(quorums)
}

/// Refusals 1 to 4, or 0: what the plain machine asks of a table.
pub fn limits(n: usize, k: usize, quorums: &[u16]) -> usize {
    if !(1..=MOST_STATIONS).contains(&n) {
        return 1;
    }
    if !(1..=MOST_STOCK).contains(&k) {
        return 2;
    }
    if !(1..=MOST_QUORUMS).contains(&quorums.len()) {
        return 3;
    }
    let outside = |q: &u16| members(*q).is_empty() || members(*q).iter().any(|&i| i >= n);
    if quorums.iter().any(outside) {
        return 4;
    }
    0
}

/// The check's answer.
#[derive(Clone, PartialEq, Eq, Debug)]
pub struct Checked {
    pub refusal: usize,
    pub width: usize,
    pub even: bool,
    pub family: Vec<usize>,
}

fn answer(refusal: usize, width: usize) -> Checked {
    Checked {
        refusal,
        width,
        even: false,
        family: Vec::new(),
    }
}

/// The whole check, on a scratch of that many bytes.
pub fn check(n: usize, k: usize, quorums: &[u16], scratch: usize) -> Checked {
    let refusal = limits(n, k, quorums);
    if refusal != 0 {
        return answer(refusal, 0);
    }
    if scratch < SCRATCH {
        return answer(5, 0);
    }
    let family = width::first_family(n, quorums).unwrap_or_default();
    let width = family.len();
    if lacks_common_member(width, k) {
        return Checked {
            even: even(n, quorums),
            family,
            ..answer(6, width)
        };
    }
    if nested(quorums) {
        return answer(7, width);
    }
    Checked {
        even: even(n, quorums),
        ..answer(0, width)
    }
}

/// "After every answer, a lent scratch of 4,096 bytes or more has zeros in its first 4,096 bytes and is unchanged
/// beyond; a shorter one is unchanged."
pub fn scratch_after(before: &[u8]) -> Vec<u8> {
    if before.len() < SCRATCH {
        return before.to_vec();
    }
    let mut after = vec![0; SCRATCH];
    after.extend_from_slice(&before[SCRATCH..]);
    after
}
