//! Ready-made tables. "Order of tests: 1 and 2 where n and k are given, 8, 17, 18, 16."

use crate::table::{members, MOST_QUORUMS, MOST_STATIONS, MOST_STOCK};

/// A table, or the refusal.
pub type Made = Result<Vec<u16>, usize>;

fn stations_given(n: usize) -> Result<(), usize> {
    if (1..=MOST_STATIONS).contains(&n) {
        Ok(())
    } else {
        Err(1)
    }
}

fn stock_given(k: usize) -> Result<(), usize> {
    if (1..=MOST_STOCK).contains(&k) {
        Ok(())
    } else {
        Err(2)
    }
}

/// The quorum of these stations.
fn quorum_of(stations: impl Iterator<Item = usize>) -> u16 {
    stations.map(|i| 2u16.pow(i as u32)).sum()
}

/// "Singleton (from n and a station): that station alone."
pub fn singleton(n: usize, station: usize) -> Made {
    stations_given(n)?;
    if station >= n {
        return Err(8);
    }
    Ok(vec![quorum_of([station].into_iter())])
}

/// "Uniform (from n and k): all sets of floor(k x n / (k + 1)) + 1 stations, by ascending number."
pub fn uniform(n: usize, k: usize) -> Made {
    stations_given(n)?;
    stock_given(k)?;
    let size = k * n / (k + 1) + 1;
    let all = 0..2u16.pow(n as u32);
    let quorums: Vec<u16> = all.filter(|&q| members(q).len() == size).collect();
    if quorums.len() > MOST_QUORUMS {
        return Err(18);
    }
    Ok(quorums)
}

/// a^(k+1), if it is 1 to 12.
fn cube_stations(a: usize, k: usize) -> Option<usize> {
    let mut power = 1;
    for _ in 0..k + 1 {
        // At most 12 so far; with 2 or more so far the side is at most 12 too, so that no product is too large.
        power *= a;
        if power == 0 || power > MOST_STATIONS {
            return None;
        }
    }
    Some(power)
}

/// The coordinates c0, c1, ... of station c0 + c1 x a + c2 x a^2 + ...
fn coordinates(a: usize, k: usize, station: usize) -> Vec<usize> {
    let mut rest = station;
    let mut found = Vec::new();
    for _ in 0..k + 1 {
        found.push(rest % a);
        rest /= a;
    }
    found
}

/// "quorum p holds all stations that agree with station p in at least one coordinate, p ascending".
pub fn cube(a: usize, k: usize) -> Made {
    stock_given(k)?;
    let n = cube_stations(a, k).ok_or(17usize)?;
    let agree = |p: usize, s: usize| {
        let (at_p, at_s) = (coordinates(a, k, p), coordinates(a, k, s));
        at_p.iter().zip(&at_s).any(|(x, y)| x == y)
    };
    Ok((0..n)
        .map(|p| quorum_of((0..n).filter(|&s| agree(p, s))))
        .collect())
}

/// Writes the table at the buffer's start and answers the refusal and the number of quorums written. "Entries beyond the
/// table stay unchanged, on a refusal all do."
pub fn write(made: Made, out: &mut [u16]) -> (usize, usize) {
    match made {
        Err(refusal) => (refusal, 0),
        Ok(quorums) if quorums.len() > out.len() => (16, 0),
        Ok(quorums) => {
            out[..quorums.len()].copy_from_slice(&quorums);
            (0, quorums.len())
        }
    }
}
