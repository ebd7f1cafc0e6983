//! The check of a table, and the outages that it survives, as one would write them in plain safe Rust with an eye on speed
//! and no proof in mind: the same arguments and the same whole answers as `pafluzeno::check` and `pafluzeno::outages`.

use pafluzeno::{Accepted, Refusal, MOST_QUORUMS, MOST_STATIONS, MOST_UNITS, SCRATCH_BYTES};

/// No family leaves a set without a common station.
const NEVER: u8 = u8::MAX;

#[derive(Clone, Copy, PartialEq, Eq, Debug)]
pub struct Refused {
    pub refusal: Refusal,
    pub width: usize,
    pub even: bool,
    size: usize,
    family: [u8; MOST_STATIONS],
}

impl Refused {
    fn new(refusal: Refusal, width: usize) -> Refused {
        Refused {
            refusal,
            width,
            even: false,
            size: 0,
            family: [0; MOST_STATIONS],
        }
    }

    pub fn family(&self) -> &[u8] {
        &self.family[..self.size]
    }
}

/// Not inlined, so that it is called as the static library is.
#[inline(never)]
pub fn check(
    stations: usize,
    stock: usize,
    quorums: &[u16],
    scratch: &mut [u8],
) -> Result<Accepted, Refused> {
    let limit = limits(stations, stock, quorums);
    let Some(least) = scratch.first_chunk_mut::<SCRATCH_BYTES>() else {
        return Err(Refused::new(limit.unwrap_or(Refusal::ShortScratch), 0));
    };
    let answer = match limit {
        Some(refusal) => Err(Refused::new(refusal, 0)),
        None => judge(stations, stock, quorums, least),
    };
    least.fill(0);
    answer
}

/// Refusals 1 to 4.
fn limits(stations: usize, stock: usize, quorums: &[u16]) -> Option<Refusal> {
    if !(1..=MOST_STATIONS).contains(&stations) {
        Some(Refusal::BadStations)
    } else if !(1..=MOST_UNITS).contains(&stock) {
        Some(Refusal::BadStock)
    } else if !(1..=MOST_QUORUMS).contains(&quorums.len()) {
        Some(Refusal::BadLength)
    } else if quorums.iter().any(|&q| q == 0 || q >> stations != 0) {
        Some(Refusal::BadQuorum)
    } else {
        None
    }
}

/// The rest, on a table within the limits.
fn judge(
    stations: usize,
    stock: usize,
    quorums: &[u16],
    least: &mut [u8; SCRATCH_BYTES],
) -> Result<Accepted, Refused> {
    let all = (1 << stations) - 1;
    count_least(all, quorums, least);
    let width = match least[all] {
        NEVER => 0,
        size => usize::from(size),
    };
    if (2..=stock + 1).contains(&width) {
        return Err(Refused {
            even: even(stations, quorums),
            ..first_family(all, width, quorums, least)
        });
    }
    if nested(quorums) {
        return Err(Refused::new(Refusal::Nested, width));
    }
    let even = even(stations, quorums);
    Ok(Accepted { width, even })
}

/// For every set of stations the least number of quorums that leave none of it in common. What a quorum leaves of a set
/// is the set itself or a smaller number, so ascending order finds all that is needed.
///
/// Of the plain ways to write the inner loop this was the fastest on 64 large quorums. `map` with `min`, which takes the
/// other one of two equal numbers, cost up to nine times as much there, and leaving the loop at 0 twice as much.
fn count_least(all: usize, quorums: &[u16], least: &mut [u8; SCRATCH_BYTES]) {
    least[0] = 0;
    for set in 1..=all {
        least[set] = NEVER;
        let mut fewest = NEVER;
        for &quorum in quorums {
            fewest = fewest.min(least[set & usize::from(quorum)]);
        }
        least[set] = fewest.saturating_add(1);
    }
}

/// Of the smallest families with an empty common part the first in dictionary order: the first quorum that belongs to
/// one, the first that goes on from there, and so on.
fn first_family(all: usize, width: usize, quorums: &[u16], least: &[u8; SCRATCH_BYTES]) -> Refused {
    let mut refused = Refused::new(Refusal::NoCommonMember, width);
    let mut left = all;
    for (number, &quorum) in quorums.iter().enumerate() {
        let part = left & usize::from(quorum);
        if least[part] < least[left] {
            refused.family[refused.size] = number as u8;
            refused.size += 1;
            left = part;
            if left == 0 {
                break;
            }
        }
    }
    refused
}

/// One of two entries contains or equals the other.
fn nested(quorums: &[u16]) -> bool {
    quorums.iter().enumerate().any(|(place, &a)| {
        quorums[place + 1..]
            .iter()
            .any(|&b| a & b == a || a & b == b)
    })
}

/// All have equal size, and all stations belong to equally many.
fn even(stations: usize, quorums: &[u16]) -> bool {
    let size = quorums[0].count_ones();
    if quorums.iter().any(|quorum| quorum.count_ones() != size) {
        return false;
    }
    let share = |station: usize| quorums.iter().filter(|&&q| q >> station & 1 == 1).count();
    let first = share(0);
    (1..stations).all(|station| share(station) == first)
}

/// For each size the sets of so many stations that contain a whole quorum. Not inlined, as above.
#[inline(never)]
pub fn outages(
    stations: usize,
    stock: usize,
    quorums: &[u16],
    scratch: &mut [u8],
) -> Result<[u16; MOST_STATIONS + 1], Refusal> {
    check(stations, stock, quorums, scratch).map_err(|refused| refused.refusal)?;
    let mut counts = [0; MOST_STATIONS + 1];
    for set in 0..1u16 << stations {
        if quorums.iter().any(|&quorum| set & quorum == quorum) {
            counts[set.count_ones() as usize] += 1;
        }
    }
    Ok(counts)
}
