//! Random messages, and records made by hand.

use super::compare::Arrival;
use model::rng::Rng;
use pafluzeno::header::{RELEASE, REQUEST, WITHDRAW};

/// A stock of few or of many.
pub fn stock(rng: &mut Rng) -> usize {
    if rng.percent(50) {
        rng.between(1, 200)
    } else {
        rng.between(1, 6)
    }
}

/// Mostly one of 1 to `limit`, now and then one around it or one that is huge.
fn number(rng: &mut Rng, limit: usize) -> usize {
    let any = rng.draw() as usize;
    match rng.below(40) {
        0 => 0,
        1 => limit + 1,
        2 => rng.pick(&[
            255,
            256,
            257,
            65536,
            1 << 32,
            (1 << 32) + 1,
            usize::MAX,
            any,
        ]),
        _ => rng.between(1, limit),
    }
}

/// So many in a hundred are requests. A message of another kind has any units, good or bad, and they mean nothing. Now and
/// then the number is none of a message.
pub fn arrival(rng: &mut Rng, stock: usize, requests: usize) -> Arrival {
    let station = number(rng, 12).wrapping_sub(1);
    let small = stock.min(4);
    let limit = rng.pick(&[stock, stock, small]);
    let units = number(rng, limit);
    let message = if rng.percent(2) {
        let any = rng.between(3, 255) as u8;
        rng.pick(&[3, 4, 255, any])
    } else if rng.percent(requests) {
        REQUEST
    } else {
        rng.pick(&[RELEASE, RELEASE, WITHDRAW])
    };
    Arrival {
        stock,
        station,
        message,
        units,
    }
}

fn random_entry(rng: &mut Rng, k: usize) -> pafluzeno::Entry {
    pafluzeno::Entry {
        station: rng.below(12) as u8,
        units: rng.between(1, k) as u8,
    }
}

/// A record in range, made by hand: the grants may add up to more than k, and a station may wait several times. The unused
/// places hold anything.
pub fn in_range(rng: &mut Rng, k: usize) -> pafluzeno::Arbiter {
    let mut record = pafluzeno::Arbiter::default();
    let granted = rng.pick(&[0, 10, 50]);
    for units in &mut record.granted {
        if rng.percent(granted) {
            *units = rng.between(0, k) as u8;
        }
    }
    record.len = rng.pick(&[0, 1, 2, 5, 11, 12]);
    for (i, entry) in record.line.iter_mut().enumerate() {
        *entry = random_entry(rng, k);
        if i >= usize::from(record.len) {
            *entry = pafluzeno::Entry {
                station: rng.byte(),
                units: rng.byte(),
            };
        }
    }
    record
}

/// One thing in it that may be out of range. In an unused place it is not.
pub fn damage(rng: &mut Rng, k: usize, record: &mut pafluzeno::Arbiter) {
    let place = rng.below(12);
    match rng.below(6) {
        0 => record.len = rng.between(13, 255) as u8,
        1 => record.granted[place] = rng.between(k.min(254) + 1, 255) as u8,
        2 => record.line[place].station = rng.between(12, 255) as u8,
        3 => record.line[place].units = 0,
        4 => record.line[place].units = rng.between(k.min(254) + 1, 255) as u8,
        _ => {
            record.granted.fill_with(|| rng.byte());
            record.len = rng.byte();
        }
    }
}
