//! Texts of refused tables.

use model::page::table_lines;
use model::random;
use model::rng::Rng;
use model::steps::any_step;
use model::table::{check, SCRATCH};

/// Stations, stock and quorums.
type Table = (usize, usize, Vec<u16>);

/// One that may be refused so; the caller looks.
fn attempt(rng: &mut Rng, refusal: usize) -> Table {
    let n = rng.between(1, 12);
    let most = rng.pick(&[4, 200]);
    let k = rng.between(1, most);
    let count = rng.between(1, 64);
    let mut quorums = random::accepted(rng, n, k);
    match refusal {
        1 => {
            let other = rng.between(13, 65535);
            let bad = rng.pick(&[0, 13, 14, 64, 255, 256, 257, 268, 65535, other]);
            return (bad, rng.pick(&[k, 0, 300]), quorums);
        }
        2 => return (n, rng.pick(&[0, 201, 255, 256, 257, 456, 65535]), quorums),
        3 => quorums.clear(),
        4 => {
            let place = rng.below(quorums.len());
            let outside = 2u16.pow(rng.between(n, 15) as u32);
            quorums[place] = rng.pick(&[0, outside, outside + 1, 65535]);
        }
        6 if n > 1 => match rng.below(3) {
            0 => quorums = random::any(rng, n, count),
            1 => quorums = random::wide(rng, n, count, 3),
            _ => {
                let width = rng.between(2, n);
                quorums = random::of_width(rng, n, count, width);
            }
        },
        _ => {
            // One entry more that contains another, or is equal to it.
            let mut more = rng.pick(&quorums);
            if rng.percent(50) {
                more |= random::quorum(rng, n, 30);
            }
            quorums.insert(rng.below(quorums.len() + 1), more);
        }
    }
    (n, k, quorums)
}

/// A table that the model refuses with this number, among 1, 2, 3, 4, 6 and 7. The program lends scratch enough, so that
/// it never answers 5.
pub fn refused(rng: &mut Rng, refusal: usize) -> Table {
    for _ in 0..2_000 {
        let (n, k, quorums) = attempt(rng, refusal);
        // More than 64 quorums is bad input for the program, and not 3.
        let fits = quorums.len() <= 64;
        if fits && check(n, k, &quorums, SCRATCH).refusal == refusal {
            return (n, k, quorums);
        }
    }
    panic!("no table is refused with {refusal}");
}

/// Its text, with so many steps of the form behind.
pub fn text(rng: &mut Rng, refusal: usize, steps: usize) -> String {
    let (n, k, quorums) = refused(rng, refusal);
    let mut text = table_lines(n, k, &quorums);
    for _ in 0..steps {
        text += &any_step(rng, n.min(12), k.min(200), quorums.len()).lines();
    }
    text
}
