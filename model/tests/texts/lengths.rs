//! Texts of a given length, at the limit of 65,536 bytes and beyond it.

use super::runs::{accepted, Met};
use model::page::MOST_INPUT;
use model::rng::Rng;
use model::steps::any_step;
use model::text::{Do, Step};

/// A number of 0 to 65535 of just so many digits.
fn of_digits(rng: &mut Rng, digits: usize) -> usize {
    match digits {
        1 => rng.below(10),
        5 => rng.between(10_000, 65_535),
        _ => rng.between(
            10usize.pow(digits as u32 - 1),
            10usize.pow(digits as u32) - 1,
        ),
    }
}

/// A good text but for its length, which is just `len`. An Up has 29 bytes beside the digits of its two numbers, so that
/// one can have 31 to 39 bytes, and several any sum from 124 on.
pub fn of_length(rng: &mut Rng, len: usize) -> Vec<u8> {
    let mut text = accepted(rng, 60, &mut Met::default());
    while len - text.len() > 300 {
        text += &any_step(rng, 6, 6, 6).lines();
    }
    let mut rest = len - text.len();
    let mut steps = rest.div_ceil(39);
    while steps > 0 {
        // The others can take 31 to 39 each.
        let most = (rest - 31 * (steps - 1)).min(39);
        let least = rest.saturating_sub(39 * (steps - 1)).max(31);
        let bytes = rng.between(least, most);
        let digits = bytes - 29;
        let first = rng.between(digits.saturating_sub(5).max(1), (digits - 1).min(5));
        let up = Step {
            what: Do::Up,
            station: of_digits(rng, first),
            with: of_digits(rng, digits - first),
            units: 0,
        };
        text += &up.lines();
        rest -= bytes;
        steps -= 1;
    }
    assert_eq!(text.len(), len);
    text.into_bytes()
}

pub fn last_of_65536_damaged(rng: &mut Rng) -> Vec<u8> {
    let mut text = of_length(rng, MOST_INPUT);
    text[MOST_INPUT - 1] = rng.pick(b"0 x\0\r");
    text
}

/// Good as far as the limit, good all the way, or neither.
pub fn far_too_long(rng: &mut Rng) -> Vec<u8> {
    let more = rng.between(2, 70_000);
    match rng.below(3) {
        0 => [of_length(rng, MOST_INPUT), vec![b'x'; more]].concat(),
        1 => of_length(rng, MOST_INPUT + more),
        _ => vec![rng.byte(); MOST_INPUT + more],
    }
}
