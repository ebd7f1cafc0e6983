//! Writing records into buffers with known bytes, of which the library is lent the front.

use super::compare::{self, Met};
use super::kinds;
use model::rng::Rng;
use model::text::WORDS;

/// The comparisons of each test, at least.
pub const ANYWHERE: usize = 60_000;
pub const EVERYWHERE: usize = 60_000;

pub fn buffer(rng: &mut Rng, len: usize) -> Vec<u8> {
    let byte = rng.byte();
    let all_equal = rng.percent(20);
    (0..len)
        .map(|_| if all_equal { byte } else { rng.byte() })
        .collect()
}

/// Any record, at a place within the buffer, at its end, past it, or so far that the place after it has no number.
#[test]
fn writes_anywhere() {
    let mut met = Met::default();
    for seed in 0..ANYWHERE as u64 {
        let mut rng = Rng::new(3_000_000 + seed);
        let record = match rng.below(10) {
            0 => kinds::bad(&mut rng),
            1 => kinds::without_word(&mut rng),
            2 => [0; 7].map(|_| rng.below(65536)),
            _ => kinds::good(&mut rng),
        };
        let size = if record[0] < WORDS.len() {
            kinds::text(record).len()
        } else {
            60
        };
        let len = rng.below(220);
        let fit = len.wrapping_sub(size);
        let any = rng.draw() as usize;
        let at = match rng.below(8) {
            0 => 0,
            1 => rng.pick(&[len, len + 1, len + size, usize::MAX, 1 << 32, 1 << 63, any]),
            2 => rng.pick(&[fit, fit.wrapping_sub(1), fit.wrapping_add(1)]),
            3 => usize::MAX - rng.below(2 * size),
            _ => rng.below(len + 1),
        };
        let before = buffer(&mut rng, len + 100);
        compare::write(&before, len, at, record, &mut met);
    }
    met.assert(ANYWHERE, &[(0, 10_000), (15, 10_000), (16, 10_000)]);
}

/// Every place of every buffer of up to 159 bytes, and two past its end. The first record is the shortest, the second the
/// longest, and the last four are not of the form.
#[test]
fn writes_everywhere() {
    let mut met = Met::default();
    let mut rng = Rng::new(4_000_000);
    let before = buffer(&mut rng, 200);
    for record in [
        [1, 0, 0, 0, 0, 0, 0],
        [0, 65535, 65535, 65535, 65535, 65535, 65535],
        [3, 12, 0, 0, 10, 0, 345],
        [2, 7, 10, 0, 13, 99, 100],
        [4, 11, 0, 0, 20, 0, 0],
        [3, 0, 1, 0, 0, 0, 0],
        [4, 0, 1, 0, 0, 0, 0],
        [4, 0, 0, 1, 0, 0, 0],
        [5, 0, 0, 0, 0, 0, 0],
    ] {
        for len in 0..160 {
            for at in 0..len + 3 {
                compare::write(&before, len, at, record, &mut met);
            }
        }
    }
    met.assert(EVERYWHERE, &[(0, 10_000), (15, 20_000), (16, 20_000)]);
}
