//! Adding up, and reading record by record through the text after each.

use super::compare::{self, Met};
use super::kinds;
use model::rng::Rng;

/// The texts that are added up, and at least so many records that are read one after the other.
pub const TEXTS: usize = 3_000;
pub const READ: usize = 15_000;

/// Record by record through the part after each: as many as were added up, to the last byte.
fn read_through(text: &[u8], met: &mut Met) -> usize {
    let mut rest = text;
    let mut count = 0;
    while !rest.is_empty() {
        assert_eq!(compare::record(rest, met), 0);
        rest = pafluzeno::after_record(rest);
        count += 1;
    }
    assert_eq!(rest.as_ptr(), text[text.len()..].as_ptr());
    count
}

/// Something in the text that may not be there; kinds 6 and 7 leave it as it is. Answers how many of its bytes are lent.
fn damage(rng: &mut Rng, kind: u64, text: &mut Vec<u8>) -> usize {
    let at = rng.below(text.len() + 1);
    let stray = rng.pick(b"\n0d=\0");
    match kind {
        0 => return at,
        1 => text.insert(at, stray),
        2 => drop(text.splice(at..at, kinds::texts(rng, 1))),
        3 => text.extend(kinds::text(kinds::bad(rng))),
        4 if at < text.len() => text[at] ^= 1 << rng.below(8),
        5 => text.push(stray),
        _ => {}
    }
    text.len()
}

/// 0 to 200 records.
#[test]
fn tallies() {
    let (mut met, mut read) = (Met::default(), Met::default());
    let mut large = 0;
    for seed in 0..TEXTS as u64 {
        let mut rng = Rng::new(5_000_000 + seed);
        let most = rng.pick(&[1, 3, 10, 50, 200]);
        let count = rng.between(0, most);
        let mut text = kinds::texts(&mut rng, count);
        let kind = seed % 8;
        let len = damage(&mut rng, kind, &mut text);
        let sums = compare::tally(&text[..len], &mut met);
        large += usize::from(sums.entered > 65535 && sums.left > 65535);
        if kind >= 6 {
            assert_eq!((sums.refusal, sums.records), (0, count), "seed {seed}");
            assert_eq!(read_through(&text, &mut read), count, "seed {seed}");
        }
    }
    met.assert(TEXTS, &[(0, 800), (15, 1_500)]);
    read.assert(READ, &[(0, READ)]);
    assert!(large >= 300, "{large} sums are above 65535");
}

/// More records than 16 bits can count, and sums that 32 bits cannot hold.
#[test]
fn a_long_tally() {
    let mut met = Met::default();
    let mut text = kinds::text([2, 1, 0, 0, 0, 65535, 65534]).repeat(70_000);
    let sums = compare::tally(&text, &mut met);
    assert_eq!(
        (sums.records, sums.entered, sums.left),
        (70_000, 4_587_450_000, 4_587_380_000)
    );
    text.push(b'\n');
    assert_eq!(compare::tally(&text, &mut met).refusal, 15);
}
