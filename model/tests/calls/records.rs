//! Reading records, and the text after each.

use super::compare::{self, Met};
use super::kinds::{self, KINDS};
use crate::texts::damaged::Form;
use model::rng::Rng;
use model::text::WORDS;
use pafluzeno::{read_record, Do};

/// The comparisons of each test, at least.
pub const OF_EVERY_KIND: usize = 29_000;
pub const BY_BYTES: usize = 60_000;
pub const CUT: usize = 30_000;

/// A thousand texts of each kind.
#[test]
fn records_of_every_kind() {
    let mut met = Met::default();
    for (i, (kind, form, generate)) in KINDS.into_iter().enumerate() {
        let mut bad = 0;
        for number in 0..1_000 {
            let mut rng = Rng::new(1_000_000 + 10_000 * i as u64 + number);
            let text = generate(&mut rng);
            let is_bad = compare::record(&text, &mut met) == 15;
            bad += u64::from(is_bad);
            if form != Form::Either {
                assert_eq!(is_bad, form == Form::Bad, "{kind}, number {number}");
            }
        }
        if form == Form::Either {
            assert!(10 < bad && bad < 990, "{kind}: {bad} of 1000 are bad");
        }
    }
    met.assert(OF_EVERY_KIND, &[(0, 3_000), (15, 20_000)]);
}

/// One record of each word, with every byte at every place.
#[test]
fn records_by_bytes() {
    let mut met = Met::default();
    for record in [
        [0, 1, 20, 65535, 0, 10, 0],
        [1, 11, 3, 0, 13, 0, 0],
        [2, 0, 65535, 0, 0, 200, 9],
        [3, 4, 0, 0, 12, 0, 65534],
        [4, 10, 0, 0, 20, 0, 0],
    ] {
        let text = kinds::text(record);
        for at in 0..text.len() {
            for byte in 0..=255 {
                let mut text = text.clone();
                text[at] = byte;
                compare::record(&text, &mut met);
            }
        }
    }
    met.assert(BY_BYTES, &[(0, 500), (15, 50_000)]);
}

/// Three records, of which some are not of the form: from every byte on, and cut at every byte.
#[test]
fn cut_records() {
    let mut met = Met::default();
    for seed in 0..150 {
        let mut rng = Rng::new(2_000_000 + seed);
        let mut text = kinds::texts(&mut rng, 1);
        let second = if seed % 4 == 0 {
            kinds::bad(&mut rng)
        } else {
            kinds::good(&mut rng)
        };
        text.extend(kinds::text(second));
        text.extend(kinds::texts(&mut rng, 1));
        for cut in 0..=text.len() {
            compare::record(&text[..cut], &mut met);
            compare::record(&text[cut..], &mut met);
        }
    }
    met.assert(CUT, &[(0, 10_000), (15, 10_000)]);
}

/// The words of the wrapper are those of the texts.
#[test]
fn words() {
    let named = [Do::Request, Do::Up, Do::Down, Do::Release, Do::Withdraw];
    assert_eq!(named.len(), WORDS.len());
    for (what, (name, word)) in named.into_iter().zip(WORDS).enumerate() {
        let text = kinds::text([what, 1, 0, 0, 0, 0, 0]);
        assert!(text.starts_with(format!("do={word}\n").as_bytes()));
        let (record, _) = read_record(&text).expect("a record of the form");
        assert_eq!((record.what, record.word()), (name.number(), Some(name)));
    }
    let none = pafluzeno::Record {
        what: 5,
        ..Default::default()
    };
    assert_eq!(none.word(), None);
}
