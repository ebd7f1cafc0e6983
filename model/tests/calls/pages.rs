//! Pages, into buffers with known bytes, of which the library is lent the front.

use super::compare::{self, Met};
use super::writes::buffer;
use crate::texts::damaged::{base, Form, KINDS};
use crate::texts::{runs, tables};
use model::calls::PAGE_ROOM;
use model::rng::Rng;

/// The comparisons of each test, at least.
pub const GOOD: usize = 1_200;
pub const DAMAGED: usize = 3 * 42 * 16;
pub const CUT: usize = 200;

fn known_bytes() -> Vec<u8> {
    buffer(&mut Rng::new(6_000_000), PAGE_ROOM + 2_000)
}

/// Too short a buffer, a longer one, and one that is just long enough. Answers the page.
fn pages_of(text: &[u8], before: &[u8], rng: &mut Rng, met: &mut Met) -> Vec<u8> {
    let short = rng.pick(&[0, 9, 4096, text.len(), PAGE_ROOM - 2, PAGE_ROOM - 1]);
    compare::page(text, before, short.min(PAGE_ROOM - 1), met);
    let more = rng.between(1, 1_000);
    compare::page(text, before, PAGE_ROOM + more, met);
    compare::page(text, before, PAGE_ROOM, met)
}

/// The page's bytes behind its line `even`.
fn behind_even(page: &[u8]) -> &[u8] {
    let even = page.windows(6).position(|w| w == b"\neven=");
    &page[even.expect("a line `even`") + 8..]
}

/// Runs on accepted tables, some of them as long as can be, and refused tables. The records of a page add up.
#[test]
fn good_pages() {
    let (mut met, mut sums) = (Met::default(), Met::default());
    let mut made = runs::Met::default();
    let before = known_bytes();
    for seed in 0..400 {
        let mut rng = Rng::new(6_100_000 + seed);
        let few = rng.between(0, 60);
        let most = if seed % 40 == 0 { usize::MAX } else { few };
        let text = match seed % 4 {
            0 => runs::ready_made(&mut rng, most, &mut made),
            1 => {
                let refusal = rng.pick(&[1, 2, 3, 4, 6, 7]);
                tables::text(&mut rng, refusal, few)
            }
            _ => runs::accepted(&mut rng, most, &mut made),
        };
        let page = pages_of(text.as_bytes(), &before, &mut rng, &mut met);
        if seed % 4 != 1 {
            compare::tally(behind_even(&page), &mut sums);
        }
    }
    met.assert(GOOD, &[(0, 800), (16, 400)]);
    sums.assert(300, &[(0, 300)]);
    assert!(made.entered >= 1_000 && made.left >= 500, "{made:?}");
}

/// Texts of every kind of damage.
#[test]
fn pages_of_damaged_texts() {
    let mut met = Met::default();
    let mut bad = 0;
    let before = known_bytes();
    for (i, (kind, form, generate)) in KINDS.into_iter().enumerate() {
        for number in 0..16 {
            let mut rng = Rng::new(6_200_000 + 1_000 * i as u64 + number);
            let text = generate(&mut rng);
            let page = pages_of(&text, &before, &mut rng, &mut met);
            let is_bad = page == b"input=15\n";
            bad += usize::from(is_bad);
            if form != Form::Either {
                assert_eq!(is_bad, form == Form::Bad, "{kind}, number {number}");
            }
        }
    }
    met.assert(DAMAGED, &[(0, 1_200), (16, 600)]);
    assert!(bad >= 400, "{bad} bad texts");
}

/// One text, cut at every byte.
#[test]
fn pages_of_a_cut_text() {
    let mut met = Met::default();
    let before = known_bytes();
    let text = base(&mut Rng::new(6_300_000));
    for cut in 0..=text.len() {
        compare::page(&text.as_bytes()[..cut], &before, PAGE_ROOM, &mut met);
    }
    met.assert(CUT, &[(0, 200)]);
}
