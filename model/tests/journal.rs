//! The program `journal` against the model, byte for byte, on generated texts. A case is had again from its kind and
//! number: the number is the seed.

mod texts {
    pub mod damaged;
    pub mod damaged_lines;
    pub mod lengths;
    pub mod program;
    pub mod runs;
    pub mod tables;
}

use model::page::MOST_INPUT;
use model::rng::Rng;
use texts::damaged::{Form, KINDS};
use texts::program::{compare, compare_in_pieces, run_unreadable};
use texts::runs::Met;
use texts::{lengths, runs, tables};

const SHORT_RUNS: u64 = 640;
const FULL_RUNS: u64 = 40;
const READY_MADE: u64 = 220;
/// Of each refusal, with steps behind and without.
const REFUSED: u64 = 30;
/// Of each kind.
const DAMAGED: u64 = 30;

/// Together they are enough.
const _: () = {
    let refused = 12 * REFUSED;
    let damaged = KINDS.len() as u64 * DAMAGED;
    assert!(SHORT_RUNS + FULL_RUNS + READY_MADE + refused + damaged >= 2000);
};

/// The runs met everything that a run can meet, and nothing else: a lane or line never comes to its limit (14), and the
/// record stays in range (19).
fn assert_met(met: &Met, at_least: usize) {
    for refusal in [0, 8, 9, 10, 11, 12, 13, 20] {
        let seen = met.refusals.get(&refusal).copied().unwrap_or(0);
        assert!(seen >= at_least, "{refusal} was seen {seen} times: {met:?}");
    }
    assert_eq!(met.refusals.len(), 8, "{met:?}");
    assert!(
        met.entered >= 10 * at_least && met.left >= 10 * at_least,
        "{met:?}"
    );
    assert!(
        met.waited >= 10 * at_least && met.served_together >= at_least,
        "{met:?}"
    );
    assert!(
        met.withdrawn >= 10 * at_least
            && met.left_line >= at_least
            && met.served_others >= at_least,
        "{met:?}"
    );
}

#[test]
fn short_runs() {
    let mut met = Met::default();
    for number in 0..SHORT_RUNS {
        let mut rng = Rng::new(number);
        let most = rng.between(0, 250);
        let text = runs::accepted(&mut rng, most, &mut met);
        let page = compare("short run", number, text.as_bytes());
        assert!(page.contains("\ntable=0\n"), "number {number}");
    }
    assert_met(&met, 200);
}

#[test]
fn full_runs() {
    let mut met = Met::default();
    for number in 0..FULL_RUNS {
        let mut rng = Rng::new(10_000 + number);
        let text = if number % 4 == 0 {
            runs::ready_made(&mut rng, usize::MAX, &mut met)
        } else {
            runs::accepted(&mut rng, usize::MAX, &mut met)
        };
        assert!(
            text.len() > MOST_INPUT - 60 && text.len() <= MOST_INPUT,
            "number {number}"
        );
        let page = compare("full run", number, text.as_bytes());
        assert!(page.contains("\ntable=0\n"), "number {number}");
    }
    assert_met(&met, 200);
}

#[test]
fn ready_made_tables() {
    let mut met = Met::default();
    for number in 0..READY_MADE {
        let mut rng = Rng::new(20_000 + number);
        let text = runs::ready_made(&mut rng, 120, &mut met);
        let page = compare("ready-made", number, text.as_bytes());
        assert!(page.contains("\ntable=0\n"), "number {number}");
    }
    assert_met(&met, 50);
}

/// 5 cannot be given: the program lends the check scratch enough.
#[test]
fn refused_tables() {
    for refusal in [1, 2, 3, 4, 6, 7] {
        for number in 0..2 * REFUSED {
            let mut rng = Rng::new(30_000 + 1_000 * refusal as u64 + number);
            let steps = if number % 2 == 0 {
                0
            } else {
                rng.between(1, 9)
            };
            let text = tables::text(&mut rng, refusal, steps);
            let page = compare(&format!("table refused {refusal}"), number, text.as_bytes());
            assert!(
                page.contains(&format!("\ntable={refusal}\n")),
                "number {number}"
            );
            assert_eq!(page.contains("family="), refusal == 6, "number {number}");
        }
    }
}

#[test]
fn damaged_texts() {
    for (i, (kind, form, generate)) in KINDS.into_iter().enumerate() {
        let mut bad = 0;
        for number in 0..DAMAGED {
            let mut rng = Rng::new(50_000 + 1_000 * i as u64 + number);
            let text = generate(&mut rng);
            let page = compare(kind, number, &text);
            let is_bad = page == "input=15\n";
            bad += u64::from(is_bad);
            let expected = match form {
                Form::Either => is_bad,
                other => other == Form::Bad,
            };
            assert_eq!(is_bad, expected, "{kind}, number {number}");
        }
        // Only random bytes are never of the form.
        if form == Form::Either && kind != "random bytes" {
            assert!(
                0 < bad && bad < DAMAGED,
                "{kind}: {bad} of {DAMAGED} are bad"
            );
        }
    }
}

/// Input that does not come in one piece, a byte or some thousands at a time.
#[test]
fn in_pieces() {
    for number in 0..24 {
        let mut rng = Rng::new(100_000 + number);
        let (text, piece) = match number % 3 {
            0 => {
                let text = runs::accepted(&mut rng, 3, &mut Met::default());
                (text.into_bytes(), rng.between(1, 9))
            }
            1 => (lengths::of_length(&mut rng, MOST_INPUT), 4097),
            _ => (lengths::of_length(&mut rng, MOST_INPUT + 1), MOST_INPUT),
        };
        let page = compare_in_pieces("in pieces", number, &text, piece);
        assert_eq!(page == "input=15\n", number % 3 == 2, "number {number}");
    }
}

/// A read error counts as the end of input, here of an empty one.
#[test]
fn unreadable_input() {
    let output = run_unreadable();
    assert_eq!(output.stdout.escape_ascii().to_string(), "input=15\\n");
    assert_eq!(output.status.code(), Some(0));
}
