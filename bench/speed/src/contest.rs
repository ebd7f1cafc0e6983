//! A call on tables, timed: the static library, the straightforward version and the model, all on the same tables.

use crate::clock::Best;
use crate::report::{aim, heading, line, time};
use crate::tables::Case;
use model::table::SCRATCH;
use std::hint::black_box;

const MOST_NANOSECONDS: f64 = 1_000_000.0;
const MOST_RATIO: f64 = 1.2;

pub struct Timed {
    pub case: Case,
    /// The case's name and what is answered.
    label: String,
    verified: Best,
    straightforward: Best,
    model: Best,
}

impl Timed {
    pub fn new(case: Case, answer: &str) -> Timed {
        Timed {
            label: format!("{}: {answer}", case.name),
            case,
            verified: Best::new(),
            straightforward: Best::new(),
            model: Best::new(),
        }
    }

    fn ratio(&self) -> f64 {
        self.verified.nanoseconds / self.straightforward.nanoseconds
    }
}

/// How often each is called. The model takes a hundred times as long on the large tables, so it has fewer rounds.
pub struct Rounds {
    pub all: usize,
    pub model_every: usize,
}

impl Rounds {
    pub fn of_model(&self) -> usize {
        self.all / self.model_every
    }
}

/// All cases in turn and the contenders in turn for each, many times over, so that every one has its share of the machine's
/// quiet moments.
pub fn take_times<V, S, M>(
    cases: &mut [Timed],
    rounds: &Rounds,
    verified: impl Fn(&Case, &mut [u8]) -> V,
    straightforward: impl Fn(&Case, &mut [u8]) -> S,
    model: impl Fn(&Case) -> M,
) {
    let mut scratch = vec![0; SCRATCH];
    for round in 0..rounds.all {
        for timed in cases.iter_mut() {
            let case = &timed.case;
            timed
                .verified
                .call(|| verified(black_box(case), &mut scratch));
            timed
                .straightforward
                .call(|| straightforward(black_box(case), &mut scratch));
            if round % rounds.model_every == 0 {
                timed.model.call(|| model(black_box(case)));
            }
        }
    }
}

pub fn print_times(what: &str, cases: &[Timed]) {
    heading(what, "straightforward");
    for timed in cases {
        let other = timed.straightforward.nanoseconds;
        line(&timed.label, timed.verified.nanoseconds, other);
    }
    heading(what, "model");
    for timed in cases {
        let other = timed.model.nanoseconds;
        line(&timed.label, timed.verified.nanoseconds, other);
    }
}

/// The slowest of the worst cases against a millisecond.
pub fn print_slowest(what: &str, worst: &[Timed]) {
    println!();
    let slowest = worst
        .iter()
        .max_by(|a, b| a.verified.nanoseconds.total_cmp(&b.verified.nanoseconds))
        .expect("there are worst cases");
    let nanoseconds = slowest.verified.nanoseconds;
    let is = format!("{} ({})", time(nanoseconds), slowest.label);
    aim(
        &format!("aim: the slowest {what} under 1 ms"),
        &is,
        nanoseconds < MOST_NANOSECONDS,
    );
}

/// The largest ratio to the straightforward version.
pub fn print_most_ratio<'a>(of: &str, cases: impl Iterator<Item = &'a Timed>) {
    let most = cases
        .max_by(|a, b| a.ratio().total_cmp(&b.ratio()))
        .expect("there are cases");
    let is = format!("{:.2} ({})", most.ratio(), most.label);
    let name = format!("aim: ratio at most {MOST_RATIO}, {of}");
    aim(&name, &is, most.ratio() <= MOST_RATIO);
}
