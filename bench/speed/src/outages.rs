//! The outages that a table survives: the static library, the straightforward version and the model, each with the check of
//! the table, on those that are accepted.

use crate::checks::scratch;
use crate::contest::{print_most_ratio, print_slowest, print_times, take_times, Rounds, Timed};
use crate::straightforward;
use crate::tables::{self, Case};
use model::outages::{outages, Outages};
use model::table::{check, SCRATCH};

const RANDOM_TABLES: u64 = 3_000;
pub const ROUNDS: Rounds = Rounds {
    all: 300,
    model_every: 60,
};

fn verified(case: &Case, scratch: &mut [u8]) -> Outages {
    match pafluzeno::outages(case.n, case.k, &case.quorums, scratch) {
        Ok(survived) => counted(survived.counts()),
        Err(refusal) => refused(refusal.number()),
    }
}

fn straightforward(case: &Case, scratch: &mut [u8]) -> Outages {
    match straightforward::outages(case.n, case.k, &case.quorums, scratch) {
        Ok(counts) => counted(&counts[..=case.n]),
        Err(refusal) => refused(refusal.number()),
    }
}

fn by_model(case: &Case) -> Outages {
    outages(case.n, case.k, &case.quorums, SCRATCH)
}

fn counted(counts: &[u16]) -> Outages {
    Outages {
        refusal: 0,
        counts: counts.iter().map(|&count| count.into()).collect(),
    }
}

fn refused(number: u8) -> Outages {
    Outages {
        refusal: number.into(),
        counts: vec![],
    }
}

/// The accepted ones of the tables whose check is timed.
fn timed(cases: Vec<Case>) -> Vec<Timed> {
    let accepted = |case: &Case| check(case.n, case.k, &case.quorums, SCRATCH).refusal == 0;
    let label = |case: Case| {
        let sets: usize = by_model(&case).counts.iter().sum();
        Timed::new(case, &format!("{sets} sets"))
    };
    cases.into_iter().filter(accepted).map(label).collect()
}

/// Both give the same answer and leave the same scratch; the answer is the model's if that is to be asked too.
fn assert_same(case: &Case, ask_model: bool) {
    let (mut one, mut two) = (scratch(SCRATCH + 100), scratch(SCRATCH + 100));
    let answer = verified(case, &mut one);
    assert_eq!(answer, straightforward(case, &mut two), "{}", case.name);
    assert_eq!(one, two, "the scratch, {}", case.name);
    if ask_model {
        assert_eq!(answer, by_model(case), "{}", case.name);
    }
}

fn assert_all_same(cases: &[Timed]) {
    for timed in cases {
        assert_same(&timed.case, true);
    }
    for seed in 0..RANDOM_TABLES {
        assert_same(&tables::any(seed), seed % 10 == 0);
    }
}

pub fn compare() {
    let mut cases = timed(tables::worst());
    let worst_count = cases.len();
    cases.extend(timed(tables::typical()));
    assert_all_same(&cases);
    take_times(
        &mut cases,
        &ROUNDS,
        |case, scratch| pafluzeno::outages(case.n, case.k, &case.quorums, scratch),
        |case, scratch| straightforward::outages(case.n, case.k, &case.quorums, scratch),
        by_model,
    );
    print_times("outages of a table, a call with its check", &cases);
    print_slowest("count of outages", &cases[..worst_count]);
    print_most_ratio("outages", cases.iter());
}

#[test]
fn all_answers_agree() {
    let mut cases = timed(tables::worst());
    cases.extend(timed(tables::typical()));
    assert_all_same(&cases);
}
