//! The check of a table: the static library, the straightforward version and the model.

use crate::contest::{print_most_ratio, print_slowest, print_times, take_times, Rounds, Timed};
use crate::straightforward;
use crate::tables::{self, Case};
use model::table::{self, Checked, SCRATCH};

const RANDOM_TABLES: u64 = 5_000;
pub const ROUNDS: Rounds = Rounds {
    all: 600,
    model_every: 30,
};

fn timed(case: Case) -> Timed {
    let answer = verified(&case, &mut scratch(SCRATCH));
    let refusal = match answer.refusal {
        0 => String::from("accepted"),
        number => number.to_string(),
    };
    Timed::new(case, &format!("{refusal}, width {}", answer.width))
}

fn verified(case: &Case, scratch: &mut [u8]) -> Checked {
    match pafluzeno::check(case.n, case.k, &case.quorums, scratch) {
        Ok(accepted) => checked(0, accepted.width, accepted.even, &[]),
        Err(refused) => {
            let number = refused.refusal.number();
            checked(number, refused.width, refused.even, refused.family())
        }
    }
}

fn straightforward(case: &Case, scratch: &mut [u8]) -> Checked {
    match straightforward::check(case.n, case.k, &case.quorums, scratch) {
        Ok(accepted) => checked(0, accepted.width, accepted.even, &[]),
        Err(refused) => {
            let number = refused.refusal.number();
            checked(number, refused.width, refused.even, refused.family())
        }
    }
}

fn checked(refusal: u8, width: usize, even: bool, family: &[u8]) -> Checked {
    Checked {
        refusal: refusal.into(),
        width,
        even,
        family: family.iter().map(|&q| q.into()).collect(),
    }
}

/// Some bytes that are not zeros, more than the check uses or too few.
pub fn scratch(length: usize) -> Vec<u8> {
    (0..length).map(|i| (i % 255 + 1) as u8).collect()
}

/// Both give the same answer and leave the same scratch, which are the model's if that is to be asked too.
fn assert_same(case: &Case, length: usize, ask_model: bool) {
    let (mut one, mut two) = (scratch(length), scratch(length));
    let answer = verified(case, &mut one);
    let name = &case.name;
    assert_eq!(answer, straightforward(case, &mut two), "{name}");
    assert_eq!(one, two, "the scratch, {name}");
    if ask_model {
        let by_model = table::check(case.n, case.k, &case.quorums, length);
        assert_eq!(answer, by_model, "{name}");
        assert_eq!(one, table::scratch_after(&scratch(length)), "{name}");
    }
}

fn assert_all_same(cases: &[Timed]) {
    for timed in cases {
        assert_same(&timed.case, SCRATCH, true);
    }
    for seed in 0..RANDOM_TABLES {
        let length = if seed % 50 == 0 {
            SCRATCH - 1
        } else {
            SCRATCH + 100
        };
        assert_same(&tables::any(seed), length, seed % 10 == 0);
    }
}

pub fn compare() {
    let worst = tables::worst();
    let worst_count = worst.len();
    let mut cases: Vec<Timed> = worst
        .into_iter()
        .chain(tables::typical())
        .map(timed)
        .collect();
    assert_all_same(&cases);
    take_times(
        &mut cases,
        &ROUNDS,
        |case, scratch| pafluzeno::check(case.n, case.k, &case.quorums, scratch),
        |case, scratch| straightforward::check(case.n, case.k, &case.quorums, scratch),
        |case| table::check(case.n, case.k, &case.quorums, SCRATCH),
    );
    print_times("check of a table, a call", &cases);
    print_slowest("check", &cases[..worst_count]);
    let differ = |timed: &&Timed| tables::all_differ(&timed.case.quorums);
    print_most_ratio("different quorums", cases.iter().filter(differ));
    print_most_ratio("all tables", cases.iter());
}

#[test]
fn all_answers_agree() {
    let cases = tables::worst().into_iter().chain(tables::typical());
    assert_all_same(&cases.map(timed).collect::<Vec<_>>());
}
