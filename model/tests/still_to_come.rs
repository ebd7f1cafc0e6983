//! "Members still to come": the step that finds the next member, through the static library, and the number that Request and
//! Down return, in the program `answers`. A case is had again from its kind and number: the number is the seed.

#[allow(dead_code)]
mod texts {
    pub mod program;
    pub mod runs;
}

use model::machine::members_above;
use model::machine::record::{Phase, Record};
use model::page::take_step;
use model::random;
use model::rng::Rng;
use model::steps::next_step;
use model::table::members;
use model::text::{Do, Step};
use pafluzeno::header::next_member;
use texts::program::compare_answers;
use texts::runs::{self, Met};

const RUNS: u64 = 300;
const READY_MADE: u64 = 100;
const LISTS: u64 = 2000;

/// Every set of sixteen stations, from every station on, and from numbers that no station has.
#[test]
fn next_members() {
    for quorum in 0..=u16::MAX {
        let all = members(quorum);
        for from in (0..=17).chain([1 << 16, usize::MAX]) {
            let next = next_member(quorum, from);
            match all.iter().find(|&&m| m >= from) {
                Some(&m) => assert_eq!(
                    (next.member, next.above),
                    (m, members_above(quorum, m)),
                    "{quorum} from {from}"
                ),
                None => assert_eq!((next.member, next.above), (16, 0), "{quorum} from {from}"),
            }
        }
    }
}

/// How many lines end in a number above 0.
fn above_none(lines: &str) -> usize {
    lines.lines().filter(|l| !l.ends_with(" above=0")).count()
}

#[test]
fn numbers_of_runs() {
    let mut met = Met::default();
    let mut told = 0;
    for number in 0..RUNS {
        let mut rng = Rng::new(number);
        let most = rng.between(0, 400);
        let text = runs::accepted(&mut rng, most, &mut met);
        told += above_none(&compare_answers("run", number, text.as_bytes()));
    }
    for number in 0..READY_MADE {
        let mut rng = Rng::new(10_000 + number);
        let text = runs::ready_made(&mut rng, 400, &mut met);
        told += above_none(&compare_answers("ready-made", number, text.as_bytes()));
    }
    assert!(told >= 5_000, "{told} numbers above 0");
}

/// The longest text, a refused table, and texts that are not of the form.
#[test]
fn numbers_of_others() {
    let mut rng = Rng::new(20_000);
    let text = runs::accepted(&mut rng, usize::MAX, &mut Met::default());
    let lines = compare_answers("longest", 0, text.as_bytes());
    assert!(lines.lines().count() > 1_000);
    let refused = "stations=2\nunits=5\nquorums=2\nmembers=1\nmembers=2\n";
    assert_eq!(
        compare_answers("refused", 0, refused.as_bytes()),
        "table=6\n"
    );
    for (number, bad) in ["", "stations=2\n", &text[..text.len() - 1]]
        .iter()
        .enumerate()
    {
        let lines = compare_answers("bad", number as u64, bad.as_bytes());
        assert_eq!(lines, "input=15\n");
    }
}

/// What each station is to be told next, where it collects.
type Due = Vec<Option<usize>>;

/// A Request that is done begins at the number of members less one; a Down that goes on tells one less than was told
/// before; a Down that enters comes after 0; and every other answer has 0.
fn follow(due: &mut Due, step: &Step, before: &Record, after: &Record, above: usize) {
    let s = step.station;
    let told = match (step.what, before.stations[s], after.stations[s]) {
        (Do::Request, Phase::Idle, Phase::Collecting { quorum, .. }) => {
            due[s] = Some(members(after.table[quorum]).len());
            true
        }
        (Do::Down, Phase::Collecting { member: a, .. }, Phase::Collecting { member: b, .. }) => {
            a != b
        }
        (Do::Down, Phase::Collecting { .. }, Phase::Holding { .. }) => {
            assert_eq!(due[s], Some(0));
            due[s] = None;
            false
        }
        _ => false,
    };
    if told {
        due[s] = due[s].map(|d| d - 1);
        assert_eq!(Some(above), due[s]);
    } else {
        assert_eq!(above, 0);
    }
}

/// From the number of members less one down to 0, on the model itself.
#[test]
fn counted_down() {
    let (mut held, mut told) = (0, 0);
    for number in 0..LISTS {
        let mut rng = Rng::new(30_000 + number);
        let n = rng.between(1, 12);
        let k = rng.between(1, 5);
        let mut record = Record::fresh(n, k, &random::accepted(&mut rng, n, k));
        let mut due = vec![None; n];
        for _ in 0..200 {
            let step = next_step(&mut rng, &record, 5);
            let answer = take_step(&record, &step);
            if answer.refusal != 0 {
                assert_eq!(answer.above, 0);
                continue;
            }
            follow(&mut due, &step, &record, &answer.record, answer.above);
            held += usize::from(answer.entered > 0);
            told += usize::from(answer.above > 0);
            record = answer.record;
        }
    }
    assert!(held >= 5_000 && told >= 20_000, "{held} {told}");
}
