//! Random lists of calls with withdrawals, from fresh records on accepted tables, on the model itself: what document 02
//! says of lists, and what is under way while a station withdraws.

use model::machine::record::{Message, Phase, Record};
use model::machine::Answer;
use model::page::take_step;
use model::random;
use model::rng::Rng;
use model::steps::next_step;
use model::table::members;
use model::text::{Do, Step};
use std::collections::BTreeMap;

/// What is known of a list's calls so far.
struct Seen {
    entered: usize,
    left: usize,
    /// For each station whether it ever withdrew, whether its last accepted request was withdrawn, and what was entered at
    /// it since that request.
    once: Vec<bool>,
    withdrawn: Vec<bool>,
    since: Vec<usize>,
}

/// What the lists met, so that a generator that has gone quiet is noticed.
#[derive(Default, Debug)]
struct Met {
    refusals: BTreeMap<usize, usize>,
    /// Withdrawals by the messages that were in the lane before WITHDRAW, and those that sent RELEASE to a member below.
    behind: BTreeMap<usize, usize>,
    at_later_member: usize,
    /// WITHDRAWs that arrived: while GRANT was under way, at a station in line, and with another granted by it.
    grant_under_way: usize,
    in_line: usize,
    served_others: usize,
    /// Units were entered at a station that had withdrawn before.
    held_later: usize,
}

/// Units out stay within the stock, and a withdrawn request enters none: neither before its withdrawal nor after it.
fn follow(seen: &mut Seen, step: &Step, answer: &Answer, place: &str) {
    seen.entered += answer.entered;
    seen.left += answer.left;
    assert!(seen.left <= seen.entered, "{place}");
    let out = seen.entered - seen.left;
    assert!(out <= answer.record.stock, "{place}: {out} units are out");
    if answer.refusal != 0 {
        return;
    }
    let s = step.station;
    match step.what {
        Do::Request => {
            seen.withdrawn[s] = false;
            seen.since[s] = 0;
        }
        Do::Withdraw => {
            assert_eq!(seen.since[s], 0, "{place}");
            assert_eq!((answer.entered, answer.left), (0, 0), "{place}");
            seen.once[s] = true;
            seen.withdrawn[s] = true;
        }
        _ => seen.since[s] += answer.entered,
    }
    assert!(!seen.withdrawn[s] || seen.since[s] == 0, "{place}");
}

/// The messages of that kind in the lanes of a station.
fn count(r: &Record, s: usize, message: Message) -> usize {
    let lanes = (0..r.n).flat_map(|j| [&r.up[s][j], &r.down[s][j]]);
    lanes.flatten().filter(|&&m| m == message).count()
}

/// A withdrawing station has one WITHDRAW or GONE under way, and every other has none.
fn assert_under_way(r: &Record, place: &str) {
    for s in 0..r.n {
        let found = count(r, s, Message::Withdraw) + count(r, s, Message::Gone);
        let expected = usize::from(r.stations[s] == Phase::Withdrawing);
        assert_eq!(found, expected, "{place}: station {s}");
    }
}

fn note_withdrawal(met: &mut Met, s: usize, before: &Record) {
    let Phase::Collecting { quorum, member, .. } = before.stations[s] else {
        panic!("it was accepted");
    };
    *met.behind.entry(before.up[s][member].len()).or_insert(0) += 1;
    let below = members(before.table[quorum])[0] < member;
    met.at_later_member += usize::from(below);
}

fn note_arrival(met: &mut Met, s: usize, j: usize, before: &Record, after: &Record) {
    let grants = |r: &Record| (0..r.n).map(|s| count(r, s, Message::Grant)).sum::<usize>();
    let mut line = before.arbiters[j].line.iter();
    met.grant_under_way += usize::from(!before.down[s][j].is_empty());
    met.in_line += usize::from(line.any(|e| e.station == s));
    met.served_others += usize::from(grants(after) > grants(before));
}

fn note(met: &mut Met, seen: &Seen, step: &Step, before: &Record, answer: &Answer) {
    *met.refusals.entry(answer.refusal).or_insert(0) += 1;
    if answer.refusal != 0 {
        return;
    }
    let (s, j) = (step.station, step.with);
    match step.what {
        Do::Withdraw => note_withdrawal(met, s, before),
        Do::Up if before.up[s][j][0] == Message::Withdraw => {
            note_arrival(met, s, j, before, &answer.record);
        }
        Do::Down => met.held_later += usize::from(answer.entered > 0 && seen.once[s]),
        _ => {}
    }
}

fn run(seed: u64, met: &mut Met) {
    let rng = &mut Rng::new(seed);
    let n = rng.between(1, 12);
    let k = rng.pick(&[1, 2, 3, 5, 12, 200]);
    let quorums = random::accepted(rng, n, k);
    let mut record = Record::fresh(n, k, &quorums);
    let mut seen = Seen {
        entered: 0,
        left: 0,
        once: vec![false; n],
        withdrawn: vec![false; n],
        since: vec![0; n],
    };
    let withdrawals = rng.pick(&[2, 10, 30]);
    for i in 0..rng.between(1, 250) {
        let step = next_step(rng, &record, withdrawals);
        let answer = take_step(&record, &step);
        let place = format!("seed {seed}, call {i}, {step:?}");
        follow(&mut seen, &step, &answer, &place);
        assert_under_way(&answer.record, &place);
        note(met, &seen, &step, &record, &answer);
        record = answer.record;
    }
}

#[test]
fn random_lists() {
    let mut met = Met::default();
    for seed in 0..2_000 {
        run(seed, &mut met);
    }
    // Nothing else is met: no lane or line comes to its limit (14), and the record stays in range (19).
    let refusals: Vec<usize> = met.refusals.keys().copied().collect();
    assert_eq!(refusals, [0, 8, 9, 10, 11, 12, 13, 20], "{met:?}");
    assert!(met.refusals.values().all(|&seen| seen >= 500), "{met:?}");
    // Nothing, REQUEST, or RELEASE and REQUEST.
    assert!(met.behind.keys().eq(&[0, 1, 2]), "{met:?}");
    assert!(met.behind.values().all(|&seen| seen >= 200), "{met:?}");
    let others = [
        met.at_later_member,
        met.grant_under_way,
        met.in_line,
        met.served_others,
        met.held_later,
    ];
    assert!(others.iter().all(|&seen| seen >= 1_000), "{met:?}");
}
