//! The marked tables and runs of document 01, its example journal and its misreadings, on the model itself.

use model::arbiter::{Arbiter, Entry, Sent};
use model::examples::script::call;
use model::machine::record::{Phase, Record};
use model::page::page;
use model::ready::cube;
use model::table::{check, is_member, members, Checked, SCRATCH};

fn answer(n: usize, k: usize, quorums: &[u16]) -> Checked {
    check(n, k, quorums, SCRATCH)
}

fn accepted(n: usize, k: usize, quorums: &[u16], width: usize) {
    let checked = answer(n, k, quorums);
    assert_eq!((checked.refusal, checked.width), (0, width), "{quorums:?}");
    assert_eq!(checked.family, [0; 0]);
}

/// Refusal, width, even and family.
fn refused(n: usize, k: usize, quorums: &[u16], wanted: (usize, usize, bool, &[usize])) {
    let (refusal, width, even, family) = wanted;
    let expected = Checked {
        refusal,
        width,
        even,
        family: family.to_vec(),
    };
    assert_eq!(answer(n, k, quorums), expected, "{quorums:?}");
}

#[test]
fn p1_to_p9() {
    accepted(1, 1, &[1], 0);
    accepted(3, 1, &[3, 5, 6], 3);
    refused(3, 2, &[3, 5, 6], (6, 3, true, &[0, 1, 2]));
    refused(2, 5, &[1, 2], (6, 2, true, &[0, 1]));
    accepted(4, 2, &[7, 11, 13, 14], 4);
    refused(4, 3, &[7, 11, 13, 14], (6, 4, true, &[0, 1, 2, 3]));
    refused(4, 2, &[3, 12, 5, 10], (6, 2, true, &[0, 1]));
    refused(2, 1, &[1, 3], (7, 0, false, &[]));
    refused(2, 1, &[1, 2, 3], (6, 2, false, &[0, 1]));
}

#[test]
fn p10() {
    assert_eq!(cube(3, 1).expect("a table")[0], 79);
}

/// The refusals and entered units of the calls, and the last record.
fn play(start: &Record, calls: &str) -> (Vec<(usize, usize)>, Record) {
    let mut record = start.clone();
    let mut answers = Vec::new();
    for text in calls.split(' ') {
        let a = call(&record, text);
        answers.push((a.refusal, a.entered));
        record = a.record;
    }
    (answers, record)
}

#[test]
fn p11_and_p12() {
    let p2 = Record::fresh(3, 1, &[3, 5, 6]);
    let (answers, held) = play(&p2, "request(0,0,1) up(0,0) down(0,0) up(0,1) down(0,1)");
    assert_eq!(answers, [(0, 0), (0, 0), (0, 0), (0, 0), (0, 1)]);
    let (answers, after) = play(&held, "request(1,2,1) up(1,1) down(1,1)");
    assert_eq!(answers, [(0, 0), (0, 0), (13, 0)]);
    let holding = Phase::Holding {
        quorum: 0,
        units: 1,
    };
    assert_eq!(after.stations[0], holding);
}

/// Document 01's page: the first four lines of the output, then the four step lines of each record, give the output.
#[test]
fn example_journal() {
    let output = "stations=1\nunits=1\nquorums=1\nmembers=1\ntable=0\nwidth=0\neven=1\n\
        do=request\nstation=0\nwith=0\nunits=1\nrefused=0\nentered=0\nleft=0\n\
        do=release\nstation=0\nwith=0\nunits=0\nrefused=12\nentered=0\nleft=0\n";
    let lines: Vec<&str> = output.lines().collect();
    let input = [&lines[0..4], &lines[7..11], &lines[14..18]]
        .concat()
        .join("\n")
        + "\n";
    assert_eq!(page(input.as_bytes()), output);
}

/// Only families of k + 1 distinct quorums are looked at.
fn common_member_if_distinct(n: usize, k: usize, quorums: &[u16]) -> bool {
    let families = 0..1u64 << quorums.len();
    let of_size = families.filter(|f| f.count_ones() as usize == k + 1);
    let has_common = |family: u64| {
        let is_in = |q: usize| family >> q & 1 == 1;
        let in_all = |i: usize| (0..quorums.len()).all(|q| !is_in(q) || is_member(quorums[q], i));
        (0..n).any(in_all)
    };
    of_size.into_iter().all(has_common)
}

#[test]
fn misreading_of_distinct_quorums() {
    assert!(common_member_if_distinct(2, 5, &[1, 2]));
    assert_eq!(answer(2, 5, &[1, 2]).refusal, 6);
    // Where there are enough quorums both readings agree.
    assert!(!common_member_if_distinct(3, 2, &[3, 5, 6]));
    assert_eq!(answer(3, 2, &[3, 5, 6]).refusal, 6);
}

#[test]
fn misreading_of_the_cube_size() {
    let (k, n) = (1, 9.0f64);
    let bound = f64::from(k + 1) * n.powf(f64::from(k) / f64::from(k + 1));
    assert_eq!(bound.round() as usize, 6);
    assert_eq!(members(cube(3, 1).expect("a table")[0]).len(), 5);
}

/// Station 0 has two units of three.
fn two_of_three() -> Arbiter {
    let mut arbiter = Arbiter::empty();
    arbiter.granted[0] = 2;
    arbiter
}

/// An arbiter that serves every entry that fits, wherever it stands.
fn take_passing(arbiter: &mut Arbiter, k: usize, station: usize, units: usize) -> Vec<usize> {
    arbiter.line.push(Entry { station, units });
    let mut served = Vec::new();
    for entry in std::mem::take(&mut arbiter.line) {
        if entry.units + arbiter.granted.iter().sum::<usize>() <= k {
            arbiter.granted[entry.station] = entry.units;
            served.push(entry.station);
        } else {
            arbiter.line.push(entry);
        }
    }
    served
}

#[test]
fn misreading_of_the_line() {
    let mut passing = two_of_three();
    assert!(take_passing(&mut passing, 3, 1, 2).is_empty());
    assert_eq!(take_passing(&mut passing, 3, 2, 1), [2]);
    let mut plain = two_of_three();
    assert_eq!(plain.take(3, 3, 1, Sent::Request(2)), Ok(vec![]));
    assert_eq!(plain.take(3, 3, 2, Sent::Request(1)), Ok(vec![]));
    assert_eq!(plain.line.len(), 2);
    // With the first units back both fit.
    assert_eq!(plain.take(3, 3, 0, Sent::Release), Ok(vec![1, 2]));
}

/// An arbiter that counts its grants.
fn fits_by_grants(arbiter: &Arbiter, k: usize) -> bool {
    arbiter.granted.iter().filter(|&&units| units > 0).count() < k
}

#[test]
fn misreading_of_the_units() {
    assert!(fits_by_grants(&two_of_three(), 3));
    let mut plain = two_of_three();
    assert_eq!(plain.take(3, 3, 1, Sent::Request(2)), Ok(vec![]));
    let mut one = two_of_three();
    assert_eq!(one.take(3, 3, 1, Sent::Request(1)), Ok(vec![1]));
}
