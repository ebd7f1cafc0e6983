//! The examples of the program `runs`: calls of the machine, one line a call.

use super::by_hand::{collecting, holding, lane, p2, shared, unused_filled, waiting};
use super::out_of_range;
use super::script::Out;
use crate::machine::open;
use crate::machine::record::{Message, Record};
use crate::page::take_step;
use crate::text::{Do, Step};

use Message::{Grant, Release, Request};

/// Name, n, k and quorums of a table, and the bytes of scratch.
type Opening = (&'static str, usize, usize, &'static [u16], usize);

const OPENINGS: [Opening; 9] = [
    ("P2", 3, 1, &[3, 5, 6], 4096),
    ("P3", 3, 2, &[3, 5, 6], 4096),
    ("refusal 5", 3, 1, &[3, 5, 6], 4095),
    ("refusal 1", 13, 1, &[1], 4096),
    ("refusal 2", 1, 0, &[1], 4096),
    ("refusal 3", 1, 1, &[], 4096),
    ("refusal 4", 3, 1, &[8], 4096),
    ("refusal 6", 2, 5, &[1, 2], 4096),
    ("refusal 7", 2, 1, &[1, 3], 4096),
];

fn openings(out: &mut Out) {
    for (name, n, k, quorums, scratch) in OPENINGS {
        let (refusal, record) = open(n, k, quorums, scratch);
        let n_after = record.n;
        out.text += &format!("{name} open({n},{k}) refused={refusal} n={n_after}\n");
    }
}

fn marked(out: &mut Out) {
    let held = out.play(
        &p2(),
        "P11: request(0,0,1) up(0,0) down(0,0) up(0,1) down(0,1)",
    );
    let waits = out.play(&held, "P12: request(1,2,1) up(1,1) down(1,1)");
    out.play(
        &waits,
        "after P12: release(0) up(0,1) down(1,1) up(1,2) down(1,2)",
    );
    // Opening refuses P4, but the plain machine may be started on it.
    out.play(
        &Record::fresh(2, 5, &[1, 2]),
        "P4: request(0,0,5) up(0,0) down(0,0) request(1,1,5) up(1,1) down(1,1)",
    );
}

/// A call of a list: no word stands for one that is unknown.
type ListCall = (Option<Do>, usize, usize, usize);

/// P11's five calls and P12's three.
const LIST: [ListCall; 8] = [
    (Some(Do::Request), 0, 0, 1),
    (Some(Do::Up), 0, 0, 0),
    (Some(Do::Down), 0, 0, 0),
    (Some(Do::Up), 0, 1, 0),
    (Some(Do::Down), 0, 1, 0),
    (Some(Do::Request), 1, 2, 1),
    (Some(Do::Up), 1, 1, 0),
    (Some(Do::Down), 1, 1, 0),
];

/// A whole list at once: an unknown call in it is 15 and too little room for four numbers a call 16, and then nothing is
/// written.
fn performed(calls: &[ListCall], answers: &mut [usize]) -> usize {
    if calls.iter().any(|c| c.0.is_none()) {
        return 15;
    }
    if answers.len() < 4 * calls.len() {
        return 16;
    }
    let mut record = p2();
    for (i, &(word, station, with, units)) in calls.iter().enumerate() {
        let step = Step {
            what: word.expect("known"),
            station,
            with,
            units,
        };
        let a = take_step(&record, &step);
        answers[4 * i..4 * i + 4].copy_from_slice(&[a.refusal, a.entered, a.left, a.above]);
        record = a.record;
    }
    0
}

fn lists(out: &mut Out) {
    let mut unknown = LIST;
    unknown[7].0 = None;
    let lists = [
        ("P11 and P12", LIST, 33),
        ("refusal 16", LIST, 31),
        ("refusal 15", unknown, 31),
    ];
    for (name, calls, room) in lists {
        let mut answers = vec![7; room];
        let refusal = performed(&calls, &mut answers);
        out.text += &format!("{name}, performed refused={refusal} answers");
        for number in answers {
            out.text += &format!(" {number}");
        }
        out.text += "\n";
    }
}

fn numbers(out: &mut Out) {
    out.play(
        &p2(),
        "refusal 8: request(3,0,1) up(3,0) up(0,3) down(3,0) down(0,3) release(3) request(2,0,1)",
    );
    out.play(
        &Record::fresh(1, 1, &[1]),
        "refusal 9: request(0,1,1) request(0,0,1)",
    );
    out.play(
        &Record::fresh(3, 2, &[1]),
        "refusal 10: request(0,0,3) request(0,0,0) request(0,0,2)",
    );
    out.play(&p2(), "refusal 11: request(0,0,1) request(0,1,1) up(0,0) down(0,0) up(0,1) down(0,1) request(0,1,1)");
    out.play(
        &p2(),
        "refusal 12: release(0) request(0,0,1) release(0) up(0,0) down(0,0)",
    );
    out.play(&p2(), "refusal 13: up(0,0) down(0,0) request(0,0,1) up(0,1) up(1,0) up(0,0) up(0,0) down(1,0) down(0,0)");
    out.play(
        &p2(),
        "8 before 9, 9 before 10: request(3,3,2) request(0,3,2)",
    );
    let full = p2().with_up(0, 0, lane(4, Release));
    out.play(&full, "12 before 14: release(0)");
    out.play(
        &full.with_phase(0, collecting(0, 1, 0)),
        "10 before 11, 11 before 14: request(0,0,2) request(0,0,1)",
    );
    let large = [
        "request(256,0,1)",
        "request(0,256,1)",
        "request(0,0,257)",
        "up(0,18446744073709551615)",
    ];
    for text in large {
        out.call("large number", &p2(), text);
    }
}

/// Refusal 14, on records made by hand.
fn full(out: &mut Out) {
    let releases = lane(4, Release);
    out.play(&p2().with_up(0, 0, releases.clone()), "full lane, request: request(0,0,1) up(0,0) request(0,0,1) up(0,0) up(0,0) up(0,0) down(0,0) up(0,0) down(0,0)");
    let second = p2().with_up(0, 1, releases);
    out.play(
        &second.clone().with_phase(0, holding(0, 1)),
        "full lane, release: release(0) up(0,0) up(0,1) release(0) up(0,0)",
    );
    let granted = second.with_down(0, 0, lane(1, Grant));
    out.play(
        &granted.with_phase(0, collecting(0, 1, 0)),
        "full lane, down: down(0,0) up(0,1) down(0,0) down(0,0)",
    );
    let line = p2()
        .with_arbiter(0, waiting(12, 1, 1))
        .with_up(0, 0, lane(1, Request(1)))
        .with_up(2, 0, lane(1, Release));
    out.play(
        &line,
        "full line: up(0,0) down(1,0) up(2,0) down(1,0) up(0,0) down(1,0)",
    );
    let grants = p2()
        .with_down(1, 0, lane(2, Grant))
        .with_up(1, 0, lane(1, Request(1)));
    out.play(
        &grants,
        "full lane, grant: up(1,0) down(1,0) up(1,0) down(1,0) down(1,0) down(1,0)",
    );
    let given_back = shared().with_up(0, 0, lane(1, Release));
    out.play(
        &given_back.clone().with_arbiter(0, waiting(3, 1, 1)),
        "three grants at once: up(0,0) down(1,0)",
    );
    out.play(&given_back.with_arbiter(0, waiting(2, 1, 1)), "two grants at once: up(0,0) down(1,0) down(1,0) down(1,0) request(2,0,2) up(2,0) down(2,0)");
}

/// The same calls on P1's record and on the one with its unused places filled.
fn unused(out: &mut Out) {
    let calls = "request(0,0,1) up(0,0) down(0,0) up(0,0) release(0) up(0,0) up(0,0) request(0,1,1) up(0,1) release(1)";
    out.play(&Record::fresh(1, 1, &[1]), &format!("one station: {calls}"));
    out.play(&unused_filled(), &format!("unused places: {calls}"));
}

fn service(out: &mut Out) {
    let two_wait = out.play(
        &shared(),
        "two wait: request(0,0,2) up(0,0) down(0,0) request(1,0,2) up(1,0) request(2,0,1) up(2,0)",
    );
    out.play(
        &two_wait,
        "no passing: down(1,0) down(2,0) release(0) up(0,0) down(1,0) down(2,0)",
    );
    out.play(
        &shared(),
        "units counted: request(0,0,2) up(0,0) request(1,0,2) up(1,0) down(0,0) down(1,0)",
    );
    out.play(&shared(), "whole stock: request(0,0,3) up(0,0) request(1,0,1) up(1,0) down(0,0) down(1,0) release(0) up(0,0) down(1,0)");
    let mut arbiter = waiting(0, 0, 0);
    arbiter.granted[1] = 2;
    let own = shared()
        .with_arbiter(0, arbiter)
        .with_up(1, 0, [Request(2), Release].into());
    out.play(&own, "own grant: up(1,0) down(1,0) up(1,0) down(1,0)");
    let p5 = Record::fresh(4, 2, &[7, 11, 13, 14]);
    let held = out.play(
        &p5,
        "three members: request(0,3,2) up(0,1) down(0,1) up(0,2) down(0,2) up(0,3) down(0,3)",
    );
    out.play(
        &held,
        "all members: release(0) up(0,0) up(0,1) up(0,2) up(0,3) up(0,1) release(0)",
    );
}

/// What a station makes of a GRANT that it does not wait for.
fn grants(out: &mut Out) {
    let granted = p2().with_down(0, 0, lane(1, Grant));
    out.play(
        &granted,
        "grant to idle: down(0,0) down(0,0) request(0,0,1)",
    );
    out.play(
        &granted.clone().with_phase(0, holding(0, 1)),
        "grant to holding: down(0,0) down(0,0) release(0)",
    );
    let another = granted
        .with_phase(0, collecting(0, 1, 0))
        .with_down(0, 1, lane(1, Grant));
    out.play(
        &another,
        "grant of another: down(0,1) down(0,1) down(0,0) up(0,1) down(0,1)",
    );
    let no_member = p2()
        .with_phase(0, collecting(1, 1, 1))
        .with_down(0, 1, lane(1, Grant));
    out.play(
        &no_member,
        "grant of no member: down(0,1) up(0,0) up(0,2) down(0,2)",
    );
}

pub fn output() -> String {
    let mut out = Out::default();
    openings(&mut out);
    marked(&mut out);
    lists(&mut out);
    numbers(&mut out);
    full(&mut out);
    out_of_range::run(&mut out);
    unused(&mut out);
    service(&mut out);
    grants(&mut out);
    out.text
}
