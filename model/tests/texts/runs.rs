//! Texts of runs that mostly take steps which the machine can take.

use model::machine::record::{Message, Record};
use model::machine::Answer;
use model::page::{table_lines, take_step, MOST_INPUT};
use model::random;
use model::rng::Rng;
use model::steps::next_step;
use model::text::{Do, Step};
use std::collections::BTreeMap;

/// So many steps in a hundred are to be withdrawals, so that most requests come to their end.
const WITHDRAWALS: usize = 5;

/// What the runs met, so that a generator that has gone quiet is noticed.
#[derive(Default, Debug)]
pub struct Met {
    pub refusals: BTreeMap<usize, usize>,
    pub entered: usize,
    pub left: usize,
    /// Requests that an Up left waiting in a line.
    pub waited: usize,
    /// Ups that granted more than one request.
    pub served_together: usize,
    /// Withdrawals, Ups that took a station out of a line, and those by which another was granted.
    pub withdrawn: usize,
    pub left_line: usize,
    pub served_others: usize,
}

/// The GRANTs that are under way from an arbiter.
fn grants(r: &Record, j: usize) -> usize {
    let of = |s: usize| r.down[s][j].iter().filter(|&&m| m == Message::Grant);
    (0..r.n).map(|s| of(s).count()).sum()
}

/// The requests that wait at an arbiter, those that were served by the call, and those that were withdrawn.
fn note(met: &mut Met, step: &Step, before: &Record, answer: &Answer) {
    let after = &answer.record;
    if answer.refusal != 0 {
        return;
    }
    met.withdrawn += usize::from(step.what == Do::Withdraw);
    if step.what != Do::Up {
        return;
    }
    let (s, j) = (step.station, step.with);
    let (old, new) = (&before.arbiters[j], &after.arbiters[j]);
    let served = grants(after, j) - grants(before, j);
    met.waited += usize::from(new.line.len() > old.line.len());
    met.served_together += usize::from(served > 1);
    if before.up[s][j][0] == Message::Withdraw {
        met.left_line += usize::from(old.line.iter().any(|e| e.station == s));
        met.served_others += usize::from(served > 0);
    }
}

/// The lines of at most so many steps in at most so many bytes, taken one after the other from the fresh record. The
/// units out at any moment are 0 to k.
pub fn steps(rng: &mut Rng, start: Record, most: usize, bytes: usize, met: &mut Met) -> String {
    let mut record = start;
    let mut lines = String::new();
    let (mut entered, mut left) = (0, 0);
    for _ in 0..most {
        let step = next_step(rng, &record, WITHDRAWALS);
        if lines.len() + step.lines().len() > bytes {
            break;
        }
        lines += &step.lines();
        let answer = take_step(&record, &step);
        *met.refusals.entry(answer.refusal).or_insert(0) += 1;
        note(met, &step, &record, &answer);
        met.entered += usize::from(answer.entered > 0);
        met.left += usize::from(answer.left > 0);
        entered += answer.entered;
        left += answer.left;
        assert!(left <= entered && entered - left <= record.stock, "{lines}");
        record = answer.record;
    }
    lines
}

fn stock(rng: &mut Rng) -> usize {
    match rng.below(4) {
        0 => rng.between(1, 200),
        1 => rng.between(1, 12),
        _ => rng.between(1, 4),
    }
}

/// An accepted table and its run.
pub fn accepted(rng: &mut Rng, most: usize, met: &mut Met) -> String {
    let n = rng.between(1, 12);
    let k = stock(rng);
    let quorums = random::accepted(rng, n, k);
    on_table(rng, n, k, &quorums, most, met)
}

/// A ready-made table and a run on it.
pub fn ready_made(rng: &mut Rng, most: usize, met: &mut Met) -> String {
    loop {
        let k = stock(rng);
        if let Some((n, quorums)) = random::ready_made(rng, k) {
            return on_table(rng, n, k, &quorums, most, met);
        }
    }
}

/// The text of a table and of at most so many steps.
pub fn on_table(
    rng: &mut Rng,
    n: usize,
    k: usize,
    quorums: &[u16],
    most: usize,
    met: &mut Met,
) -> String {
    let table = table_lines(n, k, quorums);
    let room = MOST_INPUT - table.len();
    let record = Record::fresh(n, k, quorums);
    table + &steps(rng, record, most, room, met)
}
