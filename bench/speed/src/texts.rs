//! The journals that are timed.

use model::machine::record::{Phase, Record};
use model::page::{table_lines, take_step, MOST_INPUT};
use model::random;
use model::rng::Rng;
use model::text::{Do, Step};

/// The three stations of P2 take their turns: collect, hold, give back.
pub fn turns() -> String {
    let quorums = [3, 5, 6];
    let mut turns = String::new();
    for (s, members) in [[0, 1], [0, 2], [1, 2]].into_iter().enumerate() {
        turns += &Step::new(Do::Request, s, s, 1).lines();
        for j in members {
            turns += &Step::new(Do::Up, s, j, 0).lines();
            turns += &Step::new(Do::Down, s, j, 0).lines();
        }
        turns += &Step::new(Do::Release, s, 0, 0).lines();
        for j in members {
            turns += &Step::new(Do::Up, s, j, 0).lines();
        }
    }
    let mut text = table_lines(3, 1, &quorums);
    while text.len() + turns.len() <= MOST_INPUT {
        text += &turns;
    }
    text
}

/// A step that may be taken now. A station that holds is in no hurry to give back.
fn possible(rng: &mut Rng, record: &Record) -> Step {
    let n = record.n;
    loop {
        let (s, j) = (rng.below(n), rng.below(n));
        match rng.below(8) {
            0 if record.stations[s] == Phase::Idle => {
                let quorum = rng.below(record.table.len());
                return Step::new(Do::Request, s, quorum, rng.between(1, record.stock));
            }
            1..=3 if !record.up[s][j].is_empty() => return Step::new(Do::Up, s, j, 0),
            4..=6 if !record.down[s][j].is_empty() => return Step::new(Do::Down, s, j, 0),
            7 if rng.percent(10) && matches!(record.stations[s], Phase::Holding { .. }) => {
                return Step::new(Do::Release, s, 0, 0)
            }
            _ => {}
        }
    }
}

/// Twelve stations want up to the whole stock of 200 each, and all quorums have one station in common.
pub fn contention() -> String {
    let mut rng = Rng::new(12);
    let quorums = random::without_nesting(&random::with_core(&mut rng, 12, 64));
    let mut text = table_lines(12, 200, &quorums);
    let mut record = Record::fresh(12, 200, &quorums);
    loop {
        let next = possible(&mut rng, &record);
        let lines = next.lines();
        if text.len() + lines.len() > MOST_INPUT {
            return text;
        }
        record = take_step(&record, &next).record;
        text += &lines;
    }
}

/// A step that is refused on a fresh record of twelve stations, a stock of 200 and one quorum.
fn refused(rng: &mut Rng) -> Step {
    let (s, j) = (rng.below(12), rng.below(12));
    match rng.below(7) {
        0 => Step::new(Do::Up, s, j, 0),
        1 => Step::new(Do::Down, s, j, 0),
        2 => Step::new(Do::Release, s, 0, 0),
        3 => Step::new(Do::Request, s, rng.between(1, 65535), 1),
        4 => Step::new(Do::Request, s, 0, rng.between(201, 65535)),
        5 => Step::new(Do::Request, rng.between(12, 65535), 0, 1),
        _ => Step::new(Do::Down, s, rng.between(12, 65535), 0),
    }
}

/// An Up, refused too, of this many bytes, from 31 to 39.
fn filling(bytes: usize) -> Step {
    let number = |digits: usize| 10usize.pow(digits as u32) / 9 * 5;
    let station = ((bytes - 29) / 2).max(1);
    Step::new(Do::Up, number(station), number(bytes - 29 - station), 0)
}

/// All steps are refused. The text has exactly 65,536 bytes.
pub fn refusals() -> String {
    let mut rng = Rng::new(8);
    let mut text = table_lines(12, 200, &[4095]);
    while text.len() + 200 < MOST_INPUT {
        text += &refused(&mut rng).lines();
    }
    while text.len() < MOST_INPUT {
        let left = MOST_INPUT - text.len();
        text += &filling(left / left.div_ceil(39)).lines();
    }
    text
}

/// The same steps behind a table that is refused: they are read, and neither made nor printed.
pub fn only_read() -> String {
    let mut rng = Rng::new(8);
    let mut text = table_lines(0, 200, &[]);
    loop {
        let lines = refused(&mut rng).lines();
        if text.len() + lines.len() > MOST_INPUT {
            return text;
        }
        text += &lines;
    }
}
