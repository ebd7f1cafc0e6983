//! Refusal 19: records made by hand that are just out of range, beside those that are just within.

use super::by_hand::{collecting, holding, lane, p2, waiting};
use super::script::Out;
use crate::machine::record::{Message, Record};

use Message::{Gone, Grant, Release, Request, Withdraw};

/// Length of the lane and the message in all its places.
const UP_LANES: [(usize, Message); 5] = [
    (4, Release),
    (5, Release),
    (1, Grant),
    (1, Request(0)),
    (1, Request(2)),
];

const DOWN_LANES: [(usize, Message); 4] = [(2, Grant), (3, Grant), (1, Request(1)), (1, Release)];

/// Units granted to station 1, the length of the line, the station and the units of all its entries.
const ARBITERS: [(usize, usize, usize, usize); 6] = [
    (1, 12, 2, 1),
    (2, 12, 2, 1),
    (1, 13, 2, 1),
    (1, 12, 3, 1),
    (1, 12, 2, 0),
    (1, 12, 2, 2),
];

/// Quorum, units and member.
const COLLECTING: [(usize, usize, usize); 5] =
    [(2, 1, 2), (3, 1, 2), (2, 0, 2), (2, 2, 2), (2, 1, 3)];

/// Quorum and units.
const HOLDING: [(usize, usize); 4] = [(2, 1), (3, 1), (2, 0), (2, 2)];

/// Stations, stock, quorums, and what each quorum is.
const SIZES: [(usize, usize, usize, u16); 10] = [
    (12, 200, 64, 4095),
    (13, 200, 64, 4095),
    (0, 200, 64, 4095),
    (12, 201, 64, 4095),
    (12, 0, 64, 4095),
    (12, 200, 65, 4095),
    (12, 200, 0, 4095),
    (12, 200, 64, 4096),
    (12, 200, 64, 0),
    (11, 200, 64, 4095),
];

/// A call that has to do with nothing that is out of range.
const ASKED: &str = "request(1,2,1)";

fn message_name(message: Message) -> String {
    match message {
        Request(units) => format!("REQUEST {units}"),
        Release => String::from("RELEASE"),
        Withdraw => String::from("WITHDRAW"),
        Grant => String::from("GRANT"),
        Gone => String::from("GONE"),
    }
}

/// Lanes up and lanes down: so many messages in each, all alike.
pub fn lanes(out: &mut Out, up: &[(usize, Message)], down: &[(usize, Message)]) {
    for &(len, message) in up {
        let name = format!("up lane of {len} {}", message_name(message));
        let record = p2().with_up(2, 1, lane(len, message));
        out.call(&name, &record, "up(2,1)");
    }
    for &(len, message) in down {
        let name = format!("down lane of {len} {}", message_name(message));
        let record = p2().with_down(2, 1, lane(len, message));
        out.call(&name, &record, "down(2,1)");
    }
}

fn arbiters(out: &mut Out) {
    for (granted, len, station, units) in ARBITERS {
        let mut arbiter = waiting(len, station, units);
        arbiter.granted[1] = granted;
        let name = format!("arbiter({granted},{len},{station},{units})");
        out.call(&name, &p2().with_arbiter(2, arbiter), ASKED);
    }
}

fn phases(out: &mut Out) {
    for (quorum, units, member) in COLLECTING {
        let name = format!("collecting({quorum},{units},{member})");
        let record = p2().with_phase(2, collecting(quorum, units, member));
        out.call(&name, &record, ASKED);
    }
    for (quorum, units) in HOLDING {
        let name = format!("holding({quorum},{units})");
        let record = p2().with_phase(2, holding(quorum, units));
        out.call(&name, &record, "release(2)");
    }
}

fn sizes(out: &mut Out) {
    for (n, stock, quorums, set) in SIZES {
        let name = format!("sizes({n},{stock},{quorums},{set})");
        let record = Record::fresh(n, stock, &vec![set; quorums]);
        out.call(&name, &record, ASKED);
    }
}

pub fn run(out: &mut Out) {
    out.play(
        &Record::empty(),
        "refusal 19: request(0,0,1) up(0,0) down(0,0) release(0)",
    );
    let no_stock = Record { stock: 0, ..p2() };
    out.play(
        &no_stock,
        "19 before 8: request(3,0,1) up(3,0) down(0,3) release(3)",
    );
    lanes(out, &UP_LANES, &DOWN_LANES);
    arbiters(out);
    phases(out);
    sizes(out);
}
