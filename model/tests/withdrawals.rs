//! Worked runs with withdrawals, on the model itself. The table is P2 unless another is named: quorum 0 is stations 0 and
//! 1, quorum 1 is 0 and 2, quorum 2 is 1 and 2, and there is one unit.

use model::examples::by_hand::{collecting, holding, lane, p2, shared, waiting};
use model::examples::script::call;
use model::machine::record::{Lane, Message, Phase, Record};
use model::page::page;

use Message::{Gone, Grant, Release, Request, Withdraw};

/// The last record of calls that are all accepted, and what they entered and left in all.
fn played(start: &Record, calls: &str) -> (Record, usize, usize) {
    let begin = (start.clone(), 0, 0);
    calls
        .split(' ')
        .fold(begin, |(record, entered, left), text| {
            let a = call(&record, text);
            assert_eq!(a.refusal, 0, "{text} of {calls}");
            (a.record, entered + a.entered, left + a.left)
        })
}

/// The same where nothing is entered or left.
fn play(start: &Record, calls: &str) -> Record {
    let (record, entered, left) = played(start, calls);
    assert_eq!((entered, left), (0, 0), "{calls}");
    record
}

fn messages<const N: usize>(lane: [Message; N]) -> Lane {
    lane.into()
}

/// What is under way between a station and an arbiter: up and down.
fn assert_lanes<const U: usize, const D: usize>(
    r: &Record,
    (s, j): (usize, usize),
    up: [Message; U],
    down: [Message; D],
) {
    assert_eq!(r.up[s][j], messages(up), "up from {s} to {j}");
    assert_eq!(r.down[s][j], messages(down), "down from {j} to {s}");
}

/// Station 1 waits behind station 0 and withdraws: all is as if it had never asked.
#[test]
fn in_line() {
    let first = play(&p2(), "request(0,0,1) up(0,0)");
    let waits = play(&first, "request(1,0,1) up(1,0)");
    assert_eq!(waits.arbiters[0].line.len(), 1);
    let told = play(&waits, "withdraw(1)");
    assert_eq!(told.stations[1], Phase::Withdrawing);
    assert_lanes(&told, (1, 0), [Withdraw], []);
    let gone = play(&told, "up(1,0)");
    assert!(gone.arbiters[0].line.is_empty());
    assert_eq!(gone.arbiters[0].granted[0], 1);
    assert_lanes(&gone, (1, 0), [], [Gone]);
    assert_eq!(gone.stations[1], Phase::Withdrawing);
    assert_eq!(play(&gone, "down(1,0)"), first);
}

/// The GRANT is on its way when the station withdraws. It is dropped, before WITHDRAW arrives or behind it.
#[test]
fn granted_with_the_grant_under_way() {
    let told = play(&p2(), "request(0,0,1) up(0,0) withdraw(0)");
    assert_lanes(&told, (0, 0), [Withdraw], [Grant]);
    assert_eq!(told.arbiters[0].granted[0], 1);
    let both = play(&told, "up(0,0)");
    assert_lanes(&both, (0, 0), [], [Grant, Gone]);
    assert_eq!(both.arbiters[0].granted[0], 0);
    let dropped = play(&both, "down(0,0)");
    assert_eq!(dropped.stations[0], Phase::Withdrawing);
    assert_lanes(&dropped, (0, 0), [], [Gone]);
    assert_eq!(play(&dropped, "down(0,0)"), p2());

    let early = play(&told, "down(0,0)");
    assert_eq!(early.stations[0], Phase::Withdrawing);
    assert_eq!(early.arbiters[0].granted[0], 1);
    assert_lanes(&early, (0, 0), [Withdraw], []);
    assert_eq!(play(&early, "up(0,0) down(0,0)"), p2());
}

/// Station 0 has held, released, asked again and withdrawn before anything of it arrived.
#[test]
fn behind_release_and_request() {
    let (idle, entered, left) = played(
        &p2(),
        "request(0,0,1) up(0,0) down(0,0) up(0,1) down(0,1) release(0)",
    );
    assert_eq!((entered, left), (1, 1));
    let told = play(&idle, "request(0,0,1) withdraw(0)");
    assert_lanes(&told, (0, 0), [Release, Request(1), Withdraw], []);
    assert_lanes(&told, (0, 1), [Release], []);
    let granted = play(&told, "up(0,0) up(0,0)");
    assert_eq!(granted.arbiters[0].granted[0], 1);
    assert_lanes(&granted, (0, 0), [Withdraw], [Grant]);
    let both = play(&granted, "up(0,0)");
    assert_lanes(&both, (0, 0), [], [Grant, Gone]);
    assert_eq!(play(&both, "down(0,0) down(0,0) up(0,1)"), p2());
}

/// Station 0 has member 0's grant and approaches member 1: RELEASE to the first, WITHDRAW to the second.
#[test]
fn at_the_second_member() {
    let told = play(&p2(), "request(0,0,1) up(0,0) down(0,0) withdraw(0)");
    assert_lanes(&told, (0, 0), [Release], []);
    assert_lanes(&told, (0, 1), [Request(1), Withdraw], []);
    let calls = "up(0,1) up(0,1) down(0,1) down(0,1) up(0,0)";
    assert_eq!(play(&told, calls), p2());
    // Of P5's quorum 3, which is 1, 2 and 3, only the members below get RELEASE.
    let p5 = Record::fresh(4, 2, &[7, 11, 13, 14]);
    let third = p5.clone().with_phase(0, collecting(3, 2, 3));
    let told = play(&third, "withdraw(0)");
    assert_lanes(&told, (0, 0), [], []);
    assert_lanes(&told, (0, 1), [Release], []);
    assert_lanes(&told, (0, 2), [Release], []);
    assert_lanes(&told, (0, 3), [Withdraw], []);
}

/// A record made by hand may approach a station that is no member: WITHDRAW goes there, RELEASE to the members below.
#[test]
fn at_no_member() {
    let between = p2().with_phase(0, collecting(1, 1, 1));
    let told = play(&between, "withdraw(0)");
    assert_eq!(told.stations[0], Phase::Withdrawing);
    assert_lanes(&told, (0, 0), [Release], []);
    assert_lanes(&told, (0, 1), [Withdraw], []);
    assert_lanes(&told, (0, 2), [], []);
    let below = p2().with_phase(1, collecting(2, 1, 0));
    let told = play(&below, "withdraw(1)");
    assert_lanes(&told, (1, 0), [Withdraw], []);
    assert_lanes(&told, (1, 1), [], []);
    assert_lanes(&told, (1, 2), [], []);
}

/// Station 1 waits behind station 0, which withdraws with its grant: GONE to the one, GRANT to the other, which goes on to
/// hold.
#[test]
fn the_next_is_served() {
    let calls = "request(0,0,1) up(0,0) request(1,0,1) up(1,0) withdraw(0) up(0,0)";
    let served = play(&p2(), calls);
    assert_lanes(&served, (0, 0), [], [Grant, Gone]);
    assert_lanes(&served, (1, 0), [], [Grant]);
    assert_eq!(&served.arbiters[0].granted[..3], [0, 1, 0]);
    let (held, entered, _) = played(&served, "down(1,0) up(1,1) down(1,1)");
    assert_eq!((entered, held.stations[1]), (1, holding(0, 1)));
    // Of three units station 0 has two, station 1 waits for two and station 2 behind it for one.
    let calls = "request(0,0,2) up(0,0) request(1,0,2) up(1,0) request(2,0,1) up(2,0)";
    let two_wait = play(&shared(), calls);
    let served = play(&two_wait, "withdraw(1) up(1,0)");
    assert_eq!(&served.arbiters[0].granted[..3], [2, 0, 1]);
    assert!(served.arbiters[0].line.is_empty());
    assert_lanes(&served, (1, 0), [], [Gone]);
    assert_lanes(&served, (2, 0), [], [Grant]);
}

/// Every entry of the sender leaves the line, wherever it stands, and those of others keep their order.
#[test]
fn every_entry_leaves() {
    let mut arbiter = waiting(5, 1, 2);
    arbiter.granted[..3].copy_from_slice(&[2, 1, 0]);
    arbiter.line[1].station = 0;
    arbiter.line[3].station = 2;
    let told = shared()
        .with_arbiter(0, arbiter)
        .with_up(1, 0, lane(1, Withdraw));
    let after = play(&told, "up(1,0)");
    let line: Vec<usize> = after.arbiters[0].line.iter().map(|e| e.station).collect();
    assert_eq!(line, [0, 2]);
    assert_eq!(&after.arbiters[0].granted[..3], [2, 0, 0]);
    assert_lanes(&after, (1, 0), [], [Gone]);
}

/// GONE at a station that is not withdrawing: it is taken, and nothing else changes. At one that is, from any arbiter, it
/// makes it idle.
#[test]
fn gone_made_by_hand() {
    for phase in [
        Phase::Idle,
        collecting(0, 1, 0),
        collecting(0, 1, 1),
        holding(0, 1),
    ] {
        let before = p2().with_phase(0, phase);
        let told = before.clone().with_down(0, 0, messages([Gone, Grant]));
        let expected = before.with_down(0, 0, lane(1, Grant));
        assert_eq!(play(&told, "down(0,0)"), expected, "{phase:?}");
    }
    for j in 0..3 {
        let told = p2()
            .with_phase(0, Phase::Withdrawing)
            .with_down(0, j, lane(1, Gone));
        assert_eq!(play(&told, &format!("down(0,{j})")), p2());
    }
}

/// Two GRANTs fill the lane down, so that GONE finds no place. With one of them taken it does.
#[test]
fn full_lane_down() {
    let full = p2()
        .with_phase(0, Phase::Withdrawing)
        .with_down(0, 0, lane(2, Grant))
        .with_up(0, 0, lane(1, Withdraw));
    let answer = call(&full, "up(0,0)");
    assert_eq!((answer.refusal, &answer.record), (14, &full));
    let calls = "down(0,0) up(0,0) down(0,0) down(0,0)";
    assert_eq!(play(&full, calls), p2());
}

/// 20 before a request, while the station withdraws and once it holds; in between it may withdraw, and ask again.
#[test]
fn not_collecting() {
    let refused = |record: &Record| {
        let answer = call(record, "withdraw(0)");
        assert_eq!((answer.refusal, &answer.record), (20, record));
    };
    refused(&p2());
    let told = play(&p2(), "request(0,0,1) withdraw(0)");
    refused(&told);
    assert_eq!(call(&told, "request(0,0,1)").refusal, 11);
    assert_eq!(call(&told, "release(0)").refusal, 12);
    let idle = play(&told, "up(0,0) up(0,0) down(0,0) down(0,0)");
    assert_eq!(idle, p2());
    refused(&idle);
    let again = "request(0,0,1) up(0,0) down(0,0) up(0,1) down(0,1)";
    let (held, entered, _) = played(&idle, again);
    assert_eq!(entered, 1);
    refused(&held);
}

/// A page with withdrawals: one station, whose second is refused.
#[test]
fn in_the_journal() {
    let head = "stations=1\nunits=1\nquorums=1\nmembers=1\n";
    let ask = "do=request\nstation=0\nwith=0\nunits=1\n";
    let withdraw = "do=withdraw\nstation=0\nwith=0\nunits=0\n";
    let answer = |refused: usize| format!("refused={refused}\nentered=0\nleft=0\n");
    let input = format!("{head}{ask}{withdraw}{withdraw}");
    let (good, bad) = (answer(0), answer(20));
    let expected =
        format!("{head}table=0\nwidth=0\neven=1\n{ask}{good}{withdraw}{good}{withdraw}{bad}");
    assert_eq!(page(input.as_bytes()), expected);
    for (from, to) in [("with=0", "with=1"), ("units=0", "units=1")] {
        let input = format!("{head}{}", withdraw.replace(from, to));
        assert_eq!(page(input.as_bytes()), "input=15\n");
    }
}
