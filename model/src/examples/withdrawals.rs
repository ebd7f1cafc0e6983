//! The examples of the program `withdrawals`: calls of the machine, one line a call.

use super::by_hand::{collecting, holding, lane, p2, shared, waiting};
use super::out_of_range;
use super::script::Out;
use crate::machine::record::{Message, Phase, Record};

use Message::{Gone, Grant, Release, Withdraw};

fn by_calls(out: &mut Out) {
    out.play(&p2(), "withdrawn in line: request(0,0,1) up(0,0) request(1,0,1) up(1,0) withdraw(1) withdraw(1) request(1,0,1) release(1) up(1,0) down(1,0) withdraw(1) request(1,0,1)");
    out.play(&p2(), "withdrawn when granted: request(0,0,1) up(0,0) request(1,0,1) up(1,0) withdraw(0) down(0,0) up(0,0) down(1,0) up(1,1) down(1,1) withdraw(1) down(0,0) down(0,0)");
    out.play(&shared(), "behind release and request: request(1,0,1) up(1,0) down(1,0) release(1) request(1,0,2) withdraw(1) up(1,0) up(1,0) up(1,0) down(1,0) down(1,0) request(2,0,3) up(2,0) down(2,0)");
    out.play(&p2(), "at the second member: request(0,0,1) up(0,0) down(0,0) withdraw(0) up(0,0) up(0,0) up(0,1) down(0,1) up(0,1) up(0,2) down(0,1) request(1,0,1) up(1,0) down(1,0) up(1,1) down(1,1)");
}

fn gone(out: &mut Out) {
    let told = p2().with_down(0, 0, lane(1, Gone));
    out.play(&told, "gone to idle: down(0,0) down(0,0) request(0,0,1)");
    out.play(
        &told.clone().with_phase(0, collecting(0, 1, 0)),
        "gone to collecting: down(0,0) request(0,0,1) withdraw(0)",
    );
    out.play(
        &told.with_phase(0, holding(0, 1)),
        "gone to holding: down(0,0) release(0)",
    );
    let of_another = p2()
        .with_down(0, 2, lane(1, Gone))
        .with_phase(0, Phase::Withdrawing);
    out.play(
        &of_another,
        "gone of another: request(0,0,1) down(0,2) request(0,0,1)",
    );
    out.play(
        &p2().with_phase(0, collecting(1, 1, 1)),
        "no member: withdraw(0) up(0,2) up(0,0) up(0,0) up(0,1) down(0,1) request(0,1,1)",
    );
    let twelve = p2()
        .with_arbiter(0, waiting(12, 1, 1))
        .with_up(1, 0, lane(1, Withdraw));
    out.play(
        &twelve,
        "every entry: up(1,0) down(1,0) down(1,0) request(2,0,1) up(2,0) down(2,0)",
    );
}

fn rooms(out: &mut Out) {
    let second = p2().with_phase(0, collecting(0, 1, 1));
    out.play(
        &second.clone().with_up(0, 1, lane(4, Release)),
        "full lane, withdraw: withdraw(0) up(0,0) up(0,1) withdraw(0) up(0,0)",
    );
    out.play(
        &second.with_up(0, 0, lane(4, Release)),
        "full lane, its release: withdraw(0) up(0,1) up(0,0) withdraw(0) up(0,1)",
    );
    let grants = p2()
        .with_down(0, 0, lane(2, Grant))
        .with_phase(0, Phase::Withdrawing)
        .with_up(0, 0, lane(1, Withdraw));
    out.play(
        &grants,
        "full lane, gone: up(0,0) down(0,0) up(0,0) down(0,0) down(0,0) down(0,0) request(0,0,1)",
    );
    out.play(
        &p2().with_up(0, 0, lane(4, Release)),
        "8 before 20, 20 before 14: withdraw(3) withdraw(0)",
    );
}

fn ranges(out: &mut Out) {
    out_of_range::lanes(
        out,
        &[(4, Withdraw), (1, Gone)],
        &[(1, Gone), (1, Withdraw)],
    );
    out.play(
        &p2().with_phase(2, Phase::Withdrawing),
        "withdrawing: withdraw(2) request(0,0,1)",
    );
    out.play(&Record::empty(), "refusal 19: withdraw(0) withdraw(9)");
}

pub fn output() -> String {
    let mut out = Out::default();
    by_calls(&mut out);
    gone(&mut out);
    rooms(&mut out);
    ranges(&mut out);
    out.text
}
