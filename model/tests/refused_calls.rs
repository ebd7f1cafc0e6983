//! The rows of document 01's table of refusals that the machine's calls give, and document 02's 20, on the model itself. A
//! refused call leaves the record as it was.

use model::examples::by_hand::{collecting, holding, lane, p2, waiting};
use model::examples::script::call;
use model::machine::record::{Message, Phase, Record};

fn refusal(record: &Record, text: &str) -> usize {
    let answer = call(record, text);
    if answer.refusal != 0 {
        assert_eq!((answer.entered, answer.left), (0, 0), "{text}");
        assert_eq!(&answer.record, record, "{text}");
    }
    answer.refusal
}

#[test]
fn rows_8_to_14_and_19() {
    let p2 = p2();
    for text in [
        "request(3,0,1)",
        "up(3,0)",
        "up(0,3)",
        "down(0,3)",
        "release(3)",
        "withdraw(3)",
    ] {
        assert_eq!(refusal(&p2, text), 8, "{text}");
    }
    assert_eq!(refusal(&Record::fresh(1, 1, &[1]), "request(0,1,1)"), 9);
    let two_units = Record::fresh(1, 2, &[1]);
    assert_eq!(refusal(&two_units, "request(0,0,3)"), 10);
    assert_eq!(refusal(&two_units, "request(0,0,0)"), 10);
    let running = call(&p2, "request(0,0,1)").record;
    assert_eq!(refusal(&running, "request(0,1,1)"), 11);
    assert_eq!(refusal(&p2, "release(0)"), 12);
    assert_eq!(refusal(&p2, "up(0,0)"), 13);
    assert_eq!(refusal(&p2, "down(0,0)"), 13);
    let full = p2.with_up(0, 0, lane(4, Message::Release));
    assert_eq!(refusal(&full, "request(0,0,1)"), 14);
    for text in [
        "request(0,0,1)",
        "up(0,0)",
        "down(0,0)",
        "release(0)",
        "withdraw(0)",
    ] {
        assert_eq!(refusal(&Record::empty(), text), 19, "{text}");
    }
}

/// 20 at every station that does not collect; 11 and 12 at one that is withdrawing.
#[test]
fn row_20() {
    for phase in [Phase::Idle, holding(0, 1), Phase::Withdrawing] {
        let record = p2().with_phase(0, phase);
        assert_eq!(refusal(&record, "withdraw(0)"), 20, "{phase:?}");
    }
    let record = p2().with_phase(0, collecting(0, 1, 0));
    assert_eq!(refusal(&record, "withdraw(0)"), 0);
    let leaving = p2().with_phase(0, Phase::Withdrawing);
    assert_eq!(refusal(&leaving, "request(0,0,1)"), 11);
    assert_eq!(refusal(&leaving, "release(0)"), 12);
}

/// Withdraw tests 19, 8, 20, 14. A station that does not collect sends nothing, so that full lanes do not matter to it.
#[test]
fn withdraw_order() {
    let full = p2().with_up(0, 0, lane(4, Message::Withdraw));
    let no_stock = Record {
        stock: 0,
        ..full.clone()
    };
    assert_eq!(refusal(&no_stock, "withdraw(3)"), 19);
    assert_eq!(refusal(&full, "withdraw(3)"), 8);
    assert_eq!(refusal(&full, "withdraw(0)"), 20);
    // 14 of the WITHDRAW, and of a RELEASE to a member below.
    let first = full.clone().with_phase(0, collecting(0, 1, 0));
    assert_eq!(refusal(&first, "withdraw(0)"), 14);
    let second = full.clone().with_phase(0, collecting(0, 1, 1));
    assert_eq!(refusal(&second, "withdraw(0)"), 14);
    // Station 0 is not in quorum 2.
    let others = full.with_phase(0, collecting(2, 1, 2));
    assert_eq!(refusal(&others, "withdraw(0)"), 0);
}

/// 14 where GONE finds no place in the lane down, or a GRANT of the service behind it.
#[test]
fn row_14_of_a_withdrawal() {
    let told = p2().with_up(0, 0, lane(1, Message::Withdraw));
    for message in [Message::Grant, Message::Gone] {
        let full = told.clone().with_down(0, 0, lane(2, message));
        assert_eq!(refusal(&full, "up(0,0)"), 14, "{message:?}");
        let one = told.clone().with_down(0, 0, lane(1, message));
        assert_eq!(refusal(&one, "up(0,0)"), 0, "{message:?}");
    }
    let served = told.with_arbiter(0, waiting(1, 1, 1));
    let full = served.clone().with_down(1, 0, lane(2, Message::Gone));
    assert_eq!(refusal(&full, "up(0,0)"), 14);
    assert_eq!(refusal(&served, "up(0,0)"), 0);
}

/// What document 02 lets a record hold, each in its own lanes.
#[test]
fn row_19_of_messages() {
    let asked = "request(1,2,1)";
    for (message, up, down) in [
        (Message::Withdraw, 0, 19),
        (Message::Release, 0, 19),
        (Message::Gone, 19, 0),
        (Message::Grant, 19, 0),
    ] {
        let record = p2().with_up(2, 1, lane(2, message));
        assert_eq!(refusal(&record, asked), up, "{message:?}");
        let record = p2().with_down(2, 1, lane(2, message));
        assert_eq!(refusal(&record, asked), down, "{message:?}");
    }
    let long = p2().with_up(2, 1, lane(5, Message::Withdraw));
    assert_eq!(refusal(&long, asked), 19);
    let long = p2().with_down(2, 1, lane(3, Message::Gone));
    assert_eq!(refusal(&long, asked), 19);
    let leaving = p2().with_phase(2, Phase::Withdrawing);
    assert_eq!(refusal(&leaving, asked), 0);
}
