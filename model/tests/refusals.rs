//! Every row of document 01's table of refusals but for the machine's calls, on the model itself, and what a refused call
//! leaves as it was.

use model::arbiter::{lent, lent_by_number, Arbiter, Entry, Sent};
use model::machine::open;
use model::machine::record::Record;
use model::page::page;
use model::ready::{cube, singleton, uniform, write};
use model::table::{check, scratch_after};
use model::text::{read_line, Do, Noted, Step, NOTHING};

/// The check's rows, on 4,096 bytes but for 5.
#[test]
fn rows_1_to_7() {
    let rows: [(usize, usize, usize, &[u16], usize); 7] = [
        (1, 13, 1, &[1], 4096),
        (2, 1, 0, &[1], 4096),
        (3, 1, 1, &[], 4096),
        (4, 3, 1, &[8], 4096),
        (5, 3, 1, &[3, 5, 6], 4095),
        (6, 2, 5, &[1, 2], 4096),
        (7, 2, 1, &[1, 3], 4096),
    ];
    for (refusal, n, k, quorums, scratch) in rows {
        assert_eq!(check(n, k, quorums, scratch).refusal, refusal);
        assert_eq!(open(n, k, quorums, scratch), (refusal, Record::empty()));
    }
}

#[test]
fn scratch_after_an_answer() {
    for len in [0, 1, 4095] {
        assert_eq!(scratch_after(&vec![9; len]), vec![9; len]);
    }
    for beyond in [0, 1, 904] {
        let expected = [vec![0; 4096], vec![9; beyond]].concat();
        assert_eq!(scratch_after(&vec![9; 4096 + beyond]), expected);
    }
}

const GOOD: Noted = Noted {
    step: Step {
        what: Do::Up,
        station: 1,
        with: 2,
        units: 0,
    },
    refused: 0,
    entered: 0,
    left: 0,
};

/// GOOD with other step values.
fn noted(what: Do, with: usize, units: usize) -> Noted {
    let step = Step {
        what,
        with,
        units,
        ..GOOD.step
    };
    Noted { step, ..GOOD }
}

#[test]
fn row_15_of_lines() {
    let bad = [
        "units=01\n",
        "units=1",
        "units=\n",
        "units=1\r\n",
        "units= 1\n",
        "units=+1\n",
        "units=-1\n",
        "units=65536\n",
        "units=99999999999999999999\n",
        "unit=1\n",
        "units=1 \n",
        "Units=1\n",
        "",
        "\n",
        "units=1\0\n",
        "units=00\n",
    ];
    for text in bad {
        assert_eq!(read_line(text.as_bytes(), b"units"), None, "{text:?}");
    }
    assert_eq!(
        read_line(b"units=65535\nrest", b"units"),
        Some((&b"65535"[..], &b"rest"[..]))
    );
    assert_eq!(read_line(b"=1\n", b""), Some((&b"1"[..], &b""[..])));
    assert_eq!(read_line(b"a=b=1\n", b"a=b"), None);
    assert_eq!(read_line(b"a\nb=1\n", b"a\nb"), None);
    assert_eq!(read_line(b"do=up\n", b"do"), Some((&b"up"[..], &b""[..])));
    assert_eq!(
        read_line(b"do=withdraw\n", b"do"),
        Some((&b"withdraw"[..], &b""[..]))
    );
    assert_eq!(read_line(b"do=1\n", b"do"), None);
    assert_eq!(read_line(b"with=up\n", b"with"), None);
}

#[test]
fn row_15_of_records() {
    let bad = [
        noted(Do::Release, 1, 0),
        noted(Do::Release, 0, 1),
        noted(Do::Withdraw, 1, 0),
        noted(Do::Withdraw, 0, 1),
        noted(Do::Up, 0, 1),
        noted(Do::Request, 65536, 1),
    ];
    for record in bad {
        assert_eq!(Noted::read(record.lines().as_bytes()), None, "{record:?}");
        // 15 before 16, and nothing is written.
        for len in [0, 100] {
            let mut out = vec![7; len];
            assert_eq!(record.write(&mut out, 3), (15, 3), "{record:?}");
            assert_eq!(out, vec![7; len]);
        }
    }
    let good = [
        NOTHING,
        GOOD,
        noted(Do::Request, 65535, 0),
        noted(Do::Release, 0, 0),
        noted(Do::Withdraw, 0, 0),
    ];
    for record in good {
        let text = record.lines() + "more";
        assert_eq!(Noted::read(text.as_bytes()), Some((record, &b"more"[..])));
    }
    assert_eq!(page(b"stations=1\nunits=01\nquorums=0\n"), "input=15\n");
}

#[test]
fn row_16() {
    let lines = GOOD.lines();
    let len = lines.len();
    assert_eq!(GOOD.write(&mut [], 0), (16, 0));
    for (room, at) in [(len, 1), (len + 4, 5), (3, 3), (3, 4), (3, usize::MAX)] {
        let mut out = vec![7; room];
        assert_eq!(GOOD.write(&mut out, at), (16, at));
        assert_eq!(out, vec![7; room]);
    }
    let mut out = vec![7; len + 9];
    assert_eq!(GOOD.write(&mut out, 5), (0, 5 + len));
    assert_eq!(out, [&[7; 5], lines.as_bytes(), &[7; 4]].concat());
    let mut short = [9; 2];
    assert_eq!(write(uniform(3, 1), &mut short), (16, 0));
    assert_eq!(short, [9; 2]);
}

#[test]
fn rows_17_and_18() {
    assert_eq!(cube(2, 3), Err(17));
    assert_eq!(cube(0, 1), Err(17));
    assert_eq!(uniform(9, 1), Err(18));
    // The tests' order, and 8 of the makers.
    assert_eq!(singleton(13, 13), Err(1));
    assert_eq!(singleton(3, 3), Err(8));
    assert_eq!(uniform(0, 0), Err(1));
    assert_eq!(uniform(12, 201), Err(2));
    assert_eq!(cube(0, 0), Err(2));
    assert_eq!(write(uniform(12, 1), &mut []), (18, 0));
}

/// The lent arbiter call's own order: 15 where the number is no message, 2, 19, 8, 10, 14. The last two are a REQUEST's.
#[test]
fn lent_arbiter_order() {
    let entry = Entry {
        station: 0,
        units: 1,
    };
    let mut full = Arbiter::empty();
    full.line = vec![entry; 12];
    let mut damaged = full.clone();
    damaged.line.push(entry);
    let rows = [
        (2, &damaged, 0, 12, 0),
        (2, &damaged, 201, 12, 0),
        (19, &damaged, 1, 12, 0),
        (8, &full, 1, 12, 0),
        (10, &full, 1, 11, 0),
        (10, &full, 1, 11, 2),
        (14, &full, 1, 11, 1),
    ];
    for (refusal, before, k, station, units) in rows {
        let answer = lent(before, k, station, Sent::Request(units));
        assert_eq!(answer.refusal, refusal);
        assert_eq!((answer.granted, &answer.after), (vec![false; 12], before));
        let of_all = if matches!(refusal, 10 | 14) {
            0
        } else {
            refusal
        };
        for sent in [Sent::Release, Sent::Withdraw] {
            assert_eq!(lent(before, k, station, sent).refusal, of_all);
        }
        for none in 3..=255 {
            let answer = lent_by_number(before, k, station, none, units);
            assert_eq!((answer.refusal, &answer.after), (15, before));
            assert_eq!(answer.granted, [false; 12]);
        }
    }
}
