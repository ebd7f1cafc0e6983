//! The lent arbiter call of the static library against the model's.

mod lent {
    pub mod compare;
    pub mod records;
}

use lent::compare::{compare, Arrival, Met};
use lent::records::{arrival, damage, in_range, stock};
use model::rng::Rng;
use pafluzeno::header::{RELEASE, REQUEST, WITHDRAW};

/// Messages one after the other, from the empty record.
#[test]
fn long_lists() {
    let mut met = Met::default();
    for seed in 0..1_500 {
        let mut rng = Rng::new(seed);
        let k = stock(&mut rng);
        let requests = rng.pick(&[35, 50, 70]);
        let mut record = pafluzeno::Arbiter::default();
        for i in 0..200 {
            let message = arrival(&mut rng, k, requests);
            let place = format!("seed {seed}, message {i}");
            compare(&place, &mut record, message, &mut met);
        }
    }
    met.assert_seen(&[0, 8, 10, 14, 15], 1_000);
    assert!(
        met.granted_one >= 10_000 && met.granted_more >= 1_000,
        "{met:?}"
    );
    assert!(met.waited >= 10_000, "{met:?}");
    assert!(
        met.left_line >= 5_000 && met.left_line_more >= 5_000,
        "{met:?}"
    );
    assert!(
        met.gave_back >= 5_000 && met.served_others >= 2_000,
        "{met:?}"
    );
}

/// Records made by hand, in range and out of it, with good and bad numbers.
#[test]
fn by_hand() {
    let mut met = Met::default();
    for seed in 0..60_000 {
        let mut rng = Rng::new(1_000_000 + seed);
        let fair = stock(&mut rng);
        let mut record = in_range(&mut rng, fair);
        if rng.percent(30) {
            damage(&mut rng, fair, &mut record);
        }
        let any = rng.draw() as usize;
        let wrong = rng.pick(&[0, 201, 255, 256, 256 + fair, 1 << 32, usize::MAX, any]);
        let mut message = arrival(&mut rng, fair, 60);
        if rng.percent(5) {
            message.stock = wrong;
        }
        compare(&format!("seed {seed}"), &mut record, message, &mut met);
    }
    met.assert_seen(&[0, 2, 8, 10, 14, 15, 19], 500);
    assert!(
        met.granted_one >= 5_000 && met.granted_more >= 500,
        "{met:?}"
    );
    assert!(met.waited >= 5_000, "{met:?}");
    assert!(met.left_line >= 500 && met.left_line_more >= 300, "{met:?}");
    assert!(met.gave_back >= 500 && met.served_others >= 500, "{met:?}");
}

/// That one call is so refused; 0 is not refused.
fn assert_refusal(refusal: usize, record: pafluzeno::Arbiter, arrival: Arrival) {
    let mut met = Met::default();
    compare("order", &mut record.clone(), arrival, &mut met);
    met.assert_seen(&[refusal], 1);
}

/// One record in which the later refusals could be given too: the first of them is, in the order 2, 19, 8, 10, 14. What is
/// no message is 15 before all of them, and the last two are a REQUEST's alone.
#[test]
fn order() {
    let mut full = pafluzeno::Arbiter {
        len: 12,
        ..Default::default()
    };
    full.line.fill(pafluzeno::Entry {
        station: 0,
        units: 1,
    });
    let mut damaged = full;
    damaged.granted[11] = 255;
    let rows = [
        (2, damaged, 0, 12, 0),
        (2, damaged, 201, 12, 0),
        (19, damaged, 200, 12, 0),
        (8, full, 200, 12, 0),
        (10, full, 200, 11, 0),
        (10, full, 200, 11, 201),
        (14, full, 200, 11, 200),
    ];
    for (refusal, record, stock, station, units) in rows {
        let told = |message| Arrival {
            stock,
            station,
            message,
            units,
        };
        assert_refusal(refusal, record, told(REQUEST));
        let of_all = if refusal < 10 || refusal == 19 {
            refusal
        } else {
            0
        };
        assert_refusal(of_all, record, told(RELEASE));
        assert_refusal(of_all, record, told(WITHDRAW));
        for none in [3, 4, 127, 128, 254, 255] {
            assert_refusal(15, record, told(none));
        }
    }
}

/// Every number of a byte, on one record that all could change: 0, 1 and 2 are messages, and nothing else is.
#[test]
fn every_number() {
    let mut record = pafluzeno::Arbiter::default();
    record.granted[3] = 2;
    record.line[0] = pafluzeno::Entry {
        station: 1,
        units: 1,
    };
    record.len = 1;
    for message in 0..=255 {
        let told = Arrival {
            stock: 2,
            station: 3,
            message,
            units: 2,
        };
        assert_refusal(if message <= 2 { 0 } else { 15 }, record, told);
    }
}

/// Worked out by hand: station 3 has both units, and 1, 3, 5 and 3 again wait for one each. Its withdrawal takes its grant
/// and its two places, and both others are served; GONE, which goes to station 3, is not in the set.
#[test]
fn a_withdrawal() {
    let mut record = pafluzeno::Arbiter::default();
    record.granted[3] = 2;
    record.len = 4;
    for (i, station) in [1, 3, 5, 3].into_iter().enumerate() {
        record.line[i] = pafluzeno::Entry { station, units: 1 };
    }
    let told = Arrival {
        stock: 2,
        station: 3,
        message: WITHDRAW,
        units: 0,
    };
    compare("by hand", &mut record.clone(), told, &mut Met::default());
    assert_eq!(pafluzeno::withdraw(&mut record, 2, 3), Ok(2 + 32));
    assert_eq!(record.granted, [0, 1, 0, 0, 0, 1, 0, 0, 0, 0, 0, 0]);
    assert_eq!(record.len, 0);
    // Nothing is there of it any more: it may withdraw again, and nothing changes.
    assert_eq!(pafluzeno::withdraw(&mut record, 2, 3), Ok(0));
    assert_eq!(record.granted, [0, 1, 0, 0, 0, 1, 0, 0, 0, 0, 0, 0]);
}
