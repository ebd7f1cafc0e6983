//! Answers worked out by hand from document 01, of the library, its wrapper and the model alike.

use super::compare::{self, Met};
use model::calls::{self, Part};
use pafluzeno::{header, Do, Record, Refusal};

/// What the line reader answers: where the value begins, and its bytes.
fn assert_line(key: &str, text: &str, place: usize, len: usize) {
    let case = format!("key {key:?}, text {text:?}");
    let (key, text) = (key.as_bytes(), text.as_bytes());
    assert_eq!(
        header::read_line(key, text),
        header::Part { place, len },
        "{case}"
    );
    assert_eq!(calls::read_line(key, text), Part { place, len }, "{case}");
    let value = match len {
        0 => Err(Refusal::BadForm),
        _ => Ok(&text[place..place + len]),
    };
    assert_eq!(pafluzeno::read_line(key, text), value, "{case}");
}

/// 15: the empty part at place 0.
fn assert_no_line(key: &str, text: &str) {
    assert_line(key, text, 0, 0);
}

/// The text begins with just these bytes, `=`, a number and a line feed; but they are two lines, and no key.
#[test]
fn a_key_with_a_line_feed() {
    assert_no_line("a\nb", "a\nb=1\n");
    assert_no_line("\n", "\n=1\n");
    assert_no_line("a\n", "a\n=1\n");
    assert_no_line("units=1\nwith", "units=1\nwith=2\n");
    assert_no_line("do\n", "do\n=up\n");
    assert_line("ab", "ab=1\n", 3, 1);
}

/// The same with `=`, which ends the key.
#[test]
fn a_key_with_an_equals_sign() {
    assert_no_line("a=b", "a=b=1\n");
    assert_no_line("=", "==1\n");
    assert_no_line("units=", "units==1\n");
    assert_no_line("units=1", "units=1=2\n");
    assert_no_line("do=", "do==up\n");
    assert_line("units", "units=12\nwith=3\n", 6, 2);
    assert_line("", "=1\n", 1, 1);
}

/// A refused read: 15, `request` and zeros, all of the text taken, and the empty part at its end left.
fn assert_refused(text: &str) {
    let bytes = text.as_bytes();
    let refused = header::Read {
        refusal: 15,
        record: Record {
            what: Do::Request.number(),
            station: 0,
            with: 0,
            units: 0,
            refused: 0,
            entered: 0,
            left: 0,
        },
        taken: bytes.len(),
    };
    assert_eq!(header::read_record(bytes), refused, "{text:?}");
    let by_model = (15, [0; 7], bytes.len());
    assert_eq!(calls::read_record(bytes), by_model, "{text:?}");
    let left = header::Part {
        place: bytes.len(),
        len: 0,
    };
    assert_eq!(header::after_record(bytes), left, "{text:?}");
    assert_eq!(compare::record(bytes, &mut Met::default()), 15);
}

const SIX_LINES: &str = "do=down\nstation=1\nwith=2\nunits=0\nrefused=3\nentered=4\n";

/// The first six lines are good. A good record behind them makes no difference.
#[test]
fn a_bad_last_line() {
    let good = format!("{SIX_LINES}left=5\n");
    let read = header::read_record(good.as_bytes());
    assert_eq!((read.refusal, read.taken), (0, good.len()));
    for last in [
        "left=05\n",
        "left=65536\n",
        "left=\n",
        "left=5\r\n",
        "right=5\n",
        "entered=5\n",
    ] {
        assert_refused(&format!("{SIX_LINES}{last}"));
        assert_refused(&format!("{SIX_LINES}{last}{good}"));
    }
    assert_refused(SIX_LINES);
    assert_refused(&format!("{SIX_LINES}left=5"));
}

/// Every line is good by itself. Only a request has units, and a release and a withdrawal are with nothing.
#[test]
fn lines_that_are_no_record() {
    let answer = "refused=12\nentered=3\nleft=4\n";
    let release = format!("do=release\nstation=1\nwith=0\nunits=0\n{answer}");
    let withdraw = release.replace("release", "withdraw");
    for (text, what) in [(&release, 3), (&withdraw, 4)] {
        let read = header::read_record(text.as_bytes());
        assert_eq!((read.refusal, read.taken), (0, text.len()));
        assert_eq!((read.record.what, read.record.with), (what, 0));
    }
    for step in [
        "do=release\nstation=1\nwith=1\nunits=0\n",
        "do=release\nstation=1\nwith=0\nunits=1\n",
        "do=withdraw\nstation=1\nwith=1\nunits=0\n",
        "do=withdraw\nstation=1\nwith=0\nunits=1\n",
        "do=up\nstation=1\nwith=0\nunits=1\n",
        "do=down\nstation=1\nwith=0\nunits=1\n",
    ] {
        assert_refused(&format!("{step}{answer}"));
        assert_refused(&format!("{step}{answer}{release}"));
    }
}
