//! The line reader: keys, values and line ends, good ones and others.

use super::compare::{self, Met};
use model::rng::Rng;
use model::text::{number_step, WORDS};
use pafluzeno::{header, read_record};

/// The comparisons of each test, at least.
pub const OF_EVERY_KEY: usize = 200_000;
pub const OF_ANY_KEY: usize = 50_000;
pub const NUMBERS: usize = 100_000;
pub const BY_BYTES: usize = 20_000;

fn listed(list: &'static [u8]) -> Vec<&'static [u8]> {
    list.split(|&b| b == b'|').collect()
}

/// Document 01's keys; the empty key, keys that are near to the others, and other bytes; keys that hold `=` or a line
/// feed.
fn keys() -> Vec<&'static [u8]> {
    listed(
        b"do|station|with|units|refused|entered|left|stations|quorums|members|table|width|even|family|input\
        ||d|o|dodo|do | do|Do|DO|do\0|unit|unitss|Units|statio|tation|0|65535|x| |\0|\r|\xff\xfe|\xc3\xa4\
        |=|do=|=do|units=|units=1|\n|do\n|\nunits|with\nunits",
    )
}

/// The empty value; numbers around every limit; numbers that are none; the words of `do`, and words that are near to them.
fn values() -> Vec<&'static [u8]> {
    listed(
        b"|0|1|9|10|42|99|100|255|256|999|1000|9999|10000|32768|59999|65499|65529|65534|65535|65536|65537|65540|65600\
        |66000|70000|99999|100000|131072|655350|999999|4294967295|4294967296|4294967297|18446744073709551615\
        |18446744073709551616|18446744073709551617|340282366920938463463374607431768211457\
        |00|01|000|09|0000000000|065535|0000065535| |-1|-0|+1|+0| 1|1 |1\t|1\r|1\0|=1|1=|0x1|1e1|1.0|1,0|1_0\
        |\xd9\xa1|/|:|5/|5:|request|up|down|release|withdraw|Request|reques|requests|u|ups|UP|up | up|releas|releases\
        |requestup|Withdraw|withdra|withdraws|withdrawn|with|gone",
    )
}

/// What follows the value. The first four end the line.
fn ends() -> Vec<&'static [u8]> {
    listed(b"\n|\n\n|\ndo=up\nunits=1\n|\n\xff\0|| \n|\r\n|\0\n|\r|=\n|0")
}

fn line(key: &[u8], value: &[u8], end: &[u8]) -> Vec<u8> {
    [key, b"=", value, end].concat()
}

/// Every key with every value: with every end, and asked for by every key.
#[test]
fn lines_of_every_key() {
    let mut met = Met::default();
    let (keys, values) = (keys(), values());
    for key in &keys {
        for value in &values {
            for end in ends() {
                compare::line(key, &line(key, value, end), &mut met);
            }
            let text = line(key, value, b"\n");
            for asked in &keys {
                compare::line(asked, &text, &mut met);
            }
        }
        // Longer than anything that one would set aside for them.
        for digit in [b"0", b"1", b"9"] {
            compare::line(key, &line(key, &digit.repeat(5_000), b"\n"), &mut met);
        }
        let long = [key, &b"k".repeat(5_000)[..]].concat();
        compare::line(&long, &line(&long, b"1", b"\n"), &mut met);
        compare::line(key, key, &mut met);
        compare::line(key, b"", &mut met);
    }
    met.assert(OF_EVERY_KEY, &[(0, 3_000), (15, 100_000)]);
}

/// Any bytes as a key, with an allowed value or near one; in every other text a byte is changed.
#[test]
fn lines_of_any_key() {
    let mut met = Met::default();
    for seed in 0..OF_ANY_KEY as u64 {
        let mut rng = Rng::new(seed);
        let mut key: Vec<u8> = (0..rng.below(9)).map(|_| rng.byte()).collect();
        if rng.percent(60) {
            key = rng.pick(&keys()).to_vec();
        }
        let limit = rng.pick(&[10, 1_000, 65_536, 70_000, 1_000_000]);
        let value = if key == b"do" || rng.percent(5) {
            rng.pick(&WORDS).to_string()
        } else {
            rng.below(limit).to_string()
        };
        let mut text = line(&key, value.as_bytes(), rng.pick(&ends()[..4]));
        if seed % 2 == 0 {
            let (at, any) = (rng.below(text.len()), rng.byte());
            text[at] = rng.pick(&[any, b'0', b'9', b'=', b'\n']);
        }
        compare::line(&key, &text, &mut met);
        // The key may be a part of the text itself.
        compare::line(&text[..key.len()], &text, &mut met);
    }
    met.assert(OF_ANY_KEY, &[(0, 30_000), (15, 30_000)]);
}

/// 0 to 99999, of which 65,536 are numbers.
#[test]
fn every_number() {
    let mut met = Met::default();
    for number in 0..100_000 {
        let text = format!("units={number}\n");
        compare::line(b"units", text.as_bytes(), &mut met);
    }
    met.assert(NUMBERS, &[(0, 65_536), (15, 34_464)]);
}

/// The number step of document 02 against the library's readers, and against digits that are counted first and valued then:
/// every value, with every end and with every byte behind it.
#[test]
fn number_steps() {
    let rest: &[u8] = b"with=0\nunits=0\nrefused=0\nentered=0\nleft=0\n";
    let (mut good, mut bad) = (0, 0);
    let bytes = (0..=255).map(|byte| vec![byte]);
    let ends: Vec<Vec<u8>> = ends().iter().map(|e| e.to_vec()).chain(bytes).collect();
    for value in values() {
        for end in &ends {
            let text = [value, end, rest].concat();
            let (number, count) = number_step(&text, b'\n');
            let part = header::read_line(b"station", &[b"station=", &text[..]].concat());
            assert_eq!(part.len + usize::from(part.len > 0), count, "{text:?}");
            if count == 0 {
                assert_eq!(number, 0);
                bad += 1;
                continue;
            }
            let digits = text.iter().take_while(|b| b.is_ascii_digit()).count();
            let valued = |v: usize, b: &u8| 10 * v + usize::from(b - b'0');
            let twice = (text[..digits].iter().fold(0, valued), digits + 1);
            assert_eq!((number, count), twice, "{text:?}");
            if text[count..] == *rest {
                let text = [b"do=up\nstation=", &text[..]].concat();
                let (record, after) = read_record(&text).expect("a record");
                assert_eq!((record.station.into(), after.len()), (number, 0));
                good += 1;
            }
        }
    }
    assert!(good >= 30 && bad >= 20_000, "{good} good, {bad} bad");
}

/// Lines cut at every byte, and with every byte at every place.
#[test]
fn lines_by_bytes() {
    let mut met = Met::default();
    for line in [
        "do=release\n",
        "do=withdraw\n",
        "do=up\n",
        "=7\n",
        "units=65535\n",
        "left=0\n",
        "station=10\ndo=up\n",
    ] {
        let key = line.split('=').next().unwrap().as_bytes();
        for cut in 0..=line.len() {
            compare::line(key, &line.as_bytes()[..cut], &mut met);
            compare::line(&key[..cut.min(key.len())], line.as_bytes(), &mut met);
        }
        for at in 0..line.len() {
            for byte in 0..=255 {
                let mut text = line.as_bytes().to_vec();
                text[at] = byte;
                compare::line(key, &text, &mut met);
                text.insert(at, line.as_bytes()[at]);
                compare::line(key, &text, &mut met);
            }
        }
    }
    met.assert(BY_BYTES, &[(0, 500), (15, 10_000)]);
}
