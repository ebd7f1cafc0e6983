//! Records as numbers and as texts: of the form, not of the form, and damaged.

use crate::texts::damaged::{
    Form::{Bad, Either, Good},
    Kind,
};
use model::calls::Numbers;
use model::rng::Rng;
use model::text::WORDS;

const LIMITS: [usize; 14] = [
    0, 1, 2, 9, 10, 11, 99, 100, 999, 1000, 9999, 10000, 65534, 65535,
];

const KEYS: [&str; 7] = [
    "do", "station", "with", "units", "refused", "entered", "left",
];

pub fn number(rng: &mut Rng) -> usize {
    match rng.below(4) {
        0 => rng.below(65536),
        1 => rng.below(20),
        _ => rng.pick(&LIMITS),
    }
}

fn some(rng: &mut Rng) -> usize {
    number(rng).max(1)
}

/// The numbers of release and withdraw, which are with nothing.
const ALONE: [usize; 2] = [3, 4];

/// A record of the form.
pub fn good(rng: &mut Rng) -> Numbers {
    let mut record = [0; 7].map(|_| number(rng));
    record[0] = rng.below(WORDS.len());
    if ALONE.contains(&record[0]) {
        record[2] = 0;
    }
    if record[0] != 0 {
        record[3] = 0;
    }
    record
}

/// One that is not: a release or a withdrawal with something, or units where there are none.
pub fn bad(rng: &mut Rng) -> Numbers {
    let mut record = good(rng);
    if rng.percent(40) {
        record[0] = rng.pick(&ALONE);
        record[2] = some(rng);
        record[3] = 0;
    } else {
        record[0] = rng.between(1, WORDS.len() - 1);
        record[2] = number(rng);
        if ALONE.contains(&record[0]) {
            record[2] = 0;
        }
        record[3] = some(rng);
    }
    record
}

/// One that has no word, mostly with a low byte that has one.
pub fn without_word(rng: &mut Rng) -> Numbers {
    let mut record = good(rng);
    record[0] = match rng.below(3) {
        0 => rng.pick(&[5, 6, 7, 8, 255, 65535]),
        1 => rng.between(WORDS.len(), 65535),
        _ => 256 * rng.between(1, 255) + record[0],
    };
    record
}

/// Its seven lines, without their line feeds.
pub fn lines(record: Numbers) -> Vec<String> {
    let value = |i: usize| match i {
        0 => WORDS[record[0]].to_string(),
        _ => record[i].to_string(),
    };
    (0..7)
        .map(|i| format!("{}={}", KEYS[i], value(i)))
        .collect()
}

pub fn joined(lines: &[String]) -> Vec<u8> {
    lines
        .iter()
        .flat_map(|l| [l.as_bytes(), b"\n"].concat())
        .collect()
}

pub fn text(record: Numbers) -> Vec<u8> {
    joined(&lines(record))
}

/// So many records, one behind the other.
pub fn texts(rng: &mut Rng, count: usize) -> Vec<u8> {
    (0..count).flat_map(|_| text(good(rng))).collect()
}

/// Something may stand behind: another record, a part of one, or any bytes.
fn behind(rng: &mut Rng, mut text: Vec<u8>) -> Vec<u8> {
    let mut more = texts(rng, 1);
    match rng.below(5) {
        0 => {}
        1 => text.append(&mut more),
        2 => text.extend(&more[..rng.below(more.len())]),
        3 => text.extend((0..rng.below(9)).map(|_| rng.byte())),
        _ => text.push(rng.pick(b"\n\0 d0=")),
    }
    text
}

/// A change at some line of a good record.
fn edit(rng: &mut Rng, change: impl FnOnce(&mut Vec<String>, usize)) -> Vec<u8> {
    let mut lines = lines(good(rng));
    let at = rng.below(lines.len());
    change(&mut lines, at);
    behind(rng, joined(&lines))
}

/// Another value at some line that has a number.
fn value(rng: &mut Rng, change: impl FnOnce(usize) -> String) -> Vec<u8> {
    let record = good(rng);
    let at = rng.between(1, 6);
    let mut lines = lines(record);
    lines[at] = format!("{}={}", KEYS[at], change(record[at]));
    behind(rng, joined(&lines))
}

/// A change at some byte of a good record.
fn at_byte(rng: &mut Rng, change: impl FnOnce(&mut Vec<u8>, usize, u8)) -> Vec<u8> {
    let mut text = text(good(rng));
    let byte = if rng.percent(50) {
        rng.byte()
    } else {
        rng.pick(b"0123456789=\n")
    };
    let at = rng.below(text.len());
    change(&mut text, at, byte);
    behind(rng, text)
}

fn word(rng: &mut Rng) -> Vec<u8> {
    let mut lines = lines(good(rng));
    let wrong = [
        "",
        "Up",
        "ups",
        "u",
        "0",
        "1",
        "4",
        "grant",
        "gone",
        "reques",
        "releases",
        "down ",
        "up=up",
        "withdra",
        "withdrawn",
        "Withdraw",
    ];
    lines[0] = format!("do={}", rng.pick(&wrong));
    behind(rng, joined(&lines))
}

pub const KINDS: [Kind; 29] = [
    ("good", Good, |rng| text(good(rng))),
    ("good, and something behind", Good, |rng| {
        let good = text(good(rng));
        behind(rng, good)
    }),
    ("good, and a bad one behind", Good, |rng| {
        [text(good(rng)), text(bad(rng))].concat()
    }),
    ("a bad one, and a good one behind", Bad, |rng| {
        [text(bad(rng)), text(good(rng))].concat()
    }),
    ("not of the form", Bad, |rng| text(bad(rng))),
    ("bit flipped", Either, |rng| {
        let bit = rng.below(8);
        at_byte(rng, |text, at, _| text[at] ^= 1 << bit)
    }),
    ("byte replaced", Either, |rng| {
        at_byte(rng, |text, at, byte| text[at] = byte)
    }),
    ("byte inserted", Either, |rng| {
        at_byte(rng, |text, at, byte| text.insert(at, byte))
    }),
    ("byte removed", Either, |rng| {
        at_byte(rng, |text, at, _| {
            text.remove(at);
        })
    }),
    ("first byte removed", Bad, |rng| {
        text(good(rng))[1..].to_vec()
    }),
    ("last byte removed", Bad, |rng| {
        let mut text = text(good(rng));
        text.pop();
        text
    }),
    ("line missing", Bad, |rng| {
        edit(rng, |lines, at| drop(lines.remove(at)))
    }),
    ("line doubled", Either, |rng| {
        edit(rng, |lines, at| lines.insert(at, lines[at].clone()))
    }),
    ("blank line", Bad, |rng| {
        edit(rng, |lines, at| lines.insert(at, String::new()))
    }),
    ("lines swapped", Bad, |rng| {
        let other = rng.between(1, 6);
        edit(rng, |lines, at| lines.swap(at, (at + other) % 7))
    }),
    ("two lines in one", Bad, |rng| {
        edit(rng, |lines, at| {
            let next = lines.remove(at % 6 + 1);
            lines[at % 6] += &next;
        })
    }),
    ("key missing", Bad, |rng| {
        edit(rng, |lines, at| {
            lines[at] = lines[at].split_off(KEYS[at].len())
        })
    }),
    ("key of another line", Bad, |rng| {
        edit(rng, |lines, at| {
            lines[at] = lines[at].replace(KEYS[at], KEYS[(at + 1) % 7])
        })
    }),
    ("wrong word", Bad, word),
    ("carriage return", Bad, |rng| {
        edit(rng, |lines, at| lines[at].push('\r'))
    }),
    ("space", Bad, |rng| {
        edit(rng, |lines, at| lines[at].insert(0, ' '))
    }),
    ("leading zero", Bad, |rng| value(rng, |v| format!("0{v}"))),
    ("sign", Bad, |rng| value(rng, |v| format!("+{v}"))),
    ("no value", Bad, |rng| value(rng, |_| String::new())),
    ("the same in 16 bits", Bad, |rng| {
        value(rng, |v| (v + 65536).to_string())
    }),
    ("the same in 64 bits", Bad, |rng| {
        value(rng, |v| (v as u128 + 2u128.pow(64)).to_string())
    }),
    ("a step without its answer", Bad, |rng| {
        let mut step = lines(good(rng));
        step.truncate(4);
        [joined(&step), text(good(rng))].concat()
    }),
    ("random bytes", Bad, |rng| {
        (0..rng.below(200)).map(|_| rng.byte()).collect()
    }),
    ("nothing", Bad, |_| Vec::new()),
];
