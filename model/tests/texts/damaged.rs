//! Texts that are damaged, or only look so.

use super::damaged_lines::{
    edit, lines_swapped, steps_before_the_table, value, wrong_key, wrong_word,
};
use super::lengths::{far_too_long, last_of_65536_damaged, of_length};
use super::runs::{on_table, Met};
use super::tables;
use model::page::{table_lines, MOST_INPUT};
use model::random;
use model::rng::Rng;
use model::steps::any_step;
use model::text::{Do, Step};

/// What the model must make of every text of a kind.
#[derive(Clone, Copy, PartialEq, Eq, Debug)]
pub enum Form {
    Good,
    Bad,
    Either,
}

use Form::{Bad, Either, Good};

/// A kind's name, what its texts are, and its generator.
pub type Kind = (&'static str, Form, fn(&mut Rng) -> Vec<u8>);

pub const KINDS: [Kind; 42] = [
    ("undamaged", Good, |rng| base(rng).into_bytes()),
    ("bit flipped", Either, bit_flipped),
    ("byte replaced", Either, byte_replaced),
    ("byte inserted", Either, byte_inserted),
    ("byte removed", Either, byte_removed),
    ("cut anywhere", Either, cut_anywhere),
    ("cut within a line", Bad, cut_within_a_line),
    ("random bytes", Either, random_bytes),
    ("line doubled", Bad, |rng| {
        edit(rng, |lines, at| lines.insert(at, lines[at].clone()))
    }),
    ("line missing", Bad, |rng| {
        edit(rng, |lines, at| drop(lines.remove(at)))
    }),
    ("blank line", Bad, |rng| {
        edit(rng, |lines, at| lines.insert(at, String::new()))
    }),
    ("lines swapped", Either, lines_swapped),
    ("steps before the table", Bad, steps_before_the_table),
    ("records for steps", Bad, records_for_steps),
    ("carriage returns", Bad, |rng| {
        base(rng).replace('\n', "\r\n").into_bytes()
    }),
    ("one carriage return", Bad, |rng| {
        edit(rng, |lines, at| lines[at].push('\r'))
    }),
    ("leading zero", Bad, |rng| value(rng, |v| format!("0{v}"))),
    ("leading zeros", Bad, |rng| {
        value(rng, |v| format!("{v:0>9}"))
    }),
    ("NUL byte", Bad, |rng| inserted(rng, 0)),
    ("space", Bad, |rng| inserted(rng, b' ')),
    ("tab", Bad, |rng| inserted(rng, b'\t')),
    ("plus sign", Bad, |rng| value(rng, |v| format!("+{v}"))),
    ("minus sign", Bad, |rng| value(rng, |v| format!("-{v}"))),
    ("two equals signs", Bad, |rng| {
        value(rng, |v| format!("={v}"))
    }),
    ("value 65536", Bad, |rng| {
        value(rng, |_| String::from("65536"))
    }),
    ("huge value", Bad, |rng| {
        value(rng, |_| String::from("99999999999999999999"))
    }),
    ("value of 2^64", Bad, |rng| {
        value(rng, |_| String::from("18446744073709551616"))
    }),
    ("empty value", Bad, |rng| value(rng, |_| String::new())),
    ("word for a number", Bad, |rng| {
        value(rng, |_| String::from("up"))
    }),
    ("wrong key", Bad, wrong_key),
    ("wrong word", Bad, wrong_word),
    ("empty input", Bad, |_| Vec::new()),
    ("no final line feed", Bad, no_final_line_feed),
    (
        "bad step behind a refused table",
        Bad,
        bad_step_behind_a_refused_table,
    ),
    ("step not of the form", Bad, step_not_of_the_form),
    ("quorums=65", Bad, |rng| many_quorums(rng, 65)),
    ("quorums=64", Good, |rng| many_quorums(rng, 64)),
    ("quorums=0", Either, no_quorums),
    ("65,536 bytes", Good, |rng| of_length(rng, MOST_INPUT)),
    ("65,536 bytes, the last damaged", Bad, last_of_65536_damaged),
    ("65,537 bytes", Bad, |rng| of_length(rng, MOST_INPUT + 1)),
    ("far too long", Bad, far_too_long),
];

/// An accepted table with a short run, which is damaged then. The table is small, so that no part of the text is rarely
/// met.
pub fn base(rng: &mut Rng) -> String {
    let (n, k) = (rng.between(1, 4), rng.between(1, 30));
    let quorums = random::accepted(rng, n, k);
    let most = rng.between(1, 12);
    on_table(rng, n, k, &quorums, most, &mut Met::default())
}

fn bit_flipped(rng: &mut Rng) -> Vec<u8> {
    let mut text = base(rng).into_bytes();
    let at = rng.below(text.len());
    text[at] ^= 1 << rng.below(8);
    text
}

fn byte_replaced(rng: &mut Rng) -> Vec<u8> {
    let mut text = base(rng).into_bytes();
    let at = rng.below(text.len());
    text[at] = if rng.percent(50) {
        rng.byte()
    } else {
        rng.pick(b"0123456789=\n")
    };
    text
}

fn byte_inserted(rng: &mut Rng) -> Vec<u8> {
    let byte = if rng.percent(50) {
        rng.byte()
    } else {
        rng.pick(b"0123456789=\n")
    };
    inserted(rng, byte)
}

fn byte_removed(rng: &mut Rng) -> Vec<u8> {
    let mut text = base(rng).into_bytes();
    text.remove(rng.below(text.len()));
    text
}

fn inserted(rng: &mut Rng, byte: u8) -> Vec<u8> {
    let mut text = base(rng).into_bytes();
    text.insert(rng.below(text.len() + 1), byte);
    text
}

fn cut_anywhere(rng: &mut Rng) -> Vec<u8> {
    let mut text = base(rng);
    let cut = rng.below(text.len());
    let at = match rng.below(3) {
        0 => cut,
        // At the end of a line, where the text may be good.
        1 => text[..cut].rfind('\n').map_or(0, |end| end + 1),
        // Where a step begins: it is good.
        _ => text[..cut].rfind("do=").unwrap_or(cut),
    };
    text.truncate(at);
    text.into_bytes()
}

fn cut_within_a_line(rng: &mut Rng) -> Vec<u8> {
    let mut text = base(rng).into_bytes();
    text.truncate(rng.between(1, text.len() - 1));
    if text.ends_with(b"\n") {
        text.pop();
    }
    text
}

fn random_bytes(rng: &mut Rng) -> Vec<u8> {
    (0..rng.below(300)).map(|_| rng.byte()).collect()
}

/// The program's own output, fed to it again.
fn records_for_steps(rng: &mut Rng) -> Vec<u8> {
    model::page::page(base(rng).as_bytes()).into_bytes()
}

fn no_final_line_feed(rng: &mut Rng) -> Vec<u8> {
    let mut text = base(rng).into_bytes();
    text.pop();
    text
}

/// The lines of a step that breaks a record's rules in one place.
fn bad_step(rng: &mut Rng) -> String {
    let good = any_step(rng, 3, 3, 3);
    let most = rng.pick(&[3, 65535]);
    let some = rng.between(1, most);
    let alone = rng.pick(&[Do::Release, Do::Withdraw]);
    let bad = match rng.below(4) {
        0 => Step::new(alone, good.station, some, 0),
        1 => Step::new(alone, good.station, 0, some),
        2 => Step::new(Do::Up, good.station, good.with, some),
        _ => Step::new(Do::Down, good.station, good.with, some),
    };
    bad.lines()
}

fn step_not_of_the_form(rng: &mut Rng) -> Vec<u8> {
    (base(rng) + &bad_step(rng)).into_bytes()
}

/// "tested also where the table is refused".
fn bad_step_behind_a_refused_table(rng: &mut Rng) -> Vec<u8> {
    let refusal = rng.pick(&[1, 2, 3, 4, 6, 7]);
    let before = rng.below(4);
    let text = tables::text(rng, refusal, before);
    (text + &bad_step(rng)).into_bytes()
}

fn many_quorums(rng: &mut Rng, count: usize) -> Vec<u8> {
    let quorums: Vec<u16> = (0..count).map(|_| rng.below(4096) as u16).collect();
    let mut text = table_lines(12, 1, &quorums);
    for _ in 0..rng.below(3) {
        text += &any_step(rng, 12, 1, count).lines();
    }
    text.into_bytes()
}

/// With steps behind it is good, with members it is not.
fn no_quorums(rng: &mut Rng) -> Vec<u8> {
    let mut text = table_lines(rng.below(14), rng.below(202), &[]);
    for _ in 0..rng.below(3) {
        text += &any_step(rng, 12, 1, 1).lines();
    }
    if rng.percent(30) {
        text += "members=1\n";
    }
    text.into_bytes()
}
