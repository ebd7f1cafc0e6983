//! Damage that is done line by line.

use super::damaged::base;
use model::rng::Rng;

/// The lines without their line feeds.
fn lines_of(text: &str) -> Vec<String> {
    text.lines().map(String::from).collect()
}

fn joined(lines: &[String]) -> Vec<u8> {
    lines
        .iter()
        .map(|line| format!("{line}\n"))
        .collect::<String>()
        .into_bytes()
}

/// A change at some line.
pub fn edit(rng: &mut Rng, change: impl FnOnce(&mut Vec<String>, usize)) -> Vec<u8> {
    let mut lines = lines_of(&base(rng));
    let at = rng.below(lines.len());
    change(&mut lines, at);
    joined(&lines)
}

pub fn lines_swapped(rng: &mut Rng) -> Vec<u8> {
    let other = rng.below(1000);
    edit(rng, |lines, at| {
        let other = other % lines.len();
        lines.swap(at, other);
    })
}

pub fn steps_before_the_table(rng: &mut Rng) -> Vec<u8> {
    let text = base(rng);
    let steps = text.find("do=").expect("there is a step");
    format!("{}{}", &text[steps..], &text[..steps]).into_bytes()
}

/// Another value at some line that has a number.
pub fn value(rng: &mut Rng, change: impl FnOnce(&str) -> String) -> Vec<u8> {
    edit(rng, |lines, at| {
        // The line after a `do` has a number.
        let at = if lines[at].starts_with("do=") {
            at + 1
        } else {
            at
        };
        let (key, old) = lines[at].split_once('=').expect("key and value");
        lines[at] = format!("{key}={}", change(old));
    })
}

pub fn wrong_key(rng: &mut Rng) -> Vec<u8> {
    let wrong = rng.pick(&[
        "",
        "x",
        "Station",
        "stations ",
        "STATION",
        "unit",
        "refused",
        "do ",
        "member",
    ]);
    edit(rng, |lines, at| {
        let (_, value) = lines[at].split_once('=').expect("key and value");
        lines[at] = format!("{wrong}={value}");
    })
}

pub fn wrong_word(rng: &mut Rng) -> Vec<u8> {
    let wrong = rng.pick(&[
        "",
        "Request",
        "releas",
        "releases",
        "ups",
        "u",
        "0",
        "grant",
        "request ",
        "DOWN",
        "withdra",
        "withdrawn",
        "Withdraw",
        "gone",
    ]);
    let text = base(rng);
    let mut lines = lines_of(&text);
    let places: Vec<usize> = (0..lines.len())
        .filter(|&i| lines[i].starts_with("do="))
        .collect();
    lines[rng.pick(&places)] = format!("do={wrong}");
    joined(&lines)
}
