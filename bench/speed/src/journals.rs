//! The program `journal` and the model's page, one process each.

use crate::process::{race, Folder, Program};
use crate::report::{heading, line};
use crate::texts;
use std::io::{Read, Write};

pub const MODE: &str = "model-journal";
pub const ROUNDS: usize = 100;

/// Standard input to standard output, by the model.
pub fn by_model() {
    let mut input = Vec::new();
    let read = std::io::stdin().read_to_end(&mut input);
    read.expect("standard input is read");
    let page = model::page::page(&input);
    let written = std::io::stdout().write_all(page.as_bytes());
    written.expect("standard output takes the page");
}

/// The times of the program and of another, in nanoseconds, and the page.
fn times(other: &mut Program, folder: &Folder, name: &str, text: &str) -> (f64, f64, String) {
    let input = folder.write(name, text.as_bytes());
    let mut verified = Program::verified("journal", folder);
    race(&mut verified, other, &input, ROUNDS);
    let page = String::from_utf8(verified.output()).expect("a page is text");
    (verified.best.nanoseconds, other.best.nanoseconds, page)
}

/// How many lines of the page have that key and not 0.
fn count(page: &str, key: &str) -> usize {
    let not_zero = |line: &&str| line.starts_with(key) && !line.ends_with("=0");
    page.lines().filter(not_zero).count()
}

/// Every journal against another program, which is made anew for each.
fn compare_with(other: &str, make: impl Fn() -> Program, folder: &Folder) {
    let journals = [
        ("P2 in turns", texts::turns()),
        ("12 stations, contention", texts::contention()),
        ("12 stations, all refused", texts::refusals()),
        ("no stations, steps only read", texts::only_read()),
    ];
    let (empty, other_empty, _) = times(&mut make(), folder, "empty", "");
    heading("journal, a process", other);
    line("empty input", empty, other_empty);
    for (name, text) in &journals {
        let (verified, other, page) = times(&mut make(), folder, "journal", text);
        println!(
            "{name}: bytes={} steps={} entered={} refused={}",
            text.len(),
            count(&page, "do="),
            count(&page, "entered="),
            count(&page, "refused=")
        );
        line("  whole", verified, other);
        line(
            "  less the empty input",
            verified - empty,
            other - other_empty,
        );
    }
}

pub fn compare(folder: &Folder) {
    compare_with("model", || Program::model(MODE, folder), folder);
    if Program::earlier("journal", folder).is_some() {
        let earlier = || Program::earlier("journal", folder).expect("an earlier checkout");
        compare_with("earlier", earlier, folder);
    }
}
