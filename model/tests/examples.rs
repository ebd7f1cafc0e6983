//! What the programs `cases`, `runs`, `withdrawals` and `answers` are recorded to print is what the model prints.

use model::examples::{cases, runs, withdrawals};
use model::page::answers;
use std::fs;
use std::path::Path;

fn read(place: &str) -> String {
    let path = Path::new(env!("CARGO_MANIFEST_DIR")).join(place);
    fs::read_to_string(path).unwrap_or_else(|e| panic!("{place}: {e}"))
}

fn compare(program: &str, by_model: &str) {
    let place = format!("../crates/{program}/stdout");
    let recorded = read(&place);
    for (i, (theirs, ours)) in recorded.lines().zip(by_model.lines()).enumerate() {
        assert_eq!(theirs, ours, "{place}, line {}", i + 1);
    }
    assert!(
        recorded == by_model,
        "{place} is longer or shorter than the model's output"
    );
}

#[test]
fn cases_as_recorded() {
    compare("cases", &cases::output());
}

#[test]
fn runs_as_recorded() {
    compare("runs", &runs::output());
}

#[test]
fn withdrawals_as_recorded() {
    compare("withdrawals", &withdrawals::output());
}

#[test]
fn answers_as_recorded() {
    compare(
        "answers",
        &answers(read("../crates/answers/stdin").as_bytes()),
    );
}
