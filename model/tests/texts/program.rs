//! The real programs, run on a text and compared with what the model prints for it.

use model::page::{answers, page};
use std::fs::File;
use std::io::Write;
use std::path::PathBuf;
use std::process::{Command, Output, Stdio};
use std::time::Duration;

const JOURNAL: &str = "journal";

/// `PAFLUZENO_JOURNAL` or `PAFLUZENO_ANSWERS`, else the place where the build leaves the program.
fn path(program: &str) -> PathBuf {
    let path = match std::env::var_os(format!("PAFLUZENO_{}", program.to_uppercase())) {
        Some(path) => PathBuf::from(path),
        None => PathBuf::from(env!("CARGO_MANIFEST_DIR"))
            .join(format!("../crates/{program}/out/{program}")),
    };
    assert!(path.is_file(), "the program {program} is not at {path:?}");
    path
}

/// The text through a pipe, in pieces of so many bytes.
fn run(program: &str, text: &[u8], piece: usize) -> Output {
    let mut child = Command::new(path(program))
        .stdin(Stdio::piped())
        .stdout(Stdio::piped())
        .stderr(Stdio::piped())
        .spawn()
        .expect("the program starts");
    let mut input = child.stdin.take().expect("a pipe");
    std::thread::scope(|scope| {
        scope.spawn(move || {
            for (i, part) in text.chunks(piece).enumerate() {
                if i > 0 {
                    std::thread::sleep(Duration::from_millis(1));
                }
                // The program need not read what is too long to the end.
                let _ = input.write_all(part);
            }
        });
        child.wait_with_output().expect("the program ends")
    })
}

/// Standard input that cannot be read: a directory.
pub fn run_unreadable() -> Output {
    let directory = File::open(env!("CARGO_MANIFEST_DIR")).expect("a directory");
    Command::new(path(JOURNAL))
        .stdin(directory)
        .output()
        .expect("the program journal starts")
}

/// The text of a case, cut where it is long, and the place of the whole.
fn shown(kind: &str, number: u64, text: &[u8]) -> String {
    let name = format!("{}-{number}.txt", kind.replace(' ', "-"));
    let place = PathBuf::from(env!("CARGO_TARGET_TMPDIR")).join(name);
    let kept = std::fs::write(&place, text).is_ok();
    let head = &text[..text.len().min(3000)];
    let whole = if kept {
        format!("{place:?}")
    } else {
        String::from("not kept")
    };
    format!(
        "{kind}, number {number}, {} bytes (whole text: {whole}):\n{}",
        text.len(),
        head.escape_ascii()
    )
}

/// The whole of standard output byte for byte, and exit status 0. Answers the page.
pub fn compare(kind: &str, number: u64, text: &[u8]) -> String {
    compare_in_pieces(kind, number, text, text.len().max(1))
}

pub fn compare_in_pieces(kind: &str, number: u64, text: &[u8], piece: usize) -> String {
    same(kind, number, text, run(JOURNAL, text, piece), page(text))
}

/// The same of the program that prints all numbers of the answers.
pub fn compare_answers(kind: &str, number: u64, text: &[u8]) -> String {
    let output = run("answers", text, text.len().max(1));
    same(kind, number, text, output, answers(text))
}

fn same(kind: &str, number: u64, text: &[u8], output: Output, expected: String) -> String {
    let by_line = output
        .stdout
        .split(|&b| b == b'\n')
        .zip(expected.as_bytes().split(|&b| b == b'\n'));
    for (i, (theirs, ours)) in by_line.enumerate() {
        assert!(
            theirs == ours,
            "line {} is {} and by the model {}\n{}",
            i + 1,
            theirs.escape_ascii(),
            ours.escape_ascii(),
            shown(kind, number, text)
        );
    }
    assert!(
        output.stdout == expected.as_bytes(),
        "another length\n{}",
        shown(kind, number, text)
    );
    assert!(
        output.status.code() == Some(0),
        "{:?}\n{}",
        output.status,
        shown(kind, number, text)
    );
    expected
}
