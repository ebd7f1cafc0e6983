//! Programs run as processes and timed from outside.

use crate::clock::Best;
use std::fs::{self, File};
use std::path::{Path, PathBuf};
use std::process::Command;
use std::time::Instant;

/// A folder for the inputs and outputs, gone at the end.
pub struct Folder(PathBuf);

impl Folder {
    pub fn new() -> Folder {
        let path = std::env::temp_dir().join(format!("speed-{}", std::process::id()));
        fs::create_dir_all(&path).expect("a folder for the inputs");
        Folder(path)
    }

    /// A file of that content.
    pub fn write(&self, name: &str, content: &[u8]) -> PathBuf {
        let path = self.0.join(name);
        fs::write(&path, content).expect("an input is written");
        path
    }
}

impl Drop for Folder {
    fn drop(&mut self) {
        let _ = fs::remove_dir_all(&self.0);
    }
}

/// A program, its argument if it has one, the file that takes its output, and its times.
pub struct Program {
    path: PathBuf,
    argument: Option<&'static str>,
    output: PathBuf,
    pub best: Best,
}

/// Where a checkout has a program that is built.
fn built(checkout: &Path, name: &str) -> PathBuf {
    checkout.join("crates").join(name).join("out").join(name)
}

impl Program {
    /// The verified program, as it stands below the folder in which this benchmark is run.
    pub fn verified(name: &str, folder: &Folder) -> Program {
        Program {
            path: built(Path::new(""), name),
            argument: None,
            output: folder.0.join("verified"),
            best: Best::new(),
        }
    }

    /// The verified program of an earlier checkout, where there is one.
    pub fn earlier(name: &str, folder: &Folder) -> Option<Program> {
        let checkout = std::env::var_os("PAFLUZENO_EARLIER")?;
        Some(Program {
            path: built(Path::new(&checkout), name),
            argument: None,
            output: folder.0.join("earlier"),
            best: Best::new(),
        })
    }

    /// The model's part of it: a mode of this very program.
    pub fn model(mode: &'static str, folder: &Folder) -> Program {
        Program {
            path: std::env::current_exe().expect("the path of this program"),
            argument: Some(mode),
            output: folder.0.join("model"),
            best: Best::new(),
        }
    }

    pub fn run(&mut self, input: &Path) {
        let mut command = Command::new(&self.path);
        command.args(self.argument);
        command.stdin(File::open(input).expect("the input"));
        command.stdout(File::create(&self.output).expect("the output"));
        let start = Instant::now();
        let status = command.status();
        let taken = start.elapsed();
        assert!(status.is_ok_and(|s| s.success()), "{:?}", self.path);
        self.best.note(taken, 1);
    }

    /// What the last run wrote.
    pub fn output(&self) -> Vec<u8> {
        fs::read(&self.output).expect("the output of the last run")
    }
}

/// Both on the same input in turns. The outputs are the same.
pub fn race(verified: &mut Program, other: &mut Program, input: &Path, rounds: usize) {
    for _ in 0..rounds {
        verified.run(input);
        other.run(input);
        assert!(verified.output() == other.output(), "{input:?}");
    }
}
