//! A call of the machine: the program `pace` and the same calls on the model, one process each.

use crate::process::{race, Folder, Program};
use crate::report::{heading, line};
use model::machine::record::Record;
use model::machine::{down, open, release, request, up, Answer};
use model::table::{MOST_STATIONS, SCRATCH};

pub const MODE: &str = "model-pace";
pub const ROUNDS: usize = 9;
const TURNS: usize = 5000;

struct Tally {
    calls: usize,
    entered: usize,
    left: usize,
    refused: usize,
    record: Record,
}

impl Tally {
    fn count(&mut self, answer: Answer) {
        self.calls += 1;
        self.entered += answer.entered;
        self.left += answer.left;
        self.refused += usize::from(answer.refusal != 0);
        self.record = answer.record;
    }

    /// Station s collects from all arbiters, holds, and gives back.
    fn turn(&mut self, s: usize) {
        self.count(request(&self.record, s, 0, 1));
        for j in 0..MOST_STATIONS {
            self.count(up(&self.record, s, j));
            self.count(down(&self.record, s, j));
        }
        self.count(release(&self.record, s));
        for j in 0..MOST_STATIONS {
            self.count(up(&self.record, s, j));
        }
    }
}

/// What `pace` prints.
pub fn by_model() -> String {
    let mut tally = Tally {
        calls: 0,
        entered: 0,
        left: 0,
        refused: 0,
        record: open(12, 200, &[4095], SCRATCH).1,
    };
    for i in 0..TURNS {
        tally.turn(i % MOST_STATIONS);
    }
    format!(
        "calls={} entered={} left={} refused={}\n",
        tally.calls, tally.entered, tally.left, tally.refused
    )
}

fn calls_in(output: &[u8]) -> f64 {
    let text = std::str::from_utf8(output).expect("the tally");
    let calls = text
        .strip_prefix("calls=")
        .and_then(|t| t.split(' ').next());
    calls
        .and_then(|c| c.parse().ok())
        .expect("the number of calls")
}

pub fn compare(folder: &Folder) {
    let input = folder.write("nothing", b"");
    let mut verified = Program::verified("pace", folder);
    let mut model = Program::model(MODE, folder);
    race(&mut verified, &mut model, &input, ROUNDS);
    let calls = calls_in(&verified.output());
    heading("the machine, 12 stations", "model");
    line(
        &format!("a call, of {calls} in a process"),
        verified.best.nanoseconds / calls,
        model.best.nanoseconds / calls,
    );
}
