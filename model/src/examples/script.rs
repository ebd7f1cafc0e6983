//! An example is a text: its name, a colon, and the machine's calls, one space before each.

use crate::machine::record::Record;
use crate::machine::{down, release, request, up, withdraw, Answer};

/// The call that the text names, such as `request(0,0,1)`.
pub fn call(record: &Record, text: &str) -> Answer {
    let (name, numbers) = text
        .strip_suffix(')')
        .and_then(|t| t.split_once('('))
        .expect("a call has brackets");
    let numbers: Vec<usize> = numbers
        .split(',')
        .map(|t| t.parse().expect("a number"))
        .collect();
    match (name, numbers.as_slice()) {
        ("request", &[s, quorum, h]) => request(record, s, quorum, h),
        ("up", &[s, j]) => up(record, s, j),
        ("down", &[s, j]) => down(record, s, j),
        ("release", &[s]) => release(record, s),
        ("withdraw", &[s]) => withdraw(record, s),
        _ => panic!("no call: {text}"),
    }
}

/// What was printed so far.
#[derive(Default)]
pub struct Out {
    pub text: String,
}

impl Out {
    /// One call: its line, and the record after it.
    pub fn call(&mut self, name: &str, record: &Record, text: &str) -> Record {
        let answer = call(record, text);
        self.text += &format!("{name} {text} {}\n", answer.numbers());
        answer.record
    }

    /// A whole example, each call on the record that the one before handed back.
    pub fn play(&mut self, start: &Record, example: &str) -> Record {
        let (name, calls) = example.split_once(": ").expect("an example has a name");
        calls
            .split(' ')
            .fold(start.clone(), |record, text| self.call(name, &record, text))
    }
}
