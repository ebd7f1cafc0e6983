//! The journal: its lines and records, read, written and added up, and the page of a text.

use crate::header;
use crate::raw::{Part, Record, Sum};
use crate::refusal::Refusal;

/// The words of `do`.
#[derive(Clone, Copy, PartialEq, Eq, Debug)]
#[repr(u16)]
pub enum Do {
    Request = 0,
    Up = 1,
    Down = 2,
    Release = 3,
    Withdraw = 4,
}

impl Do {
    /// As a record has it.
    pub fn number(self) -> u16 {
        self as u16
    }
}

impl Record {
    /// The word of its `what`. Every record that was read has one, and none is written without.
    pub fn word(&self) -> Option<Do> {
        let words = [Do::Request, Do::Up, Do::Down, Do::Release, Do::Withdraw];
        words.into_iter().find(|word| word.number() == self.what)
    }
}

/// What a text's records add up to.
#[derive(Clone, Copy, PartialEq, Eq, Debug)]
pub struct Tally {
    pub records: usize,
    pub entered: u128,
    pub left: u128,
}

fn answer<T>(refusal: u8, good: T) -> Result<T, Refusal> {
    Refusal::from_number(refusal).map_or(Ok(good), Err)
}

fn part(text: &[u8], part: Part) -> &[u8] {
    &text[part.place..][..part.len]
}

fn sum(sum: Sum) -> u128 {
    u128::from(sum.high) << 64 | u128::from(sum.low)
}

/// The value of the line of that key that the text begins with, as that part of the text. For `do` it is one of its words, for every other key a
/// number of 0 to 65535 without leading zeros. Anything else is 15, and so is a key that holds `=` or a line feed.
pub fn read_line<'a>(key: &[u8], text: &'a [u8]) -> Result<&'a [u8], Refusal> {
    let value = header::read_line(key, text);
    // No value is empty: the empty part is the refusal.
    if value.len == 0 {
        return Err(Refusal::BadForm);
    }
    Ok(part(text, value))
}

/// The record that the text begins with, and the text after it.
pub fn read_record(text: &[u8]) -> Result<(Record, &[u8]), Refusal> {
    let read = header::read_record(text);
    answer(read.refusal, read.record).map(|record| (record, &text[read.taken..]))
}

/// The text after the record that it begins with; where there is none, the empty part at its end.
pub fn after_record(text: &[u8]) -> &[u8] {
    part(text, header::after_record(text))
}

/// Writes the record from that place on and answers the place after it. A refusal leaves the buffer as it was: 15 where the record is not of the
/// form, 16 where it finds no room.
pub fn write_record(out: &mut [u8], at: usize, record: Record) -> Result<usize, Refusal> {
    let written = header::write_record(out, at, record);
    answer(written.refusal, written.place)
}

/// Adds up a text that is records and nothing else, to its last byte. The empty text is no records.
pub fn tally(text: &[u8]) -> Result<Tally, Refusal> {
    let tallied = header::tally(text);
    let tally = Tally {
        records: tallied.records,
        entered: sum(tallied.entered),
        left: sum(tallied.left),
    };
    answer(tallied.refusal, tally)
}

/// Writes the page that the program `journal` prints for that text into the front of the buffer and answers its bytes. A buffer below `PAGE_ROOM`
/// is 16 and stays as it was. A bad text is no refusal: its page is `input=15` and a line feed.
pub fn page(text: &[u8], out: &mut [u8]) -> Result<usize, Refusal> {
    let printed = header::page(text, out);
    answer(printed.refusal, printed.len)
}
