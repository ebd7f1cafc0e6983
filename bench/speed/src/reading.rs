//! Reading alone: the records of a year, one after the other, by the static library, by plain readers of two passes and of
//! one, and by the model.

use crate::clock::Best;
use crate::plain_reader;
use crate::report::{heading, rate};
use crate::year;
use model::text::Noted;
use pafluzeno::{Record, Refusal};

pub const ROUNDS: usize = 15;
/// The model takes several times as long, so it has fewer rounds.
pub const MODEL_EVERY: usize = 3;

/// What the records of a text add up to.
#[derive(PartialEq, Eq, Debug, Default)]
struct Sums {
    records: usize,
    entered: u64,
    left: u64,
}

type Reader = fn(&[u8]) -> Result<(Record, &[u8]), Refusal>;

/// The record that the text begins with and the text after it, by the model.
fn by_model(text: &[u8]) -> Result<(Record, &[u8]), Refusal> {
    let (noted, rest) = Noted::read(text).ok_or(Refusal::BadForm)?;
    let number = |x: usize| x as u16;
    let record = Record {
        what: number(noted.step.what as usize),
        station: number(noted.step.station),
        with: number(noted.step.with),
        units: number(noted.step.units),
        refused: number(noted.refused),
        entered: number(noted.entered),
        left: number(noted.left),
    };
    Ok((record, rest))
}

/// All records of a text, each in the part that the one before handed on.
fn read_all(mut text: &[u8], reader: Reader) -> Result<Sums, Refusal> {
    let mut sums = Sums::default();
    while !text.is_empty() {
        let (record, rest) = reader(text)?;
        sums.records += 1;
        sums.entered += u64::from(record.entered);
        sums.left += u64::from(record.left);
        text = rest;
    }
    Ok(sums)
}

/// The library's own loop over the same text.
fn tally(text: &[u8]) -> Result<Sums, Refusal> {
    let small = |sum: u128| u64::try_from(sum).expect("a year's sum");
    let tally = pafluzeno::tally(text)?;
    Ok(Sums {
        records: tally.records,
        entered: small(tally.entered),
        left: small(tally.left),
    })
}

/// The readers that the verified one is held against.
const OTHERS: [(&str, Reader); 3] = [
    ("two passes", plain_reader::in_two_passes),
    ("one pass", plain_reader::in_one_pass),
    ("model", by_model),
];

/// All answer alike: the record, and where the text after it lies.
fn assert_same(text: &[u8]) {
    let verified = pafluzeno::read_record(text);
    let place = |read: Result<(Record, &[u8]), Refusal>| read.map(|(_, rest)| rest.as_ptr());
    for (name, reader) in OTHERS {
        let other = reader(text);
        assert_eq!(verified, other, "{name}: {}", text.escape_ascii());
        assert_eq!(place(verified), place(other), "{name}");
    }
}

/// The text from each of its records on.
fn starts(mut text: &[u8]) -> Vec<&[u8]> {
    let mut starts = Vec::new();
    while !text.is_empty() {
        starts.push(text);
        text = pafluzeno::after_record(text);
    }
    starts
}

pub fn compare() {
    starts(year::of_pages(3).as_bytes())
        .into_iter()
        .for_each(assert_same);
    let year = year::of_pages(year::PAGES);
    let text = year.as_bytes();
    let sums = tally(text).expect("a text that is records");
    let timed = |best: &mut Best, reader: Reader| {
        best.call(|| assert_eq!(read_all(text, reader).as_ref(), Ok(&sums)));
    };
    let (mut verified, mut tallied) = (Best::new(), Best::new());
    let mut others = OTHERS.map(|(name, reader)| (name, reader, Best::new()));
    for round in 0..ROUNDS {
        timed(&mut verified, pafluzeno::read_record);
        tallied.call(|| assert_eq!(tally(text).as_ref(), Ok(&sums)));
        for (name, reader, best) in &mut others {
            if *name != "model" || round % MODEL_EVERY == 0 {
                timed(best, *reader);
            }
        }
    }
    println!(
        "\nreading alone, {} pages: bytes={} records={}",
        year::PAGES,
        text.len(),
        sums.records
    );
    for (name, _, other) in others {
        heading("million bytes a second", name);
        rate("record by record", text.len(), &verified, &other);
        rate("added up in one call", text.len(), &tallied, &other);
    }
}

#[cfg(test)]
mod tests {
    use super::*;
    use model::rng::Rng;

    const DAMAGED: usize = 100_000;

    /// The front of a text with a byte changed, put in or taken out, or cut there.
    fn damaged(rng: &mut Rng, text: &[u8]) -> Vec<u8> {
        let mut text = text[..text.len().min(200)].to_vec();
        let at = rng.below(80);
        let any = rng.byte();
        let byte = rng.pick(&[any, b'0', b'5', b'9', b'=', b'\n', b',']);
        match rng.below(4) {
            0 => text[at] = byte,
            1 => text.insert(at, byte),
            2 => drop(text.remove(at)),
            _ => text.truncate(at),
        }
        text
    }

    #[test]
    fn all_readers_agree() {
        let year = year::of_pages(3);
        let mut starts = starts(year.as_bytes());
        starts.iter().for_each(|text| assert_same(text));
        // Each of the others has 80 bytes and more.
        starts.truncate(starts.len() - 2);
        let mut rng = Rng::new(2);
        let mut bad = 0;
        for _ in 0..DAMAGED {
            let start = rng.pick(&starts);
            let text = damaged(&mut rng, start);
            assert_same(&text);
            bad += usize::from(pafluzeno::read_record(&text).is_err());
        }
        let good = DAMAGED - bad;
        assert!(good.min(bad) >= DAMAGED / 10, "{good} good, {bad} bad");
    }
}
