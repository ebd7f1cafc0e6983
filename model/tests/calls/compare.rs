//! One call of the library and the same of the model: every field of the answer, of a refused one too, and every byte of
//! a lent buffer. The functions of the wrapper are held to the same.

use model::calls::{self, Numbers, Part, Tally};
use pafluzeno::header;
use std::collections::BTreeMap;

/// How often each refusal was given.
#[derive(Default, Debug)]
pub struct Met {
    refusals: BTreeMap<usize, usize>,
}

impl Met {
    fn note(&mut self, refusal: usize) {
        *self.refusals.entry(refusal).or_insert(0) += 1;
    }

    fn seen(&self, refusal: usize) -> usize {
        self.refusals.get(&refusal).copied().unwrap_or(0)
    }

    /// These refusals were given, each so often at least, and no other; and there were so many comparisons.
    pub fn assert(&self, compared: usize, refusals: &[(usize, usize)]) {
        let known: Vec<usize> = refusals.iter().map(|r| r.0).collect();
        assert!(self.refusals.keys().eq(&known), "{self:?}");
        assert!(refusals.iter().all(|r| self.seen(r.0) >= r.1), "{self:?}");
        assert!(
            self.refusals.values().sum::<usize>() >= compared,
            "{self:?}"
        );
    }
}

/// The bytes of a case, cut where they are many.
fn shown(text: &[u8]) -> String {
    let head = &text[..text.len().min(3000)];
    format!("{} bytes: {}", text.len(), head.escape_ascii())
}

/// In the model's words.
fn part(part: header::Part) -> Part {
    Part {
        place: part.place,
        len: part.len,
    }
}

fn numbers(r: pafluzeno::Record) -> Numbers {
    let all = [
        r.what, r.station, r.with, r.units, r.refused, r.entered, r.left,
    ];
    all.map(usize::from)
}

fn record_of(numbers: Numbers) -> pafluzeno::Record {
    let [what, station, with, units, refused, entered, left] = numbers.map(|x| x as u16);
    pafluzeno::Record {
        what,
        station,
        with,
        units,
        refused,
        entered,
        left,
    }
}

/// That slice is that part of the text, and not only equal to it.
fn assert_is(slice: &[u8], text: &[u8], part: Part, case: &dyn Fn() -> String) {
    let wanted = &text[part.place..part.place + part.len];
    assert_eq!(slice.as_ptr(), wanted.as_ptr(), "{}", case());
    assert_eq!(slice.len(), wanted.len(), "{}", case());
}

/// The line reader.
pub fn line(key: &[u8], text: &[u8], met: &mut Met) {
    let case = || format!("key {}, text of {}", key.escape_ascii(), shown(text));
    let ours = calls::read_line(key, text);
    assert_eq!(part(header::read_line(key, text)), ours, "{}", case());
    let refusal = match pafluzeno::read_line(key, text) {
        Ok(value) => {
            assert_is(value, text, ours, &case);
            0
        }
        Err(refusal) => refusal.number().into(),
    };
    let expected = if ours.len == 0 { 15 } else { 0 };
    assert_eq!(refusal, expected, "{}", case());
    met.note(expected);
}

/// The reader of a record and the text after it; what was read is written back, byte for byte. Answers the refusal.
pub fn record(text: &[u8], met: &mut Met) -> usize {
    let case = || format!("text of {}", shown(text));
    let (refusal, ours, taken) = calls::read_record(text);
    let after = calls::after_record(text);
    let read = header::read_record(text);
    let theirs = (read.refusal.into(), numbers(read.record), read.taken);
    assert_eq!(theirs, (refusal, ours, taken), "{}", case());
    assert_eq!(part(header::after_record(text)), after, "{}", case());
    assert_is(pafluzeno::after_record(text), text, after, &case);
    match pafluzeno::read_record(text) {
        Ok((record, rest)) => {
            assert_eq!((0, numbers(record)), (refusal, ours), "{}", case());
            assert_is(rest, text, after, &case);
            // The last byte is not lent.
            let mut back = vec![7; taken + 1];
            let written = pafluzeno::write_record(&mut back[..taken], 0, record);
            assert_eq!(written, Ok(taken), "{}", case());
            assert_eq!(back, [&text[..taken], &[7]].concat(), "{}", case());
        }
        Err(theirs) => assert_eq!(usize::from(theirs.number()), refusal, "{}", case()),
    }
    met.note(refusal);
    refusal
}

/// The writer of a record is lent the first `len` bytes; those behind stay as well. What was written is read again.
pub fn write(before: &[u8], len: usize, at: usize, record: Numbers, met: &mut Met) {
    let case = || format!("{record:?} at {at} of {len} in {}", shown(before));
    let mut ours = before.to_vec();
    let (refusal, place) = calls::write_record(&mut ours[..len], at, record);
    let mut buffer = before.to_vec();
    let written = header::write_record(&mut buffer[..len], at, record_of(record));
    let theirs = (written.refusal.into(), written.place);
    assert_eq!(theirs, (refusal, place), "{}", case());
    assert_eq!(buffer, ours, "{}", case());
    if refusal == 0 {
        let read = header::read_record(&buffer[at..len]);
        let again = (read.refusal, numbers(read.record), read.taken);
        assert_eq!(again, (0, record, place - at), "{}", case());
    }
    buffer.copy_from_slice(before);
    match pafluzeno::write_record(&mut buffer[..len], at, record_of(record)) {
        Ok(theirs) => assert_eq!((0, theirs), (refusal, place), "{}", case()),
        Err(theirs) => assert_eq!(usize::from(theirs.number()), refusal, "{}", case()),
    }
    assert_eq!(buffer, ours, "{}", case());
    met.note(refusal);
}

fn wide(sum: header::Sum) -> u128 {
    u128::from(sum.low) + u128::from(sum.high) * 2u128.pow(64)
}

/// Adding up. Answers the sums.
pub fn tally(text: &[u8], met: &mut Met) -> Tally {
    let case = || format!("text of {}", shown(text));
    let ours = calls::tally(text);
    let t = header::tally(text);
    let theirs = Tally {
        refusal: t.refusal.into(),
        records: t.records,
        entered: wide(t.entered),
        left: wide(t.left),
    };
    assert_eq!(theirs, ours, "{}", case());
    match pafluzeno::tally(text) {
        Ok(t) => {
            let theirs = (0, t.records, t.entered, t.left);
            let ours = (ours.refusal, ours.records, ours.entered, ours.left);
            assert_eq!(theirs, ours, "{}", case());
        }
        Err(theirs) => assert_eq!(usize::from(theirs.number()), ours.refusal, "{}", case()),
    }
    met.note(ours.refusal);
    ours
}

/// The page is lent the first `len` bytes of the buffer; those behind stay as well. Answers the page.
pub fn page(text: &[u8], before: &[u8], len: usize, met: &mut Met) -> Vec<u8> {
    let case = || format!("a buffer of {len}, text of {}", shown(text));
    let mut ours = before.to_vec();
    let (refusal, bytes) = calls::page(text, &mut ours[..len]);
    let mut theirs = before.to_vec();
    let printed = header::page(text, &mut theirs[..len]);
    assert_eq!(
        (printed.refusal.into(), printed.len),
        (refusal, bytes),
        "{}",
        case()
    );
    // Too long to be shown.
    let first = theirs.iter().zip(&ours).position(|(a, b)| a != b);
    assert_eq!(first, None, "the byte at this place, {}", case());
    match pafluzeno::page(text, &mut theirs[..len]) {
        Ok(theirs) => assert_eq!((0, theirs), (refusal, bytes), "{}", case()),
        Err(theirs) => assert_eq!(usize::from(theirs.number()), refusal, "{}", case()),
    }
    met.note(refusal);
    ours.truncate(bytes);
    ours
}
