//! One call of the library and the same of the model: refusal, set and record, of a refused call too.

use model::arbiter::{lent_by_number, mask, sent, Arbiter, Entry, Lent, Sent};
use pafluzeno::header;
use std::collections::BTreeMap;

/// What reaches an arbiter, as C has it: the message may be none, and only a REQUEST has units that mean something.
#[derive(Clone, Copy, Debug)]
pub struct Arrival {
    pub stock: usize,
    pub station: usize,
    pub message: u8,
    pub units: usize,
}

/// The library's record in the model's words. What stands beyond the line's length does not belong to it; a length above
/// 12 is a line that is too long here.
fn read(record: &pafluzeno::Arbiter) -> Arbiter {
    let places = record.line.iter().map(|e| Entry {
        station: e.station.into(),
        units: e.units.into(),
    });
    let beyond = std::iter::repeat(Entry {
        station: 0,
        units: 1,
    });
    Arbiter {
        granted: record.granted.iter().map(|&units| units.into()).collect(),
        line: places.chain(beyond).take(record.len.into()).collect(),
    }
}

/// What the calls met.
#[derive(Default, Debug)]
pub struct Met {
    refusals: BTreeMap<usize, usize>,
    /// Calls that granted to one station, and to more.
    pub granted_one: usize,
    pub granted_more: usize,
    /// Requests that had to wait.
    pub waited: usize,
    /// Withdrawals of a station that waited once, more than once, or was granted; and those by which others were.
    pub left_line: usize,
    pub left_line_more: usize,
    pub gave_back: usize,
    pub served_others: usize,
}

impl Met {
    fn note(&mut self, before: &Arbiter, arrival: Arrival, answer: &Lent) {
        *self.refusals.entry(answer.refusal).or_insert(0) += 1;
        let granted = answer.granted.iter().filter(|&&g| g).count();
        match granted {
            0 => {}
            1 => self.granted_one += 1,
            _ => self.granted_more += 1,
        }
        self.waited += usize::from(answer.after.line.len() > before.line.len());
        if answer.refusal == 0 && arrival.message == header::WITHDRAW {
            let s = arrival.station;
            let waiting = before.line.iter().filter(|e| e.station == s).count();
            self.left_line += usize::from(waiting == 1);
            self.left_line_more += usize::from(waiting > 1);
            self.gave_back += usize::from(before.granted[s] > 0);
            self.served_others += usize::from(granted > 0);
        }
    }

    /// These refusals were given, each so often at least, and no other.
    pub fn assert_seen(&self, refusals: &[usize], at_least: usize) {
        let keys: Vec<usize> = self.refusals.keys().copied().collect();
        assert_eq!(keys, refusals, "{self:?}");
        assert!(
            self.refusals.values().all(|&seen| seen >= at_least),
            "{self:?}"
        );
    }
}

/// Refusal and granted stations, of a refused call too, and the record afterwards.
fn whole_answer(record: &pafluzeno::Arbiter, arrival: Arrival) -> (usize, u16, pafluzeno::Arbiter) {
    let message = header::Arrival {
        stock: arrival.stock,
        station: arrival.station,
        message: arrival.message,
        units: arrival.units,
    };
    let mut after = *record;
    let reply = header::tell(&mut after, message);
    (reply.refusal.into(), reply.granted, after)
}

/// The wrapper's call of that message. It has none for a number that stands for no message: the header's is told then.
fn by_wrapper(record: &mut pafluzeno::Arbiter, arrival: Arrival) -> (usize, u16) {
    let Arrival { stock, station, .. } = arrival;
    let answer = match sent(arrival.message, arrival.units) {
        Some(Sent::Request(units)) => pafluzeno::request(record, stock, station, units),
        Some(Sent::Release) => pafluzeno::release(record, stock, station),
        Some(Sent::Withdraw) => pafluzeno::withdraw(record, stock, station),
        None => {
            let (refusal, granted, after) = whole_answer(record, arrival);
            *record = after;
            return (refusal, granted);
        }
    };
    match answer {
        Ok(granted) => (0, granted),
        Err(refusal) => (refusal.number().into(), 0),
    }
}

/// One call on the library's record, compared with the model's call on the same content.
pub fn compare(place: &str, record: &mut pafluzeno::Arbiter, arrival: Arrival, met: &mut Met) {
    let before = *record;
    let shown = || format!("{place}: {arrival:?} on {before:?}");
    let theirs = by_wrapper(record, arrival);
    let Arrival {
        stock,
        station,
        message,
        units,
    } = arrival;
    let ours = lent_by_number(&read(&before), stock, station, message, units);
    let answer = (ours.refusal, mask(&ours.granted));
    assert_eq!(theirs, answer, "{}", shown());
    let whole = whole_answer(&before, arrival);
    assert_eq!(whole, (answer.0, answer.1, *record), "{}", shown());
    if ours.refusal == 0 {
        assert_eq!(read(record), ours.after, "{}", shown());
    } else {
        // Every byte, the unused places too.
        assert_eq!(*record, before, "{}", shown());
    }
    met.note(&read(&before), arrival, &ours);
}
