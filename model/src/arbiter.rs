//! One arbiter: its part of Up, and the lent arbiter call.

use crate::table::{MOST_STATIONS, MOST_STOCK};

/// "a line has at most 12 entries", for every n.
pub const MOST_WAITING: usize = 12;

#[derive(Clone, Copy, PartialEq, Eq, Debug)]
pub struct Entry {
    pub station: usize,
    pub units: usize,
}

/// The units granted to each station (0 if none) and the line, oldest first. There are always twelve places of granted
/// units, of which the first n count.
#[derive(Clone, PartialEq, Eq, Debug)]
pub struct Arbiter {
    pub granted: Vec<usize>,
    pub line: Vec<Entry>,
}

/// What a station sends to an arbiter.
#[derive(Clone, Copy, PartialEq, Eq, Debug)]
pub enum Sent {
    Request(usize),
    Release,
    Withdraw,
}

impl Arbiter {
    pub fn empty() -> Arbiter {
        Arbiter {
            granted: vec![0; MOST_STATIONS],
            line: Vec::new(),
        }
    }

    /// "granted units are 0 to k, all other units 1 to k, [...] a line has at most 12 entries".
    pub fn in_range(&self, n: usize, k: usize) -> bool {
        let entry_fits = |e: &Entry| e.station < n && 1 <= e.units && e.units <= k;
        self.granted[..n].iter().all(|&units| units <= k)
            && self.line.len() <= MOST_WAITING
            && self.line.iter().all(entry_fits)
    }

    /// "its units plus all units granted at j are at most k"; the station's own old grant counts too.
    pub fn fits(&self, n: usize, k: usize, entry: Entry) -> bool {
        entry.units + self.granted[..n].iter().sum::<usize>() <= k
    }

    /// "REQUEST(h) joins the end of j's line. RELEASE sets s's granted units at j to 0. Then, while the line's first entry
    /// fits [...], it leaves the line, its units become that station's granted units". And: "On WITHDRAW the arbiter drops
    /// every line entry of that station and its grant". Answers the stations granted, in order, or 14 where the line would
    /// pass its limit, if only for a moment.
    pub fn take(
        &mut self,
        n: usize,
        k: usize,
        station: usize,
        sent: Sent,
    ) -> Result<Vec<usize>, usize> {
        match sent {
            Sent::Request(units) => self.line.push(Entry { station, units }),
            Sent::Release => self.granted[station] = 0,
            Sent::Withdraw => {
                self.line.retain(|entry| entry.station != station);
                self.granted[station] = 0;
            }
        }
        if self.line.len() > MOST_WAITING {
            return Err(14);
        }
        let mut served = Vec::new();
        while let Some(&first) = self.line.first() {
            if !self.fits(n, k, first) {
                break;
            }
            self.line.remove(0);
            self.granted[first.station] = first.units;
            served.push(first.station);
        }
        Ok(served)
    }
}

/// The answer of the lent call: the refusal, the set of stations granted, and the record that stands afterwards.
#[derive(Clone, PartialEq, Eq, Debug)]
pub struct Lent {
    pub refusal: usize,
    pub granted: Vec<bool>,
    pub after: Arbiter,
}

/// The set as a mask.
pub fn mask(set: &[bool]) -> u16 {
    set.iter()
        .rev()
        .fold(0, |number, &is_in| 2 * number + u16::from(is_in))
}

/// "Its refusals, in order, are 2, 19 (the same limits with n = 12), 8 (station above 11), 10 (REQUEST only), 14 (REQUEST
/// with 12 entries in line); each answers the empty set and changes nothing." WITHDRAW can meet the first three only.
fn granted_by(
    arbiter: &mut Arbiter,
    k: usize,
    station: usize,
    sent: Sent,
) -> Result<Vec<usize>, usize> {
    if !(1..=MOST_STOCK).contains(&k) {
        return Err(2);
    }
    if !arbiter.in_range(MOST_STATIONS, k) {
        return Err(19);
    }
    if station >= MOST_STATIONS {
        return Err(8);
    }
    if let Sent::Request(units) = sent {
        if units < 1 || units > k {
            return Err(10);
        }
    }
    arbiter.take(MOST_STATIONS, k, station, sent)
}

/// "That call applies the arbiter's part of Up and answers with the set of stations granted." GONE is in no such set: it
/// "always goes to the sender".
pub fn lent(before: &Arbiter, k: usize, station: usize, sent: Sent) -> Lent {
    let mut after = before.clone();
    let mut granted = vec![false; MOST_STATIONS];
    match granted_by(&mut after, k, station, sent) {
        Ok(served) => {
            for s in served {
                granted[s] = true;
            }
            Lent {
                refusal: 0,
                granted,
                after,
            }
        }
        Err(refusal) => Lent {
            refusal,
            granted,
            after: before.clone(),
        },
    }
}

/// From C a message is a number, and its units mean something in a REQUEST only. Nothing where the number stands for no
/// message.
pub fn sent(message: u8, units: usize) -> Option<Sent> {
    match message {
        0 => Some(Sent::Release),
        1 => Some(Sent::Request(units)),
        2 => Some(Sent::Withdraw),
        _ => None,
    }
}

/// The lent call from C. A number that stands for no message is 15, before anything else is tested, and changes nothing.
pub fn lent_by_number(
    before: &Arbiter,
    k: usize,
    station: usize,
    message: u8,
    units: usize,
) -> Lent {
    match sent(message, units) {
        Some(sent) => lent(before, k, station, sent),
        None => Lent {
            refusal: 15,
            granted: vec![false; MOST_STATIONS],
            after: before.clone(),
        },
    }
}
