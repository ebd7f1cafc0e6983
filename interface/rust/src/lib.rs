//! The station's calls of `libpafluzeno.a`, safe to call: the check of a quorum table, ready-made tables, the outages that a table survives, the
//! arbiter of a station's own record, and the journal. What each answers is proved; this crate only passes slices and references on.
//!
//! ```
//! use pafluzeno::{check, next_member, outages, release, request, uniform, withdraw, Arbiter, Refusal, MOST_QUORUMS, SCRATCH_BYTES};
//! use pafluzeno::{page, read_line, read_record, tally, write_record, Do, Record, PAGE_ROOM};
//!
//! // five stations, two positions: a table, and whether it may be used
//! let mut table = [0; MOST_QUORUMS];
//! let quorums = uniform(5, 2, &mut table)?;
//! let mut scratch = [0; SCRATCH_BYTES];
//! assert!(check(5, 2, &table[..quorums], &mut scratch).is_ok());
//!
//! // the same quorums do not do for four positions: these five have no station in common
//! let refused = check(5, 4, &table[..quorums], &mut scratch).unwrap_err();
//! assert_eq!(refused.refusal, Refusal::NoCommonMember);
//! assert_eq!(refused.family(), [0, 1, 2, 3, 4]);
//! assert!(refused.even);
//!
//! // of the sets of three working stations none contains a quorum, of those of four all five do: one outage is survived, whichever it is
//! let survived = outages(5, 2, &table[..quorums], &mut scratch)?;
//! assert_eq!(survived.counts(), [0, 0, 0, 0, 5, 1]);
//!
//! // a station asks the members of its quorum from the lowest up; of three, one lies above the second: it is at 2 of 3
//! let first = next_member(0b10110, 0).unwrap();
//! assert_eq!((first.member, first.above + 1), (1, 3));
//! let second = next_member(0b10110, first.member + 1).unwrap();
//! assert_eq!((second.member, second.above), (2, 1));
//! assert_eq!(next_member(0b10110, 5), None);
//!
//! // a station's own arbiter: station 3 is granted both positions, station 1 waits until they are back
//! let mut arbiter = Arbiter::default();
//! assert_eq!(request(&mut arbiter, 2, 3, 2)?, 1 << 3);
//! assert_eq!(request(&mut arbiter, 2, 1, 1)?, 0);
//! assert_eq!(release(&mut arbiter, 2, 3)?, 1 << 1);
//!
//! // station 4 waits for both; station 1 withdraws, and GONE goes to it besides
//! assert_eq!(request(&mut arbiter, 2, 4, 2)?, 0);
//! assert_eq!(withdraw(&mut arbiter, 2, 1)?, 1 << 4);
//!
//! // the journal: each record is written behind the one before, and read from the text after it
//! let asked = Record { what: Do::Request.number(), station: 3, units: 2, ..Record::default() };
//! let given = Record { what: Do::Down.number(), station: 3, with: 4, entered: 2, ..Record::default() };
//! let mut journal = [0; 200];
//! let at = write_record(&mut journal, 0, asked)?;
//! let end = write_record(&mut journal, at, given)?;
//! let text = &journal[..end];
//! let (first, rest) = read_record(text)?;
//! assert_eq!(first, asked);
//! assert_eq!(read_line(b"do", rest)?, b"down");
//! assert_eq!(read_record(rest)?, (given, &text[end..]));
//! assert_eq!(tally(text)?.entered, 2);
//! assert_eq!(tally(&text[1..]), Err(Refusal::BadForm));
//!
//! // what the program `journal` prints for a text
//! let mut out = vec![0; PAGE_ROOM];
//! let len = page(b"stations=1\nunits=1\nquorums=1\nmembers=1\n", &mut out)?;
//! assert!(out[..len].ends_with(b"table=0\nwidth=0\neven=1\n"));
//! # Ok::<(), Refusal>(())
//! ```
#![no_std]

#[doc(hidden)]
pub mod header;
mod journal;
mod raw;
mod refusal;

pub use journal::{after_record, page, read_line, read_record, tally, write_record};
pub use journal::{Do, Tally};
pub use raw::{Arbiter, Entry, Next, Record};
pub use raw::{MOST_QUORUMS, MOST_STATIONS, MOST_UNITS, PAGE_ROOM, SCRATCH_BYTES};
pub use refusal::Refusal;

/// A table that may be used.
#[derive(Clone, Copy, PartialEq, Eq, Debug)]
pub struct Accepted {
    /// The size of the smallest family of quorums without a common station, 0 if there is none.
    pub width: usize,
    /// Whether all stations belong to equally many quorums and all quorums have equal size.
    pub even: bool,
}

/// A table that may not.
#[derive(Clone, Copy, PartialEq, Eq, Debug)]
pub struct Refused {
    pub refusal: Refusal,
    /// The width, on refusals 6 and 7; otherwise 0.
    pub width: usize,
    /// On refusal 6 whether the table is even, as an accepted one may be; otherwise false.
    pub even: bool,
    size: usize,
    family: [u8; MOST_STATIONS],
}

impl Refused {
    /// On refusal 6 the numbers of quorums that have no common station; otherwise empty.
    pub fn family(&self) -> &[u8] {
        &self.family[..self.size]
    }
}

/// The check of a table. Bit i of a quorum, worth 2^i, is one exactly when station i is a member. A scratch of `SCRATCH_BYTES` or more has zeros
/// in its first `SCRATCH_BYTES` afterwards and is unchanged beyond; a shorter one is unchanged.
pub fn check(
    stations: usize,
    stock: usize,
    quorums: &[u16],
    scratch: &mut [u8],
) -> Result<Accepted, Refused> {
    let checked = header::check(stations, stock, quorums, scratch);
    match Refusal::from_number(checked.refusal) {
        None => Ok(Accepted {
            width: checked.width,
            even: checked.even == 1,
        }),
        Some(refusal) => Err(Refused {
            refusal,
            width: checked.width,
            even: checked.even == 1,
            size: checked.size,
            family: checked.family,
        }),
    }
}

fn written(made: raw::Made) -> Result<usize, Refusal> {
    Refusal::from_number(made.refusal).map_or(Ok(made.quorums), Err)
}

/// One quorum, that station alone. Answers the number of quorums written, as the other makers do; a refusal leaves `out` as it was.
pub fn singleton(stations: usize, station: usize, out: &mut [u16]) -> Result<usize, Refusal> {
    written(header::singleton(stations, station, out))
}

/// All sets of floor(k × n / (k + 1)) + 1 of n stations, by ascending number.
pub fn uniform(stations: usize, stock: usize, out: &mut [u16]) -> Result<usize, Refusal> {
    written(header::uniform(stations, stock, out))
}

/// side^(stock + 1) stations; for each the quorum of those that agree with it in at least one coordinate.
pub fn cube(side: usize, stock: usize, out: &mut [u16]) -> Result<usize, Refusal> {
    written(header::cube(side, stock, out))
}

/// The sets of working stations that contain a whole quorum, counted by their size.
#[derive(Clone, Copy, PartialEq, Eq, Debug)]
pub struct Survived {
    size: usize,
    counts: [u16; MOST_STATIONS + 1],
}

impl Survived {
    /// For each u from 0 to n the number of sets of exactly u stations that contain a whole quorum: n + 1 numbers.
    pub fn counts(&self) -> &[u16] {
        &self.counts[..self.size]
    }
}

/// The outages that a table survives, refused as the check refuses it; the scratch is treated as there.
pub fn outages(
    stations: usize,
    stock: usize,
    quorums: &[u16],
    scratch: &mut [u8],
) -> Result<Survived, Refusal> {
    let counted = header::outages(stations, stock, quorums, scratch);
    let survived = Survived {
        size: counted.size,
        counts: counted.counts,
    };
    Refusal::from_number(counted.refusal).map_or(Ok(survived), Err)
}

/// The next member of a quorum from a station on, and how many members lie above it. A station that collects asks the next from 0 on, and after the
/// GRANT of j the next from j + 1 on, until there is none and it holds.
pub fn next_member(quorum: u16, from: usize) -> Option<Next> {
    let next = header::next_member(quorum, from);
    (next.member != raw::NO_MEMBER).then_some(next)
}

fn tell(arbiter: &mut Arbiter, message: raw::Arrival) -> Result<u16, Refusal> {
    let reply = header::tell(arbiter, message);
    Refusal::from_number(reply.refusal).map_or(Ok(reply.granted), Err)
}

/// A REQUEST for so many units reaches the arbiter: the set of stations to which GRANT is to be sent. A refusal leaves the record as it was.
pub fn request(
    arbiter: &mut Arbiter,
    stock: usize,
    station: usize,
    units: usize,
) -> Result<u16, Refusal> {
    let message = raw::Arrival {
        stock,
        station,
        message: raw::REQUEST,
        units,
    };
    tell(arbiter, message)
}

/// A RELEASE reaches it.
pub fn release(arbiter: &mut Arbiter, stock: usize, station: usize) -> Result<u16, Refusal> {
    let message = raw::Arrival {
        stock,
        station,
        message: raw::RELEASE,
        units: 0,
    };
    tell(arbiter, message)
}

/// A WITHDRAW reaches it. Where it is not refused, GONE is to be sent to that station besides; the set answered never has it, since none of its
/// entries is left in the line.
pub fn withdraw(arbiter: &mut Arbiter, stock: usize, station: usize) -> Result<u16, Refusal> {
    let message = raw::Arrival {
        stock,
        station,
        message: raw::WITHDRAW,
        units: 0,
    };
    tell(arbiter, message)
}
