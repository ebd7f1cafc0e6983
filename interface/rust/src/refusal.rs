use core::error::Error;
use core::fmt;

/// The refusals, by name and number.
#[derive(Clone, Copy, PartialEq, Eq, Debug)]
#[repr(u8)]
pub enum Refusal {
    /// n outside 1..12
    BadStations = 1,
    /// k outside 1..200
    BadStock = 2,
    /// quorums outside 1..64
    BadLength = 3,
    /// a quorum empty or naming a station from n on
    BadQuorum = 4,
    /// scratch below 4,096 bytes
    ShortScratch = 5,
    /// some k + 1 quorums, repeats allowed, have no common member
    NoCommonMember = 6,
    /// one quorum contains or equals another
    Nested = 7,
    /// a station or arbiter from n on
    NoSuchStation = 8,
    /// request: no such quorum
    NoSuchQuorum = 9,
    /// request: units outside 1..k
    BadUnits = 10,
    /// request: the station is not idle
    NotIdle = 11,
    /// release: the station does not hold
    NotHolding = 12,
    /// up, down: the lane is empty
    EmptyLane = 13,
    /// a lane or line would pass its limit
    NoPlace = 14,
    /// journal text or record not of the form, or a number that is no message
    BadForm = 15,
    /// output buffer too short
    ShortBuffer = 16,
    /// cube with a = 0 or more than 12 stations
    NoCube = 17,
    /// ready-made table above 64 quorums
    TooManyQuorums = 18,
    /// record out of range
    OutOfRange = 19,
    /// withdraw: the station is not collecting
    NotCollecting = 20,
}

impl Refusal {
    const ALL: [Refusal; 20] = [
        Refusal::BadStations,
        Refusal::BadStock,
        Refusal::BadLength,
        Refusal::BadQuorum,
        Refusal::ShortScratch,
        Refusal::NoCommonMember,
        Refusal::Nested,
        Refusal::NoSuchStation,
        Refusal::NoSuchQuorum,
        Refusal::BadUnits,
        Refusal::NotIdle,
        Refusal::NotHolding,
        Refusal::EmptyLane,
        Refusal::NoPlace,
        Refusal::BadForm,
        Refusal::ShortBuffer,
        Refusal::NoCube,
        Refusal::TooManyQuorums,
        Refusal::OutOfRange,
        Refusal::NotCollecting,
    ];

    pub fn number(self) -> u8 {
        self as u8
    }

    /// The refusal of that number; 0 is none. No call answers a number above 20.
    pub(crate) fn from_number(number: u8) -> Option<Refusal> {
        match number {
            0 => None,
            _ => Some(Refusal::ALL[number as usize - 1]),
        }
    }
}

impl fmt::Display for Refusal {
    fn fmt(&self, f: &mut fmt::Formatter) -> fmt::Result {
        write!(f, "refusal {} ({self:?})", self.number())
    }
}

impl Error for Refusal {}
