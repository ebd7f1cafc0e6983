//! The plain machine's calls. "A call tests 19, 8, then the rest of its own, upward." Of Withdraw that is 20, "after 8 and
//! before 14".

pub mod record;

use crate::arbiter::Sent;
use crate::table::{check, members};
use record::{Message, Phase, Record, MOST_DOWN, MOST_UP};

/// "Each call returns refusal, units entered (else 0), units left (else 0) and the record." And: "Request and Down return
/// it: after sending REQUEST, the number of members above the addressee; otherwise 0."
#[derive(Clone, PartialEq, Eq, Debug)]
pub struct Answer {
    pub refusal: usize,
    pub entered: usize,
    pub left: usize,
    pub above: usize,
    pub record: Record,
}

impl Answer {
    /// As the programs of examples print them.
    pub fn numbers(&self) -> String {
        let (refused, entered, left, above) = (self.refusal, self.entered, self.left, self.above);
        format!("refused={refused} entered={entered} left={left} above={above}")
    }
}

/// Units entered, units left, and members above the addressee of a REQUEST.
type Moved = (usize, usize, usize);

const NOTHING: Moved = (0, 0, 0);

/// A call works on a copy, which is thrown away where it is refused: "A refused call enters and leaves 0 and returns the
/// record unchanged."
fn answer(before: &Record, call: impl FnOnce(&mut Record) -> Result<Moved, usize>) -> Answer {
    let mut record = before.clone();
    let done = if before.in_range() {
        call(&mut record)
    } else {
        Err(19)
    };
    match done {
        Ok((entered, left, above)) => Answer {
            refusal: 0,
            entered,
            left,
            above,
            record,
        },
        Err(refusal) => Answer {
            refusal,
            entered: 0,
            left: 0,
            above: 0,
            record: before.clone(),
        },
    }
}

/// 8: a station or arbiter that there is not.
fn exists(r: &Record, number: usize) -> Result<(), usize> {
    if number < r.n {
        Ok(())
    } else {
        Err(8)
    }
}

/// How many members of the quorum have a higher number than this one.
pub fn members_above(quorum: u16, member: usize) -> usize {
    members(quorum).into_iter().filter(|&m| m > member).count()
}

fn send_up(r: &mut Record, s: usize, j: usize, message: Message) -> Result<(), usize> {
    r.up[s][j].push_back(message);
    if r.up[s][j].len() > MOST_UP {
        return Err(14);
    }
    Ok(())
}

fn send_down(r: &mut Record, s: usize, j: usize, message: Message) -> Result<(), usize> {
    r.down[s][j].push_back(message);
    if r.down[s][j].len() > MOST_DOWN {
        return Err(14);
    }
    Ok(())
}

/// "Request(s, quorum, h): s collects; REQUEST(h) goes up to the lowest member."
pub fn request(before: &Record, s: usize, quorum: usize, h: usize) -> Answer {
    answer(before, |r| {
        exists(r, s)?;
        if quorum >= r.table.len() {
            return Err(9);
        }
        if h < 1 || h > r.stock {
            return Err(10);
        }
        if r.stations[s] != Phase::Idle {
            return Err(11);
        }
        let lowest = members(r.table[quorum])[0];
        r.stations[s] = Phase::Collecting {
            quorum,
            units: h,
            member: lowest,
        };
        send_up(r, s, lowest, Message::Request(h))?;
        Ok((0, 0, members_above(r.table[quorum], lowest)))
    })
}

/// Up(s, j) "takes the oldest message"; the arbiter does its part; "and GRANT goes down the lane from j to that station".
/// On WITHDRAW the arbiter "sends GONE down to it, then serves its line"; the sender has left that line, so that no GRANT
/// comes behind its GONE.
pub fn up(before: &Record, s: usize, j: usize) -> Answer {
    answer(before, |r| {
        exists(r, s)?;
        exists(r, j)?;
        let sent = match r.up[s][j].pop_front() {
            None => return Err(13),
            Some(Message::Request(h)) => Sent::Request(h),
            Some(Message::Release) => Sent::Release,
            Some(Message::Withdraw) => Sent::Withdraw,
            Some(Message::Grant | Message::Gone) => unreachable!("the record is in range"),
        };
        if sent == Sent::Withdraw {
            send_down(r, s, j, Message::Gone)?;
        }
        let (n, k) = (r.n, r.stock);
        for station in r.arbiters[j].take(n, k, s, sent)? {
            send_down(r, station, j, Message::Grant)?;
        }
        Ok(NOTHING)
    })
}

/// Down(s, j) "takes the oldest message. If s is collecting from j: with a higher member left, REQUEST(h) goes up to the
/// lowest such member; otherwise s holds and h units are entered. In every other case GRANT is dropped." And: "A
/// withdrawing station drops GRANT, and GONE makes it idle; any other station drops GONE."
pub fn down(before: &Record, s: usize, j: usize) -> Answer {
    answer(before, |r| {
        exists(r, s)?;
        exists(r, j)?;
        let message = r.down[s][j].pop_front().ok_or(13usize)?;
        if message == Message::Gone {
            if r.stations[s] == Phase::Withdrawing {
                r.stations[s] = Phase::Idle;
            }
            return Ok(NOTHING);
        }
        match r.stations[s] {
            Phase::Collecting {
                quorum,
                units,
                member,
            } if member == j => {
                let higher = members(r.table[quorum]).into_iter().find(|&m| m > j);
                match higher {
                    Some(member) => {
                        r.stations[s] = Phase::Collecting {
                            quorum,
                            units,
                            member,
                        };
                        send_up(r, s, member, Message::Request(units))?;
                        Ok((0, 0, members_above(r.table[quorum], member)))
                    }
                    None => {
                        r.stations[s] = Phase::Holding { quorum, units };
                        Ok((units, 0, 0))
                    }
                }
            }
            _ => Ok(NOTHING),
        }
    })
}

/// "Release(s): RELEASE goes up to all members, s is idle, its h units are left."
pub fn release(before: &Record, s: usize) -> Answer {
    answer(before, |r| {
        exists(r, s)?;
        let Phase::Holding { quorum, units } = r.stations[s] else {
            return Err(12);
        };
        for j in members(r.table[quorum]) {
            send_up(r, s, j, Message::Release)?;
        }
        r.stations[s] = Phase::Idle;
        Ok((0, units, 0))
    })
}

/// "RELEASE goes to all members that have already granted (those below the member now approached), WITHDRAW to the member
/// now approached, and the station is withdrawing." A record made by hand may approach a station that is no member;
/// WITHDRAW goes there all the same.
pub fn withdraw(before: &Record, s: usize) -> Answer {
    answer(before, |r| {
        exists(r, s)?;
        let Phase::Collecting { quorum, member, .. } = r.stations[s] else {
            return Err(20);
        };
        for j in members(r.table[quorum]).into_iter().filter(|&j| j < member) {
            send_up(r, s, j, Message::Release)?;
        }
        send_up(r, s, member, Message::Withdraw)?;
        r.stations[s] = Phase::Withdrawing;
        Ok(NOTHING)
    })
}

/// "Opening gives a fresh record, or on refusal the empty record (n = 0)." It runs the check on that much scratch.
pub fn open(n: usize, k: usize, quorums: &[u16], scratch: usize) -> (usize, Record) {
    let refusal = check(n, k, quorums, scratch).refusal;
    if refusal != 0 {
        return (refusal, Record::empty());
    }
    (0, Record::fresh(n, k, quorums))
}
