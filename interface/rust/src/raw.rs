// The declarations of interface/pafluzeno.h, again.

// The limits: `interface/run` holds them to those of the crates.
pub const MOST_STATIONS: usize = 12;
pub const MOST_UNITS: usize = 200;
pub const MOST_QUORUMS: usize = 64;
/// The check wants so many bytes of scratch.
pub const SCRATCH_BYTES: usize = 4096;
/// What stands for a member where there is none.
pub const NO_MEMBER: usize = 16;
/// A page wants a buffer of so many bytes; none is longer.
pub const PAGE_ROOM: usize = 196617;

#[repr(C)]
pub struct Checked {
    pub refusal: u8,
    pub width: usize,
    pub even: u8,
    pub size: usize,
    pub family: [u8; MOST_STATIONS],
}

#[repr(C)]
pub struct Made {
    pub refusal: u8,
    pub quorums: usize,
}

#[repr(C)]
pub struct Counted {
    pub refusal: u8,
    pub size: usize,
    pub counts: [u16; MOST_STATIONS + 1],
}

/// A member of a quorum, and how many of its members lie above that one.
#[derive(Clone, Copy, PartialEq, Eq, Debug)]
#[repr(C)]
pub struct Next {
    pub member: usize,
    pub above: usize,
}

/// A place in an arbiter's line.
#[derive(Clone, Copy, PartialEq, Eq, Debug, Default)]
#[repr(C)]
pub struct Entry {
    pub station: u8,
    pub units: u8,
}

/// A station's own arbiter: the units granted to each station, and the line of those that wait, oldest first, in the first `len` places. Any
/// content may be lent; one that is out of range is refused.
#[derive(Clone, Copy, PartialEq, Eq, Debug, Default)]
#[repr(C)]
pub struct Arbiter {
    pub granted: [u8; MOST_STATIONS],
    pub len: u8,
    pub line: [Entry; MOST_STATIONS],
}

/// The messages that reach an arbiter, by number; any other is refused.
pub const RELEASE: u8 = 0;
pub const REQUEST: u8 = 1;
pub const WITHDRAW: u8 = 2;

#[repr(C)]
pub struct Arrival {
    pub stock: usize,
    pub station: usize,
    /// One of the numbers above.
    pub message: u8,
    /// The units of a REQUEST; in the others they mean nothing.
    pub units: usize,
}

#[repr(C)]
pub struct Reply {
    pub refusal: u8,
    pub granted: u16,
}

/// A part of a lent text: where it begins, and its bytes.
#[derive(Clone, Copy, PartialEq, Eq, Debug)]
#[repr(C)]
pub struct Part {
    pub place: usize,
    pub len: usize,
}

/// A record of the journal. `what` is the number of one of the words of `do`; any other is not of the form.
#[derive(Clone, Copy, PartialEq, Eq, Debug, Default)]
#[repr(C)]
pub struct Record {
    pub what: u16,
    pub station: u16,
    /// The quorum of a request, the arbiter of up and down, 0 in a release and a withdrawal.
    pub with: u16,
    /// 0 except in a request.
    pub units: u16,
    pub refused: u16,
    pub entered: u16,
    pub left: u16,
}

#[derive(Clone, Copy, PartialEq, Eq, Debug)]
#[repr(C)]
pub struct Read {
    pub refusal: u8,
    pub record: Record,
    pub taken: usize,
}

#[derive(Clone, Copy, PartialEq, Eq, Debug)]
#[repr(C)]
pub struct Written {
    pub refusal: u8,
    pub place: usize,
}

#[derive(Clone, Copy, PartialEq, Eq, Debug)]
#[repr(C)]
pub struct Sum {
    pub low: u64,
    pub high: u64,
}

#[derive(Clone, Copy, PartialEq, Eq, Debug)]
#[repr(C)]
pub struct Tallied {
    pub refusal: u8,
    pub records: usize,
    pub entered: Sum,
    pub left: Sum,
}

#[derive(Clone, Copy, PartialEq, Eq, Debug)]
#[repr(C)]
pub struct Printed {
    pub refusal: u8,
    pub len: usize,
}

extern "C" {
    pub fn pafluzeno_check(
        n: usize,
        k: usize,
        quorums: *const u16,
        quorums_len: usize,
        scratch: *mut u8,
        scratch_len: usize,
    ) -> Checked;
    pub fn pafluzeno_singleton(n: usize, station: usize, out: *mut u16, out_len: usize) -> Made;
    pub fn pafluzeno_uniform(n: usize, k: usize, out: *mut u16, out_len: usize) -> Made;
    pub fn pafluzeno_cube(a: usize, k: usize, out: *mut u16, out_len: usize) -> Made;
    pub fn pafluzeno_outages(
        n: usize,
        k: usize,
        quorums: *const u16,
        quorums_len: usize,
        scratch: *mut u8,
        scratch_len: usize,
    ) -> Counted;
    pub fn pafluzeno_next_member(quorum: u16, from: usize) -> Next;
    pub fn pafluzeno_tell(arbiter: &mut Arbiter, message: Arrival) -> Reply;
    pub fn pafluzeno_read_line(
        key: *const u8,
        key_len: usize,
        text: *const u8,
        text_len: usize,
    ) -> Part;
    pub fn pafluzeno_read_record(text: *const u8, text_len: usize) -> Read;
    pub fn pafluzeno_after_record(text: *const u8, text_len: usize) -> Part;
    pub fn pafluzeno_write_record(
        out: *mut u8,
        out_len: usize,
        at: usize,
        record: Record,
    ) -> Written;
    pub fn pafluzeno_tally(text: *const u8, text_len: usize) -> Tallied;
    pub fn pafluzeno_page(
        text: *const u8,
        text_len: usize,
        out: *mut u8,
        out_len: usize,
    ) -> Printed;
}
