//! The calls on slices and references, with the answers of the header as they are. A comparison looks at all of a refused answer, of which the
//! crate's own functions keep only a part.

use crate::raw;

pub use raw::{
    Arrival, Checked, Counted, Made, Next, Part, Printed, Read, Reply, Sum, Tallied, Written,
};
pub use raw::{RELEASE, REQUEST, WITHDRAW};

pub fn check(n: usize, k: usize, quorums: &[u16], scratch: &mut [u8]) -> Checked {
    // SAFETY: pointers and lengths are those of live slices, and the scratch is borrowed by this call alone.
    unsafe {
        raw::pafluzeno_check(
            n,
            k,
            quorums.as_ptr(),
            quorums.len(),
            scratch.as_mut_ptr(),
            scratch.len(),
        )
    }
}

type Maker = unsafe extern "C" fn(usize, usize, *mut u16, usize) -> Made;

fn made(maker: Maker, first: usize, second: usize, out: &mut [u16]) -> Made {
    // SAFETY: as above.
    unsafe { maker(first, second, out.as_mut_ptr(), out.len()) }
}

pub fn singleton(n: usize, station: usize, out: &mut [u16]) -> Made {
    made(raw::pafluzeno_singleton, n, station, out)
}

pub fn uniform(n: usize, k: usize, out: &mut [u16]) -> Made {
    made(raw::pafluzeno_uniform, n, k, out)
}

pub fn cube(a: usize, k: usize, out: &mut [u16]) -> Made {
    made(raw::pafluzeno_cube, a, k, out)
}

pub fn outages(n: usize, k: usize, quorums: &[u16], scratch: &mut [u8]) -> Counted {
    // SAFETY: as of the check.
    unsafe {
        raw::pafluzeno_outages(
            n,
            k,
            quorums.as_ptr(),
            quorums.len(),
            scratch.as_mut_ptr(),
            scratch.len(),
        )
    }
}

pub fn next_member(quorum: u16, from: usize) -> Next {
    // SAFETY: numbers go by value.
    unsafe { raw::pafluzeno_next_member(quorum, from) }
}

pub fn tell(arbiter: &mut raw::Arbiter, message: Arrival) -> Reply {
    // SAFETY: the reference is live and exclusive, and `Arbiter` has the layout of the header's struct.
    unsafe { raw::pafluzeno_tell(arbiter, message) }
}

pub fn read_line(key: &[u8], text: &[u8]) -> Part {
    // SAFETY: pointers and lengths are those of live slices, as below.
    unsafe { raw::pafluzeno_read_line(key.as_ptr(), key.len(), text.as_ptr(), text.len()) }
}

pub fn read_record(text: &[u8]) -> Read {
    // SAFETY: as above.
    unsafe { raw::pafluzeno_read_record(text.as_ptr(), text.len()) }
}

pub fn after_record(text: &[u8]) -> Part {
    // SAFETY: as above.
    unsafe { raw::pafluzeno_after_record(text.as_ptr(), text.len()) }
}

pub fn write_record(out: &mut [u8], at: usize, record: raw::Record) -> Written {
    // SAFETY: as above, and the buffer is borrowed by this call alone.
    unsafe { raw::pafluzeno_write_record(out.as_mut_ptr(), out.len(), at, record) }
}

pub fn tally(text: &[u8]) -> Tallied {
    // SAFETY: as above.
    unsafe { raw::pafluzeno_tally(text.as_ptr(), text.len()) }
}

pub fn page(text: &[u8], out: &mut [u8]) -> Printed {
    // SAFETY: as above, and the buffer is borrowed by this call alone.
    unsafe { raw::pafluzeno_page(text.as_ptr(), text.len(), out.as_mut_ptr(), out.len()) }
}
