//! The journal's calls of the static library against the model's: every answer, every byte of a lent buffer, and where a
//! part of a text stands. A text that is cut has what was cut off still behind it, so that reading on would be noticed.

mod calls {
    pub mod by_hand;
    pub mod compare;
    pub mod kinds;
    pub mod lines;
    pub mod pages;
    pub mod records;
    pub mod tallies;
    pub mod writes;
}
mod texts {
    pub mod damaged;
    pub mod damaged_lines;
    pub mod lengths;
    pub mod runs;
    pub mod tables;
}

use calls::{lines, pages, records, tallies, writes};

/// Together they are enough, also without the plain numbers.
const _: () = {
    let lines = lines::OF_EVERY_KEY + lines::OF_ANY_KEY + lines::BY_BYTES;
    let records = records::OF_EVERY_KIND + records::BY_BYTES + records::CUT;
    let writes = writes::ANYWHERE + writes::EVERYWHERE;
    let tallies = tallies::TEXTS + tallies::READ;
    let pages = pages::GOOD + pages::DAMAGED + pages::CUT;
    assert!(lines + records + writes + tallies + pages >= 100_000);
};
