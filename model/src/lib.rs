//! A plain model of document 01 and of document 02's points 1 to 5, written from the documents alone, for comparison with the
//! verified code. It is meant to be obviously right and nothing else: growable lists, sets written out, and brute force
//! where that is small.
//!
//! A refusal is the documents' number, and 0 where nothing is refused.

pub mod arbiter;
pub mod calls;
pub mod examples;
pub mod machine;
pub mod outages;
pub mod page;
pub mod random;
pub mod ready;
pub mod rng;
pub mod steps;
pub mod table;
pub mod text;
