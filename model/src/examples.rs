//! The examples of the programs `cases`, `runs` and `withdrawals`, written again as data. Every answer comes from the model.

pub mod by_hand;
pub mod cases;
pub mod out_of_range;
pub mod runs;
pub mod script;
pub mod withdrawals;
