//! Random cases, and the two sides held against each other on each.

pub mod bench;
mod demands;
pub mod faults;
pub mod programs;
pub mod random;
pub mod records;
pub mod schedules;
pub mod storage;
pub mod tally;
pub mod world;
