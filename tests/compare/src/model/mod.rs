//! Document 01 as a walk: an instruction is a list of cycles, and a cycle goes through its states,
//! waits and holds until the states asked are done. Written from the paper, apart from the proved
//! machine, which goes state by state.

pub mod arithmetic;
pub mod bus;
pub mod effects;
pub mod flat;
pub mod instructions;
pub mod record;
pub mod refusals;
pub mod request;
pub mod saved;
pub mod schedule;
mod states;
pub mod walk;
pub mod well;
