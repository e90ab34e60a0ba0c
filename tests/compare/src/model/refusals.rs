//! Document 01, "Numbers returned": the tests of a run, of a save and of a load, in their order.

use super::flat::{unflatten, RECORD, SAVED_PART};
use super::record::{Acknowledge, Machine, Next};
use super::schedule::{has_bad_event, has_bad_length, has_bad_order};
use super::well::is_ill_formed;
use crate::side::Lent;

pub const MEMORY: usize = 65_536;
pub const PORTS: usize = 256;
pub const SAVED: usize = SAVED_PART + PORTS + MEMORY;
pub const MOST_STATES: u32 = 8_192;

/// The well-formed record in these bytes, or the number 8.
pub fn record(bytes: &[u8]) -> Result<Machine, u8> {
    unflatten(bytes).filter(|m| !is_ill_formed(m)).ok_or(8)
}

/// The number where the test finds a fault.
fn refuse(fault: bool, number: u8) -> Result<(), u8> {
    match fault {
        true => Err(number),
        false => Ok(()),
    }
}

/// Tests 1 to 9 of a run, and the machine that runs.
pub fn run(bytes: &[u8], states: u32, lent: &Lent) -> Result<Machine, u8> {
    refuse(lent.memory.len() != MEMORY, 1)?;
    refuse(lent.inputs.len() != PORTS || lent.outputs.len() != PORTS, 2)?;
    refuse(has_bad_length(lent.schedule), 3)?;
    refuse(has_bad_event(lent.schedule), 4)?;
    refuse(has_bad_order(lent.schedule), 5)?;
    refuse(states > MOST_STATES, 6)?;
    refuse(lent.trace.len() < 8 * states as usize, 7)?;
    let m = record(bytes)?;
    refuse(m.clock.checked_add(states).is_none(), 9)?;
    Ok(m)
}

/// Tests 1, 2, 8, 11 and 14 of a save.
pub fn save(bytes: &[u8], memory: &[u8], outputs: &[u8], out: &[u8]) -> Result<(), u8> {
    refuse(memory.len() != MEMORY, 1)?;
    refuse(outputs.len() != PORTS, 2)?;
    let m = record(bytes)?;
    let between = matches!(m.next, Next::Fetch | Next::Halt | Next::Stop);
    refuse(!between || m.acknowledge != Acknowledge::None, 11)?;
    refuse(out.len() != SAVED, 14)
}

/// Whether the record to be filled has its length, then tests 12, 13, 1 and 2 of a load.
pub fn load(saved: &[u8], bytes: &[u8], memory: &[u8], outputs: &[u8]) -> Result<(), u8> {
    refuse(bytes.len() != RECORD, 8)?;
    refuse(saved.len() != SAVED, 12)?;
    refuse(!is_in_range(&saved[..SAVED_PART]), 13)?;
    refuse(memory.len() != MEMORY, 1)?;
    refuse(outputs.len() != PORTS, 2)
}

/// Whether each of the 24 saved bytes is in its range.
fn is_in_range(head: &[u8]) -> bool {
    head[1] & 0x2A == 0x02
        && head[12] <= 1
        && head[13] <= 2
        && head[18] <= 1
        && head[19] <= 1
        && head[20] <= 8
        && head[21..24] == [0, 0, 0]
}
