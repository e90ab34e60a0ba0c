//! Document 01, "Saved machine": 24 bytes, the output ports, the memory.

use super::flat::{RECORD, SAVED_PART};
use super::refusals::PORTS;

/// Writes the saved form; all lengths have been tested.
pub fn save(record: &[u8], memory: &[u8], outputs: &[u8], out: &mut [u8]) {
    let (head, rest) = out.split_at_mut(SAVED_PART);
    let (ports, bytes) = rest.split_at_mut(PORTS);
    head.copy_from_slice(&record[..SAVED_PART]);
    ports.copy_from_slice(outputs);
    bytes.copy_from_slice(memory);
}

/// Fills machine, memory and output ports from a saved form; all lengths and fields have been tested.
pub fn load(saved: &[u8], record: &mut [u8], memory: &mut [u8], outputs: &mut [u8]) {
    let (head, rest) = saved.split_at(SAVED_PART);
    let (ports, bytes) = rest.split_at(PORTS);
    record[..SAVED_PART].copy_from_slice(head);
    record[SAVED_PART..RECORD].fill(0);
    outputs.copy_from_slice(ports);
    memory.copy_from_slice(bytes);
}
