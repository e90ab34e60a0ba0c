//! Rule 8 of document 01: the paper's list of ill-formed records, point by point.

use super::arithmetic::{FIXED, FIXED_BITS};
use super::bus::plan;
use super::instructions::{instruction, rest, Byte};
use super::record::{Acknowledge, Machine, Next};

/// Whether a record is ill formed.
pub fn is_ill_formed(m: &Machine) -> bool {
    m.flags & FIXED_BITS != FIXED
        || m.ready > 1
        || m.hold > 1
        || m.int > 8
        || instruction(m.opcode).is_none()
        || !exists(m)
        || has_wrong_restart(m)
        || has_unread_byte(m)
}

/// Whether the cycle and the state that come next exist for the opcode kept, under the present flags.
fn exists(m: &Machine) -> bool {
    let cycles = 1 + rest(m.opcode, m.flags).len();
    let has = |cycle: u8| (1..=cycles).contains(&usize::from(cycle));
    match m.next {
        Next::Fetch | Next::Halt | Next::Stop => true,
        Next::Later { cycle: 1, state: 1 } => false,
        Next::Later { cycle, state } => has(cycle) && (1..=plan(m, cycle).states).contains(&state),
        Next::Wait { cycle } => has(cycle) && !matches!(plan(m, cycle).kind, 9 | 11),
        Next::Hold { cycle } => has(cycle),
    }
}

/// The last cycle whose reads are done, 0 before the opcode is read and where no instruction is under way.
fn cycles_read(m: &Machine) -> u8 {
    match m.next {
        Next::Fetch | Next::Halt | Next::Stop => 0,
        Next::Wait { cycle } => cycle - 1,
        Next::Later { cycle, state } if state <= 3 => cycle - 1,
        Next::Later { cycle, .. } | Next::Hold { cycle } => cycle,
    }
}

/// Whether the restart number or the acknowledge fits neither the opcode nor what comes next.
fn has_wrong_restart(m: &Machine) -> bool {
    if m.acknowledge == Acknowledge::None {
        return m.restart != 0;
    }
    let read = cycles_read(m) >= 1;
    m.restart > 7
        || matches!(m.next, Next::Halt | Next::Stop)
        || (read && m.opcode != 0xC7 + 8 * m.restart)
}

/// Whether a byte that has not been read is not 0.
fn has_unread_byte(m: &Machine) -> bool {
    let read = cycles_read(m);
    if read == 0 {
        return m.opcode != 0 || m.kept != [0; 4];
    }
    let cycles = rest(m.opcode, m.flags);
    let is_read = |slot: usize| {
        slot + 2 <= usize::from(read) && cycles.get(slot).is_some_and(|c| c.byte == Byte::Read)
    };
    (0..4).any(|slot| m.kept[slot] != 0 && !is_read(slot))
}
