//! A machine record as 64 bytes, the first 24 of them as in the saved form.

use super::record::{Acknowledge, Machine, Next};

/// The bytes of a record, and of the part that is saved.
pub const RECORD: usize = 64;
pub const SAVED_PART: usize = 24;

/// The numbers of what comes next, and the cycle and state that go with them.
fn place_of(next: Next) -> [u8; 3] {
    match next {
        Next::Fetch => [0, 0, 0],
        Next::Halt => [1, 0, 0],
        Next::Stop => [2, 0, 0],
        Next::Later { cycle, state } => [3, cycle, state],
        Next::Wait { cycle } => [4, cycle, 0],
        Next::Hold { cycle } => [5, cycle, 0],
    }
}

/// What comes next by its numbers, where they are so written for something.
fn next_of(place: [u8; 3]) -> Option<Next> {
    let next = match place {
        [0, ..] => Next::Fetch,
        [1, ..] => Next::Halt,
        [2, ..] => Next::Stop,
        [3, cycle, state] => Next::Later { cycle, state },
        [4, cycle, _] => Next::Wait { cycle },
        [5, cycle, _] => Next::Hold { cycle },
        _ => return None,
    };
    (place_of(next) == place).then_some(next)
}

/// The 64 bytes of a record.
pub fn flatten(m: &Machine) -> [u8; RECORD] {
    let mut bytes = [0; RECORD];
    let [mode, cycle, state] = place_of(m.next);
    bytes[..8].copy_from_slice(&[m.a, m.flags, m.b, m.c, m.d, m.e, m.h, m.l]);
    bytes[8..10].copy_from_slice(&m.sp.to_le_bytes());
    bytes[10..12].copy_from_slice(&m.pc.to_le_bytes());
    bytes[12..14].copy_from_slice(&[u8::from(m.inte), mode]);
    bytes[14..18].copy_from_slice(&m.clock.to_le_bytes());
    bytes[18..21].copy_from_slice(&[m.ready, m.hold, m.int]);
    let acknowledge = match m.acknowledge {
        Acknowledge::None => 0,
        Acknowledge::Running => 1,
        Acknowledge::Halted => 2,
    };
    bytes[24..29].copy_from_slice(&[cycle, state, m.opcode, acknowledge, m.restart]);
    bytes[29..33].copy_from_slice(&m.kept);
    bytes
}

/// The record in these bytes, or none where they are malformed.
pub fn unflatten(bytes: &[u8]) -> Option<Machine> {
    let b: &[u8; RECORD] = bytes.try_into().ok()?;
    let inte = [false, true].get(usize::from(b[12]))?;
    let acknowledges = [Acknowledge::None, Acknowledge::Running, Acknowledge::Halted];
    let acknowledge = acknowledges.get(usize::from(b[27]))?;
    let zeros = b[21..24].iter().chain(&b[33..]);
    if zeros.into_iter().any(|&byte| byte != 0) {
        return None;
    }
    Some(Machine {
        a: b[0],
        flags: b[1],
        b: b[2],
        c: b[3],
        d: b[4],
        e: b[5],
        h: b[6],
        l: b[7],
        sp: u16::from_le_bytes([b[8], b[9]]),
        pc: u16::from_le_bytes([b[10], b[11]]),
        inte: *inte,
        clock: u32::from_le_bytes([b[14], b[15], b[16], b[17]]),
        ready: b[18],
        hold: b[19],
        int: b[20],
        next: next_of([b[13], b[24], b[25]])?,
        opcode: b[26],
        acknowledge: *acknowledge,
        restart: b[28],
        kept: [b[29], b[30], b[31], b[32]],
    })
}
