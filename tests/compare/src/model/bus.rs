//! What a cycle of the instruction kept puts on the bus: its plan, its address and the byte that it writes.

use super::instructions::{instruction, rest, At, Byte, Cycle};
use super::record::{Acknowledge, Machine};

/// The cycle of this number in the instruction kept.
pub fn plan(m: &Machine, cycle: u8) -> Cycle {
    if cycle != 1 {
        return rest(m.opcode, m.flags)[usize::from(cycle) - 2];
    }
    let (kind, at) = match m.acknowledge {
        Acknowledge::None => (1, At::Program),
        Acknowledge::Running => (8, At::Counter),
        Acknowledge::Halted => (10, At::Counter),
    };
    let states = instruction(m.opcode).map_or(3, |known| known.fetch);
    Cycle {
        kind,
        at,
        byte: Byte::Read,
        states,
    }
}

/// The address of a cycle, with PC as it is before or after it has risen.
pub fn address(m: &Machine, at: At, risen: bool) -> u16 {
    match at {
        At::Program if risen => m.pc.wrapping_sub(1),
        At::Program | At::Counter => m.pc,
        At::Bc => m.bc(),
        At::De => m.de(),
        At::Hl => m.hl(),
        At::Stack(more) => m.sp.wrapping_add(more),
        At::Named(more) => m.word().wrapping_add(more),
        At::Port => 257 * u16::from(m.kept[0]),
        At::Nowhere => 0,
    }
}

/// The byte that a cycle writes, 0 where it writes none.
pub fn written(m: &Machine, byte: Byte) -> u8 {
    match byte {
        Byte::Read | Byte::None => 0,
        Byte::A => m.a,
        Byte::H => m.h,
        Byte::L => m.l,
        Byte::Register => m.register(m.opcode),
        Byte::Same => m.kept[0],
        Byte::More => m.kept[0].wrapping_add(1),
        Byte::Less => m.kept[0].wrapping_sub(1),
        Byte::PairHigh => pushed(m)[0],
        Byte::PairLow => pushed(m)[1],
        Byte::CounterHigh => m.pc.to_be_bytes()[0],
        Byte::CounterLow => m.pc.to_be_bytes()[1],
    }
}

/// The pair that a PUSH writes, high byte first.
fn pushed(m: &Machine) -> [u8; 2] {
    match m.opcode {
        0xC5 => [m.b, m.c],
        0xD5 => [m.d, m.e],
        0xE5 => [m.h, m.l],
        _ => [m.a, m.flags],
    }
}
