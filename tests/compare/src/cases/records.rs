//! Random records: well formed at every place of every instruction, and damaged.

use super::random::Random;
use crate::model::arithmetic::with_fixed_bits;
use crate::model::bus::plan;
use crate::model::flat::{flatten, RECORD};
use crate::model::instructions::{instruction, rest, Byte};
use crate::model::record::{Acknowledge, Machine, Next, INT_DOWN};

/// The places inside the instruction kept, under the present flags.
pub fn places(m: &Machine) -> Vec<Next> {
    let mut places = vec![];
    for cycle in 1..=rest(m.opcode, m.flags).len() as u8 + 1 {
        let now = plan(m, cycle);
        let first = if cycle == 1 { 2 } else { 1 };
        places.extend((first..=now.states).map(|state| Next::Later { cycle, state }));
        if now.kind != 9 && now.kind != 11 {
            places.push(Next::Wait { cycle });
        }
        places.push(Next::Hold { cycle });
    }
    places
}

/// A well-formed record.
pub fn well_formed(random: &mut Random) -> [u8; RECORD] {
    let mut m = registers(random);
    lines(random, &mut m);
    match random.below(64) {
        0..=11 => {}
        12..=15 => acknowledging(random, &mut m),
        16..=19 => m.next = Next::Halt,
        20 => m.next = Next::Stop,
        _ => inside(random, &mut m),
    }
    flatten(&m)
}

/// A well-formed record between instructions.
pub fn between(random: &mut Random) -> [u8; RECORD] {
    let mut m = registers(random);
    lines(random, &mut m);
    m.next = random.pick(&[Next::Fetch, Next::Halt, Next::Stop]);
    flatten(&m)
}

/// A cold machine with random registers and clock.
fn registers(random: &mut Random) -> Machine {
    let mut m = Machine::cold();
    m.flags = with_fixed_bits(random.byte());
    for number in 0..8 {
        let byte = random.byte();
        let edge = random.pick(&[0x00, 0xFF, 0x01, 0x99]);
        m.set_register(number, if random.once_in(4) { edge } else { byte });
    }
    m.sp = random.word();
    m.pc = random.word();
    m.clock = match random.below(4) {
        0 => 0,
        1 => random.below(1000) as u32,
        2 => u32::MAX - 10_000 + random.below(10_000) as u32,
        _ => random.number() as u32,
    };
    m
}

/// Random levels, mostly at rest.
fn lines(random: &mut Random, m: &mut Machine) {
    m.inte = random.once_in(2);
    m.ready = u8::from(!random.once_in(8));
    m.hold = u8::from(random.once_in(8));
    m.int = match random.once_in(2) {
        true => INT_DOWN,
        false => random.below(8) as u8,
    };
}

/// An acknowledge is named, with its T1 next.
fn acknowledging(random: &mut Random, m: &mut Machine) {
    m.acknowledge = random.pick(&[Acknowledge::Running, Acknowledge::Halted]);
    m.restart = random.below(8) as u8;
}

/// A place inside some instruction comes next.
fn inside(random: &mut Random, m: &mut Machine) {
    if random.once_in(10) {
        acknowledging(random, m);
        m.opcode = 0xC7 + 8 * m.restart;
    } else {
        m.opcode = defined(random);
    }
    m.next = random.pick(&places(m));
    let read = match m.next {
        Next::Later {
            cycle,
            state: 4 | 5,
        }
        | Next::Hold { cycle } => cycle,
        Next::Later { cycle, .. } | Next::Wait { cycle } => cycle - 1,
        _ => 0,
    };
    let done = usize::from(read.saturating_sub(1));
    let cycles = rest(m.opcode, m.flags).iter().take(done);
    let at_edge = random.once_in(8);
    for (slot, _) in cycles.enumerate().filter(|(_, c)| c.byte == Byte::Read) {
        m.kept[slot] = if at_edge { 0xFF } else { random.byte() };
    }
    if read == 0 {
        m.opcode = 0;
    }
}

/// A byte that is an opcode or is none, as wanted.
fn opcode(random: &mut Random, is_defined: bool) -> u8 {
    loop {
        let byte = random.byte();
        if instruction(byte).is_some() == is_defined {
            return byte;
        }
    }
}

/// An opcode that Intel defines.
pub fn defined(random: &mut Random) -> u8 {
    opcode(random, true)
}

/// One of the opcodes that Intel leaves undefined.
pub fn undefined(random: &mut Random) -> u8 {
    opcode(random, false)
}

/// Damages a record of 64 bytes in one way: its length, a field, or the place.
pub fn damage(random: &mut Random, record: &mut Vec<u8>) {
    match random.below(16) {
        0 => record.truncate(random.below(RECORD)),
        1 => record.push(0),
        2..=5 => {
            let offset = random.below(RECORD);
            record[offset] = random.byte();
        }
        6..=11 => field(random, record),
        _ => place(random, record),
    }
}

/// Changes one of the fields that rule 8 or the flat form looks at, to a small number or by a bit.
fn field(random: &mut Random, record: &mut [u8]) {
    const FIELDS: [usize; 19] = [
        1, 12, 13, 18, 19, 20, 21, 22, 23, 24, 25, 26, 27, 28, 29, 30, 31, 32, 33,
    ];
    let offset = random.pick(&FIELDS);
    if random.once_in(2) {
        record[offset] = random.below(10) as u8;
    } else {
        record[offset] ^= 1 << random.below(8);
    }
}

/// Changes the place, keeping the rest.
fn place(random: &mut Random, record: &mut [u8]) {
    record[13] = random.below(7) as u8;
    record[24] = if record[13] < 3 {
        0
    } else {
        random.below(7) as u8
    };
    record[25] = if record[13] == 3 {
        random.below(7) as u8
    } else {
        0
    };
    if random.once_in(8) {
        record[27] = random.below(4) as u8;
    }
}
