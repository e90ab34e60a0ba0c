//! Random memory and programs.

use super::random::Random;
use super::records::{defined, undefined};
use crate::model::refusals::MEMORY;

/// A memory of random bytes, few of which stop a machine.
pub fn memory(random: &mut Random) -> Vec<u8> {
    (0..MEMORY)
        .map(|_| match random.once_in(8) {
            true => random.byte(),
            false => defined(random),
        })
        .collect()
}

/// A byte of a program: any and some that stop, the defined, those about interrupts, those about the stack and ports,
/// those that address the edge of memory.
fn byte(random: &mut Random, flavour: usize) -> u8 {
    const INTERRUPTS: [u8; 8] = [0xFB, 0xFB, 0xFB, 0xF3, 0x76, 0x76, 0x00, 0xE3];
    const STACK: [u8; 12] = [
        0xE3, 0xC5, 0xD1, 0xF1, 0xF5, 0xCD, 0xC9, 0xCC, 0xC0, 0xC7, 0xD3, 0xDB,
    ];
    const WORDS: [u8; 6] = [0x22, 0x2A, 0xFF, 0xFF, 0xFF, 0x31];
    match flavour {
        0 if random.once_in(16) => undefined(random),
        0 => random.byte(),
        1 | 2 => defined(random),
        3 if random.once_in(2) => random.pick(&INTERRUPTS),
        4 if random.once_in(2) => random.pick(&STACK),
        5 if random.once_in(2) => random.pick(&WORDS),
        _ => defined(random),
    }
}

/// Writes a program around the address, over the end of memory where it comes there.
pub fn program(random: &mut Random, memory: &mut [u8], pc: u16) {
    let flavour = random.below(6);
    for ahead in 0..32 {
        let address = pc.wrapping_sub(1).wrapping_add(ahead);
        memory[usize::from(address)] = byte(random, flavour);
    }
}
