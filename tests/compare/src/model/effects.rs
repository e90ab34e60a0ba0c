//! What an instruction does to registers, flags, INTE, SP and PC in its last state.

use super::arithmetic::{add_pairs, adjust, decrement, increment, operate, with_fixed_bits};
use super::instructions::condition;
use super::record::Machine;

/// The instruction whose opcode is kept takes effect.
pub fn effect(m: &mut Machine) {
    let opcode = m.opcode;
    match opcode {
        0x00..=0x3F => low_quarter(m, opcode),
        0x76 => {}
        0x40..=0x7F => m.set_register(opcode >> 3, m.register(opcode)),
        0x80..=0xBF => operated(m, opcode, m.register(opcode)),
        0xC0..=0xFF => high_quarter(m, opcode),
    }
}

/// Opcodes 00 to 3F, by their last digit.
fn low_quarter(m: &mut Machine, opcode: u8) {
    match opcode & 7 {
        0 => {}
        1 if opcode & 8 == 0 => set_pair(m, opcode, m.word()),
        1 => {
            let (sum, flags) = add_pairs(m.hl(), pair(m, opcode), m.flags);
            (m.flags, [m.h, m.l]) = (flags, sum.to_be_bytes());
        }
        2 => loaded(m, opcode),
        3 if opcode & 8 == 0 => set_pair(m, opcode, pair(m, opcode).wrapping_add(1)),
        3 => set_pair(m, opcode, pair(m, opcode).wrapping_sub(1)),
        4 => counted(m, opcode, increment(m.register(opcode >> 3), m.flags)),
        5 => counted(m, opcode, decrement(m.register(opcode >> 3), m.flags)),
        6 => m.set_register(opcode >> 3, m.kept[0]),
        _ => (m.a, m.flags) = adjust(opcode >> 3, m.a, m.flags),
    }
}

/// LDAX, LHLD and LDA; the stores among these opcodes change no register.
fn loaded(m: &mut Machine, opcode: u8) {
    match opcode {
        0x0A | 0x1A => m.a = m.kept[0],
        0x2A => [m.l, m.h] = [m.kept[2], m.kept[3]],
        0x3A => m.a = m.kept[2],
        _ => {}
    }
}

/// INR and DCR: the register of the middle digit, if it is one, and the flags.
fn counted(m: &mut Machine, opcode: u8, (byte, flags): (u8, u8)) {
    m.set_register(opcode >> 3, byte);
    m.flags = flags;
}

/// An operation of the middle digit on A and a byte.
fn operated(m: &mut Machine, opcode: u8, byte: u8) {
    (m.a, m.flags) = operate(opcode >> 3, m.a, byte, m.flags);
}

/// Opcodes C0 to FF.
fn high_quarter(m: &mut Machine, opcode: u8) {
    match opcode {
        0xC9 => returned(m),
        0xC3 => m.pc = m.word(),
        0xCD => called(m, m.word()),
        0xD3 => {}
        0xDB => m.a = m.kept[1],
        0xE3 => [m.l, m.h] = [m.kept[0], m.kept[1]],
        0xE9 => m.pc = m.hl(),
        0xF9 => m.sp = m.hl(),
        0xEB => (m.d, m.e, m.h, m.l) = (m.h, m.l, m.d, m.e),
        0xF3 => m.inte = false,
        0xFB => m.inte = true,
        _ => grouped(m, opcode),
    }
}

/// Opcodes C0 to FF that go by their last digit.
fn grouped(m: &mut Machine, opcode: u8) {
    match opcode & 7 {
        0 if condition(opcode, m.flags) => returned(m),
        1 => popped(m, opcode),
        2 if condition(opcode, m.flags) => m.pc = m.word(),
        4 if condition(opcode, m.flags) => called(m, m.word()),
        5 => m.sp = m.sp.wrapping_sub(2),
        6 => operated(m, opcode, m.kept[0]),
        7 => called(m, u16::from(opcode & 0x38)),
        _ => {}
    }
}

/// RET: PC from the stack.
fn returned(m: &mut Machine) {
    m.pc = m.word();
    m.sp = m.sp.wrapping_add(2);
}

/// CALL and RST: PC is on the stack by now.
fn called(m: &mut Machine, target: u16) {
    m.pc = target;
    m.sp = m.sp.wrapping_sub(2);
}

/// POP: a pair or A and the flags from the stack.
fn popped(m: &mut Machine, opcode: u8) {
    if opcode == 0xF1 {
        [m.flags, m.a] = [with_fixed_bits(m.kept[0]), m.kept[1]];
    } else {
        set_pair(m, opcode, m.word());
    }
    m.sp = m.sp.wrapping_add(2);
}

/// The pair in bits 4 and 5 of an opcode: BC, DE, HL, SP.
fn pair(m: &Machine, opcode: u8) -> u16 {
    match opcode & 0x30 {
        0x00 => m.bc(),
        0x10 => m.de(),
        0x20 => m.hl(),
        _ => m.sp,
    }
}

/// Sets the pair in bits 4 and 5 of an opcode.
fn set_pair(m: &mut Machine, opcode: u8, word: u16) {
    let [high, low] = word.to_be_bytes();
    match opcode & 0x30 {
        0x00 => [m.b, m.c] = [high, low],
        0x10 => [m.d, m.e] = [high, low],
        0x20 => [m.h, m.l] = [high, low],
        _ => m.sp = word,
    }
}
