//! Document 01, "Cycles": each instruction as a list of cycles.

use super::arithmetic::{CARRY, EVEN, SIGN, ZERO};

/// What a cycle addresses.
#[derive(Clone, Copy, Debug, PartialEq, Eq)]
pub enum At {
    /// The byte at PC, which rises.
    Program,
    /// PC, which stays.
    Counter,
    Bc,
    De,
    Hl,
    /// SP and so much more, modulo 65,536.
    Stack(u16),
    /// The address that cycles 2 and 3 read, and so much more.
    Named(u16),
    /// The port that cycle 2 read.
    Port,
    Nowhere,
}

/// The byte that a cycle reads or writes.
#[derive(Clone, Copy, Debug, PartialEq, Eq)]
pub enum Byte {
    Read,
    None,
    A,
    H,
    L,
    /// The register in the low digit of the opcode.
    Register,
    /// What cycle 2 read, as it is, one more or one less.
    Same,
    More,
    Less,
    PairHigh,
    PairLow,
    CounterHigh,
    CounterLow,
}

/// A cycle: its kind, what it addresses, its byte and its states.
#[derive(Clone, Copy, Debug, PartialEq, Eq)]
pub struct Cycle {
    pub kind: u8,
    pub at: At,
    pub byte: Byte,
    pub states: u8,
}

/// A cycle of three states.
const fn three(kind: u8, at: At, byte: Byte) -> Cycle {
    Cycle {
        kind,
        at,
        byte,
        states: 3,
    }
}

/// The addresses SP - 1 and SP - 2.
const BELOW: u16 = 0xFFFF;
const BELOW_THAT: u16 = 0xFFFE;

const OPERAND: Cycle = three(2, At::Program, Byte::Read);
const READ_BC: Cycle = three(2, At::Bc, Byte::Read);
const READ_DE: Cycle = three(2, At::De, Byte::Read);
const READ_M: Cycle = three(2, At::Hl, Byte::Read);
const READ_NAMED: Cycle = three(2, At::Named(0), Byte::Read);
const READ_AFTER: Cycle = three(2, At::Named(1), Byte::Read);
const A_TO_BC: Cycle = three(3, At::Bc, Byte::A);
const A_TO_DE: Cycle = three(3, At::De, Byte::A);
const REGISTER_TO_M: Cycle = three(3, At::Hl, Byte::Register);
const SAME_TO_M: Cycle = three(3, At::Hl, Byte::Same);
const MORE_TO_M: Cycle = three(3, At::Hl, Byte::More);
const LESS_TO_M: Cycle = three(3, At::Hl, Byte::Less);
const A_TO_NAMED: Cycle = three(3, At::Named(0), Byte::A);
const L_TO_NAMED: Cycle = three(3, At::Named(0), Byte::L);
const H_TO_AFTER: Cycle = three(3, At::Named(1), Byte::H);
const POP_LOW: Cycle = three(4, At::Stack(0), Byte::Read);
const POP_HIGH: Cycle = three(4, At::Stack(1), Byte::Read);
const PUSH_PC_HIGH: Cycle = three(5, At::Stack(BELOW), Byte::CounterHigh);
const PUSH_PC_LOW: Cycle = three(5, At::Stack(BELOW_THAT), Byte::CounterLow);
const PUSH_HIGH: Cycle = three(5, At::Stack(BELOW), Byte::PairHigh);
const PUSH_LOW: Cycle = three(5, At::Stack(BELOW_THAT), Byte::PairLow);
const EXCHANGE_HIGH: Cycle = three(5, At::Stack(1), Byte::H);
const INPUT: Cycle = three(6, At::Port, Byte::Read);
const OUTPUT: Cycle = three(7, At::Port, Byte::A);
const HALT: Cycle = three(9, At::Counter, Byte::None);
const INTERNAL: Cycle = three(11, At::Nowhere, Byte::None);

/// XTHL's last cycle has five states.
const EXCHANGE_LOW: Cycle = Cycle {
    kind: 5,
    at: At::Stack(0),
    byte: Byte::L,
    states: 5,
};

/// An instruction: the states of its fetch, its cycles after that, and how many of those an untaken one has.
#[derive(Clone, Copy, Debug)]
pub struct Instruction {
    pub fetch: u8,
    pub rest: &'static [Cycle],
    pub untaken: usize,
}

/// An instruction with the same cycles whatever the flags.
const fn plain(fetch: u8, rest: &'static [Cycle]) -> Option<Instruction> {
    either(fetch, rest, rest.len())
}

/// An instruction that has only so many cycles after its fetch where its condition fails.
const fn either(fetch: u8, rest: &'static [Cycle], untaken: usize) -> Option<Instruction> {
    Some(Instruction {
        fetch,
        rest,
        untaken,
    })
}

/// The instruction of an opcode, or none for the twelve that Intel leaves undefined.
#[rustfmt::skip]
pub fn instruction(opcode: u8) -> Option<Instruction> {
    match opcode {
        0x08 | 0x10 | 0x18 | 0x20 | 0x28 | 0x30 | 0x38 | 0xCB | 0xD9 | 0xDD | 0xED | 0xFD => None,
        // NOP, the rotates, DAA, CMA, STC, CMC, XCHG, DI, EI
        0x00 | 0x07 | 0x0F | 0x17 | 0x1F | 0x27 | 0x2F | 0x37 | 0x3F | 0xEB | 0xF3 | 0xFB => plain(4, &[]),
        // LXI
        0x01 | 0x11 | 0x21 | 0x31 => plain(4, &[OPERAND, OPERAND]),
        // STAX, LDAX
        0x02 => plain(4, &[A_TO_BC]),
        0x12 => plain(4, &[A_TO_DE]),
        0x0A => plain(4, &[READ_BC]),
        0x1A => plain(4, &[READ_DE]),
        // INX, DCX
        0x03 | 0x13 | 0x23 | 0x33 | 0x0B | 0x1B | 0x2B | 0x3B => plain(5, &[]),
        // INR, DCR of a register
        0x04 | 0x0C | 0x14 | 0x1C | 0x24 | 0x2C | 0x3C => plain(5, &[]),
        0x05 | 0x0D | 0x15 | 0x1D | 0x25 | 0x2D | 0x3D => plain(5, &[]),
        // INR M, DCR M
        0x34 => plain(4, &[READ_M, MORE_TO_M]),
        0x35 => plain(4, &[READ_M, LESS_TO_M]),
        // MVI
        0x06 | 0x0E | 0x16 | 0x1E | 0x26 | 0x2E | 0x3E => plain(4, &[OPERAND]),
        0x36 => plain(4, &[OPERAND, SAME_TO_M]),
        // DAD
        0x09 | 0x19 | 0x29 | 0x39 => plain(4, &[INTERNAL, INTERNAL]),
        // SHLD, LHLD, STA, LDA
        0x22 => plain(4, &[OPERAND, OPERAND, L_TO_NAMED, H_TO_AFTER]),
        0x2A => plain(4, &[OPERAND, OPERAND, READ_NAMED, READ_AFTER]),
        0x32 => plain(4, &[OPERAND, OPERAND, A_TO_NAMED]),
        0x3A => plain(4, &[OPERAND, OPERAND, READ_NAMED]),
        // HLT
        0x76 => plain(4, &[HALT]),
        // MOV from M, to M, between registers
        0x46 | 0x4E | 0x56 | 0x5E | 0x66 | 0x6E | 0x7E => plain(4, &[READ_M]),
        0x70..=0x75 | 0x77 => plain(4, &[REGISTER_TO_M]),
        0x40..=0x7F => plain(5, &[]),
        // arithmetic with M, with a register, immediate
        0x86 | 0x8E | 0x96 | 0x9E | 0xA6 | 0xAE | 0xB6 | 0xBE => plain(4, &[READ_M]),
        0x80..=0xBF => plain(4, &[]),
        0xC6 | 0xCE | 0xD6 | 0xDE | 0xE6 | 0xEE | 0xF6 | 0xFE => plain(4, &[OPERAND]),
        // conditional RET, RET, POP
        0xC0 | 0xC8 | 0xD0 | 0xD8 | 0xE0 | 0xE8 | 0xF0 | 0xF8 => either(5, &[POP_LOW, POP_HIGH], 0),
        0xC9 | 0xC1 | 0xD1 | 0xE1 | 0xF1 => plain(4, &[POP_LOW, POP_HIGH]),
        // jumps; an untaken one still reads both address bytes
        0xC2 | 0xCA | 0xD2 | 0xDA | 0xE2 | 0xEA | 0xF2 | 0xFA | 0xC3 => plain(4, &[OPERAND, OPERAND]),
        // conditional CALL, CALL
        0xC4 | 0xCC | 0xD4 | 0xDC | 0xE4 | 0xEC | 0xF4 | 0xFC
            => either(5, &[OPERAND, OPERAND, PUSH_PC_HIGH, PUSH_PC_LOW], 2),
        0xCD => plain(5, &[OPERAND, OPERAND, PUSH_PC_HIGH, PUSH_PC_LOW]),
        // PUSH, RST
        0xC5 | 0xD5 | 0xE5 | 0xF5
            => plain(5, &[PUSH_HIGH, PUSH_LOW]),
        0xC7 | 0xCF | 0xD7 | 0xDF | 0xE7 | 0xEF | 0xF7 | 0xFF => plain(5, &[PUSH_PC_HIGH, PUSH_PC_LOW]),
        // OUT, IN
        0xD3 => plain(4, &[OPERAND, OUTPUT]),
        0xDB => plain(4, &[OPERAND, INPUT]),
        // XTHL, PCHL, SPHL
        0xE3 => plain(4, &[POP_LOW, POP_HIGH, EXCHANGE_HIGH, EXCHANGE_LOW]),
        0xE9 | 0xF9 => plain(5, &[]),
    }
}

/// Whether the condition in an opcode's middle digit holds: NZ, Z, NC, C, PO, PE, P, M.
pub fn condition(opcode: u8, flags: u8) -> bool {
    match (opcode >> 3) & 7 {
        0 => flags & ZERO == 0,
        1 => flags & ZERO != 0,
        2 => flags & CARRY == 0,
        3 => flags & CARRY != 0,
        4 => flags & EVEN == 0,
        5 => flags & EVEN != 0,
        6 => flags & SIGN == 0,
        _ => flags & SIGN != 0,
    }
}

/// The cycles after the fetch of an instruction, under these flags; none for an undefined opcode.
pub fn rest(opcode: u8, flags: u8) -> &'static [Cycle] {
    match instruction(opcode) {
        None => &[],
        Some(known) if condition(opcode, flags) => known.rest,
        Some(known) => &known.rest[..known.untaken],
    }
}

/// The status byte that stands in T1 of a cycle of this kind.
pub fn status(kind: u8) -> u8 {
    match kind {
        1 => 0xA2,
        2 => 0x82,
        3 => 0x00,
        4 => 0x86,
        5 => 0x04,
        6 => 0x42,
        7 => 0x10,
        8 => 0x23,
        9 => 0x8A,
        10 => 0x2B,
        _ => 0x00,
    }
}
