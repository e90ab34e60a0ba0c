//! What the plain stepper looks up: the cycles of each opcode, their kinds and status bytes.
//!
//! A cycle has a code of 5 bits: 1 operand, 2 and 3 read and write by a register pair, 4 and 5 read
//! at the operand word and after it, 6 and 7 write there, 8 and 9 read at SP and SP + 1, 10 and 11
//! write at SP - 1 and SP - 2, 12 input, 13 output, 14 halt, 15 DAD, 16 and 17 the writes of XTHL,
//! 18 fetch, 19 acknowledge, 20 acknowledge in a halt.

/// The states of the fetch in the low 5 bits, then the codes of the later cycles; 0: undefined.
pub static PLAN: [u32; 256] = plans();

/// The kind of a cycle by its code.
pub static KIND: [u8; 32] = [
    0, 2, 2, 3, 2, 2, 3, 3, 4, 4, 5, 5, 6, 7, 9, 11, 5, 5, 1, 8, 10, 0, 0, 0, 0, 0, 0, 0, 0, 0, 0,
    0,
];

/// The status byte of a cycle by its kind.
pub static STATUS: [u8; 16] = [
    0, 0xA2, 0x82, 0, 0x86, 4, 0x42, 0x10, 0x23, 0x8A, 0x2B, 0, 0, 0, 0, 0,
];

const fn plans() -> [u32; 256] {
    let mut table = [0; 256];
    let mut op = 0;
    while op < 256 {
        table[op] = plan(op as u8);
        op += 1;
    }
    table
}

const fn pack(fetch: u32, a: u32, b: u32, c: u32, d: u32) -> u32 {
    fetch | a << 5 | b << 10 | c << 15 | d << 20
}

const fn undefined(op: u8) -> bool {
    matches!(
        op,
        0x08 | 0x10 | 0x18 | 0x20 | 0x28 | 0x30 | 0x38 | 0xCB | 0xD9 | 0xDD | 0xED | 0xFD
    )
}

const fn plan(op: u8) -> u32 {
    if undefined(op) {
        return 0;
    }
    let y = op >> 3 & 7;
    let z = op & 7;
    match op >> 6 {
        0 => low(y, z),
        1 if op == 0x76 => pack(4, 14, 0, 0, 0),
        1 if z == 6 => pack(4, 2, 0, 0, 0),
        1 if y == 6 => pack(4, 3, 0, 0, 0),
        1 => pack(5, 0, 0, 0, 0),
        2 if z == 6 => pack(4, 2, 0, 0, 0),
        2 => pack(4, 0, 0, 0, 0),
        _ => high(y, z),
    }
}

/// Opcodes below hex 40.
const fn low(y: u8, z: u8) -> u32 {
    match z {
        1 if y & 1 == 0 => pack(4, 1, 1, 0, 0),
        1 => pack(4, 15, 15, 0, 0),
        2 => match y {
            0 | 2 => pack(4, 3, 0, 0, 0),
            1 | 3 => pack(4, 2, 0, 0, 0),
            4 => pack(4, 1, 1, 6, 7),
            5 => pack(4, 1, 1, 4, 5),
            6 => pack(4, 1, 1, 6, 0),
            _ => pack(4, 1, 1, 4, 0),
        },
        3 => pack(5, 0, 0, 0, 0),
        4 | 5 if y == 6 => pack(4, 2, 3, 0, 0),
        4 | 5 => pack(5, 0, 0, 0, 0),
        6 if y == 6 => pack(4, 1, 3, 0, 0),
        6 => pack(4, 1, 0, 0, 0),
        _ => pack(4, 0, 0, 0, 0),
    }
}

/// Opcodes from hex C0 on.
const fn high(y: u8, z: u8) -> u32 {
    match z {
        0 => pack(5, 8, 9, 0, 0),
        1 if y == 5 || y == 7 => pack(5, 0, 0, 0, 0),
        1 => pack(4, 8, 9, 0, 0),
        2 => pack(4, 1, 1, 0, 0),
        3 => match y {
            0 => pack(4, 1, 1, 0, 0),
            2 => pack(4, 1, 13, 0, 0),
            3 => pack(4, 1, 12, 0, 0),
            4 => pack(4, 8, 9, 16, 17),
            _ => pack(4, 0, 0, 0, 0),
        },
        4 => pack(5, 1, 1, 10, 11),
        5 if y & 1 == 0 => pack(5, 10, 11, 0, 0),
        5 => pack(5, 1, 1, 10, 11),
        6 => pack(4, 1, 0, 0, 0),
        _ => pack(5, 10, 11, 0, 0),
    }
}
