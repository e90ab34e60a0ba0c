//! Document 01, "Arithmetic points", and change request W2. A flag byte has the bits S, Z, 0, AC, 0, P, 1, CY.

pub const SIGN: u8 = 0x80;
pub const ZERO: u8 = 0x40;
pub const HALF: u8 = 0x10;
pub const EVEN: u8 = 0x04;
pub const FIXED: u8 = 0x02;
pub const CARRY: u8 = 0x01;

/// The bits that never change, 5, 3 and 1.
pub const FIXED_BITS: u8 = 0x2A;

/// A byte and the flag byte that goes with it.
type Flagged = (u8, u8);

/// A flag byte with the fixed bits as they must be.
pub fn with_fixed_bits(flags: u8) -> u8 {
    (flags & !FIXED_BITS) | FIXED
}

/// The flag byte of a result with these two carries.
fn flags_of(byte: u8, half: bool, carry: bool) -> u8 {
    let mut flags = FIXED | (byte & SIGN);
    if byte == 0 {
        flags |= ZERO;
    }
    if byte.count_ones() % 2 == 0 {
        flags |= EVEN;
    }
    if half {
        flags |= HALF;
    }
    if carry {
        flags |= CARRY;
    }
    flags
}

/// The sum of two bytes and a carry.
fn add(a: u8, b: u8, carry: u8) -> Flagged {
    let half = (a & 15) + (b & 15) + carry > 15;
    let sum = u16::from(a) + u16::from(b) + u16::from(carry);
    let byte = (sum & 255) as u8;
    (byte, flags_of(byte, half, sum > 255))
}

/// A byte less another and a borrow. AC comes from the sum with the complement, CY is the borrow.
fn subtract(a: u8, b: u8, borrow: u8) -> Flagged {
    let half = (a & 15) + (!b & 15) + (1 - borrow) > 15;
    let byte = a.wrapping_sub(b).wrapping_sub(borrow);
    let owed = u16::from(a) < u16::from(b) + u16::from(borrow);
    (byte, flags_of(byte, half, owed))
}

/// ADD, ADC, SUB, SBB, ANA, XRA, ORA and CMP, by number: the new A and flag byte.
pub fn operate(number: u8, a: u8, b: u8, flags: u8) -> Flagged {
    let carry = flags & CARRY;
    let logic = |byte: u8, half: bool| (byte, flags_of(byte, half, false));
    match number & 7 {
        0 => add(a, b, 0),
        1 => add(a, b, carry),
        2 => subtract(a, b, 0),
        3 => subtract(a, b, carry),
        4 => logic(a & b, (a | b) & 8 != 0),
        5 => logic(a ^ b, false),
        6 => logic(a | b, false),
        _ => (a, subtract(a, b, 0).1),
    }
}

/// INR: one more, with the old CY.
pub fn increment(byte: u8, flags: u8) -> Flagged {
    let (more, new) = add(byte, 1, 0);
    (more, (new & !CARRY) | (flags & CARRY))
}

/// DCR: one less, with the old CY.
pub fn decrement(byte: u8, flags: u8) -> Flagged {
    let (less, new) = subtract(byte, 1, 0);
    (less, (new & !CARRY) | (flags & CARRY))
}

/// DAD: the sum of two pairs, of whose flags only CY counts.
pub fn add_pairs(x: u16, y: u16, flags: u8) -> (u16, u8) {
    let (sum, carry) = x.overflowing_add(y);
    (sum, with_carry(flags, carry))
}

/// A flag byte with another CY.
fn with_carry(flags: u8, carry: bool) -> u8 {
    (flags & !CARRY) | u8::from(carry)
}

/// RLC, RRC, RAL, RAR, DAA, CMA, STC and CMC, by number: the new A and flag byte.
pub fn adjust(number: u8, a: u8, flags: u8) -> Flagged {
    let carry = flags & CARRY;
    match number & 7 {
        0 => (a.rotate_left(1), with_carry(flags, a >= 128)),
        1 => (a.rotate_right(1), with_carry(flags, a % 2 == 1)),
        2 => ((a << 1) | carry, with_carry(flags, a >= 128)),
        3 => ((a >> 1) | (carry << 7), with_carry(flags, a % 2 == 1)),
        4 => decimal(a, flags),
        5 => (!a, flags),
        6 => (a, with_carry(flags, true)),
        _ => (a, with_carry(flags, carry == 0)),
    }
}

/// DAA: 6 for the low digit, then 96 for the high one, by the old A and flags.
fn decimal(a: u8, flags: u8) -> Flagged {
    let low = if a % 16 > 9 || flags & HALF != 0 {
        6
    } else {
        0
    };
    let carry = a > 0x99 || flags & CARRY != 0;
    let high = if carry { 96 } else { 0 };
    let byte = a.wrapping_add(low).wrapping_add(high);
    (byte, flags_of(byte, a % 16 + low > 15, carry))
}
