//! The arithmetic at every input, against a plain model of document 01, "Arithmetic points", and change request W2.

use leaves::{accumulator, arithmetic, dad, dcr, down, inr, up, Flagged};

const CY: u8 = 0x01;
const AC: u8 = 0x10;
const P: u8 = 0x04;
const Z: u8 = 0x40;
const S: u8 = 0x80;

/// A byte with S, Z and P of its value.
fn flagged(value: u8, ac: bool, cy: bool) -> Flagged {
    let mut flags = 0x02;
    for (bit, set) in [
        (S, value >= 0x80),
        (Z, value == 0),
        (AC, ac),
        (P, value.count_ones() % 2 == 0),
        (CY, cy),
    ] {
        if set {
            flags |= bit;
        }
    }
    Flagged { value, flags }
}

/// The flags f with the fixed bits forced and another CY.
fn with_cy(f: u8, cy: bool) -> u8 {
    f & (S | Z | AC | P) | 0x02 | u8::from(cy)
}

/// The carry out of bit 3 of a sum: bit 4 of the sum differs from what the operands alone give.
fn carry_of_bit_3(a: u8, b: u8, sum: u8) -> bool {
    (a ^ b ^ sum) & 0x10 != 0
}

fn add(a: u8, b: u8, cy: bool) -> Flagged {
    let sum = u32::from(a) + u32::from(b) + u32::from(cy);
    flagged(sum as u8, carry_of_bit_3(a, b, sum as u8), sum > 0xFF)
}

/// "Add the complement and 1 (SBB and SBI: 1 less CY): AC is the carry out of bit 3 of that sum,
/// CY is the borrow."
fn sub(a: u8, b: u8, cy: bool) -> Flagged {
    let difference = i32::from(a) - i32::from(b) - i32::from(cy);
    flagged(
        difference as u8,
        carry_of_bit_3(a, !b, difference as u8),
        difference < 0,
    )
}

/// "AC after AND on the 8080 is the OR of bit 3 of both operands."
fn and(a: u8, b: u8) -> Flagged {
    flagged(a & b, (a | b) & 0x08 != 0, false)
}

fn expected_arithmetic(y: u8, a: u8, b: u8, cy: bool) -> Flagged {
    match y {
        0 => add(a, b, false),
        1 => add(a, b, cy),
        2 => sub(a, b, false),
        3 => sub(a, b, cy),
        4 => and(a, b),
        5 => flagged(a ^ b, false, false),
        6 => flagged(a | b, false, false),
        _ => Flagged {
            value: a,
            ..sub(a, b, false)
        },
    }
}

/// "DAA adds 6 if the low digit exceeds 9 or AC is set, then 96 if the old A exceeds hex 99 or CY
/// was set; CY then is set exactly in the second case, AC is the carry out of bit 3."
fn daa(a: u8, f: u8) -> Flagged {
    let six = if a & 0x0F > 9 || f & AC != 0 { 6 } else { 0 };
    let high = a > 0x99 || f & CY != 0;
    let first = a.wrapping_add(six);
    let value = if high { first.wrapping_add(96) } else { first };
    flagged(value, carry_of_bit_3(a, six, first), high)
}

fn expected_accumulator(y: u8, a: u8, f: u8) -> Flagged {
    let cy = f & CY != 0;
    let kept = |value, cy| Flagged {
        value,
        flags: with_cy(f, cy),
    };
    match y {
        0 => kept(a.rotate_left(1), a >= 0x80),
        1 => kept(a.rotate_right(1), a % 2 == 1),
        2 => kept(a << 1 | u8::from(cy), a >= 0x80),
        3 => kept(a >> 1 | u8::from(cy) << 7, a % 2 == 1),
        4 => daa(a, f),
        5 => kept(!a, cy),
        6 => kept(a, true),
        _ => kept(a, !cy),
    }
}

/// Every y, a and b with CY off and on; y past 7 is as 7.
#[test]
fn arithmetic_at_every_y_a_b_and_carry() {
    for y in 0..=255u8 {
        for a in 0..=255u8 {
            for b in 0..=255u8 {
                for f in [0x02, 0x03] {
                    let expected = expected_arithmetic(y, a, b, f & CY != 0);
                    assert_eq!(
                        arithmetic(y, a, b, f),
                        expected,
                        "{y}: {a:02X}, {b:02X}, flags {f:02X}"
                    );
                }
            }
        }
    }
}

/// Only the CY of the flags from before counts.
#[test]
fn arithmetic_at_every_flag_byte() {
    for y in 0..8 {
        for a in 0..=255u8 {
            for b in 0..=255u8 {
                let expected = [false, true].map(|cy| expected_arithmetic(y, a, b, cy));
                for f in 0..=255u8 {
                    let now = expected[usize::from(f & CY)];
                    assert_eq!(
                        arithmetic(y, a, b, f),
                        now,
                        "{y}: {a:02X}, {b:02X}, flags {f:02X}"
                    );
                }
            }
        }
    }
}

#[test]
fn accumulator_at_every_input() {
    for y in 0..=255u8 {
        for a in 0..=255u8 {
            for f in 0..=255u8 {
                let expected = expected_accumulator(y, a, f);
                assert_eq!(
                    accumulator(y, a, f),
                    expected,
                    "y {y}, A {a:02X}, flags {f:02X}"
                );
            }
        }
    }
}

/// "INR and DCR keep CY."
#[test]
fn inr_and_dcr_at_every_input() {
    for v in 0..=255u8 {
        for f in 0..=255u8 {
            let mut more = add(v, 1, false);
            more.flags = with_cy(more.flags, f & CY != 0);
            assert_eq!(inr(v, f), more, "INR {v:02X}, flags {f:02X}");
            let mut less = sub(v, 1, false);
            less.flags = with_cy(less.flags, f & CY != 0);
            assert_eq!(dcr(v, f), less, "DCR {v:02X}, flags {f:02X}");
        }
    }
}

fn assert_words(x: u16, n: u16) {
    let whole = u32::from(x) + u32::from(n);
    assert_eq!(
        dad(x, n),
        (whole as u16, whole > 0xFFFF),
        "DAD {x:04X} {n:04X}"
    );
    assert_eq!(up(x, n), (whole % 65_536) as u16, "{x:04X} + {n:04X}");
    assert_eq!(down(x, n), x.wrapping_sub(n), "{x:04X} - {n:04X}");
}

const CORNERS: [u16; 11] = [
    0, 1, 2, 0xFF, 0x100, 0x7FFF, 0x8000, 0x8001, 0xFF00, 0xFFFE, 0xFFFF,
];

/// Every number with every corner, in both orders.
#[test]
fn words_at_the_corners() {
    for corner in CORNERS {
        for x in 0..=0xFFFFu16 {
            assert_words(x, corner);
            assert_words(corner, x);
        }
    }
}

#[test]
fn words_at_four_million_pairs() {
    let mut seed = 0x2545_F491_4F6C_DD1Du64;
    for _ in 0..4_000_000 {
        seed ^= seed << 13;
        seed ^= seed >> 7;
        seed ^= seed << 17;
        assert_words((seed >> 48) as u16, (seed >> 32) as u16);
    }
}
