//! Arithmetic of the plain stepper: a byte and the flag byte S, Z, 0, AC, 0, P, 1, CY.

/// S, Z and P of a byte, and the bit that is always set.
fn szp(v: u8) -> u8 {
    v & 0x80 | u8::from(v == 0) << 6 | u8::from(v.count_ones() & 1 == 0) << 2 | 2
}

/// ADD, ADC, SUB, SBB, ANA, XRA, ORA, CMP for y from 0 to 7.
pub fn arithmetic(y: u8, a: u8, f: u8, v: u8) -> (u8, u8) {
    match y & 7 {
        0 | 1 => {
            let carry = u8::from(y & 7 == 1) & f & 1;
            let sum = u16::from(a) + u16::from(v) + u16::from(carry);
            let r = sum as u8;
            (r, szp(r) | (a ^ v ^ r) & 16 | (sum >> 8) as u8)
        }
        2 | 3 | 7 => {
            let borrow = u8::from(y & 7 == 3) & f & 1;
            let rest = u16::from(a)
                .wrapping_sub(u16::from(v))
                .wrapping_sub(u16::from(borrow));
            let r = rest as u8;
            let flags = szp(r) | !(a ^ v ^ r) & 16 | (rest >> 8) as u8 & 1;
            (if y & 7 == 7 { a } else { r }, flags)
        }
        4 => (a & v, szp(a & v) | ((a | v) & 8) << 1),
        5 => (a ^ v, szp(a ^ v)),
        _ => (a | v, szp(a | v)),
    }
}

pub fn inr(v: u8, f: u8) -> (u8, u8) {
    let r = v.wrapping_add(1);
    (r, szp(r) | f & 1 | u8::from(r & 15 == 0) << 4)
}

pub fn dcr(v: u8, f: u8) -> (u8, u8) {
    let r = v.wrapping_sub(1);
    (r, szp(r) | f & 1 | u8::from(r & 15 != 15) << 4)
}

/// RLC, RRC, RAL, RAR, DAA, CMA, STC, CMC for y from 0 to 7.
pub fn accumulator(y: u8, a: u8, f: u8) -> (u8, u8) {
    match y & 7 {
        0 => (a.rotate_left(1), f & !1 | a >> 7),
        1 => (a.rotate_right(1), f & !1 | a & 1),
        2 => (a << 1 | f & 1, f & !1 | a >> 7),
        3 => (a >> 1 | f << 7, f & !1 | a & 1),
        4 => daa(a, f),
        5 => (!a, f),
        6 => (a, f | 1),
        _ => (a, f ^ 1),
    }
}

fn daa(a: u8, f: u8) -> (u8, u8) {
    let low = a & 15 > 9 || f & 16 != 0;
    let high = a > 0x99 || f & 1 != 0;
    let addend = if low { 6 } else { 0 } + if high { 0x60 } else { 0 };
    let r = a.wrapping_add(addend);
    (r, szp(r) | (a ^ addend ^ r) & 16 | u8::from(high))
}

/// The condition y, from NZ to M.
pub fn met(f: u8, y: u8) -> bool {
    let flag = match y >> 1 {
        0 => f >> 6,
        1 => f,
        2 => f >> 2,
        _ => f >> 7,
    };
    flag & 1 == y & 1
}
