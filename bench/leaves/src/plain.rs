//! Ordinary Rust with the interface of the proved functions, to compare with. Each is a C function,
//! as those are, so that a call costs the same.

/// S, Z and P of each byte, with bit 1 that is always set.
static SZP: [u8; 256] = szp();

const fn szp() -> [u8; 256] {
    let mut table = [0; 256];
    let mut v = 0;
    while v < 256 {
        let zero = (v == 0) as u8;
        let even = ((v as u8).count_ones() % 2 == 0) as u8;
        table[v] = v as u8 & 0x80 | zero << 6 | even << 2 | 0x02;
        v += 1;
    }
    table
}

fn packed(value: u8, flags: u8) -> u16 {
    u16::from_le_bytes([value, flags])
}

/// A byte with its flags; ac is 10 or 0, cy is 1 or 0.
fn result(value: u8, ac: u8, cy: u8) -> u16 {
    packed(value, SZP[usize::from(value)] | ac | cy)
}

fn add(a: u8, b: u8, carry: u8) -> u16 {
    let sum = u16::from(a) + u16::from(b) + u16::from(carry);
    let value = sum as u8;
    result(value, (a ^ b ^ value) & 0x10, (sum >> 8) as u8)
}

fn sub(a: u8, b: u8, borrow: u8) -> u16 {
    let difference = u16::from(a)
        .wrapping_sub(u16::from(b))
        .wrapping_sub(u16::from(borrow));
    let value = difference as u8;
    result(value, !(a ^ b ^ value) & 0x10, (difference >> 15) as u8)
}

#[no_mangle]
#[inline(never)]
pub extern "C" fn plain_arithmetic(y: u8, a: u8, b: u8, f: u8) -> u16 {
    let carry = f & 1;
    match y {
        0 => add(a, b, 0),
        1 => add(a, b, carry),
        2 => sub(a, b, 0),
        3 => sub(a, b, carry),
        4 => result(a & b, ((a | b) & 8) << 1, 0),
        5 => result(a ^ b, 0, 0),
        6 => result(a | b, 0, 0),
        _ => sub(a, b, 0) & 0xFF00 | u16::from(a),
    }
}

fn daa(a: u8, f: u8) -> u16 {
    let six = if a & 15 > 9 || f & 0x10 != 0 { 6 } else { 0 };
    let high = a > 0x99 || f & 1 != 0;
    let value = a
        .wrapping_add(six)
        .wrapping_add(if high { 0x60 } else { 0 });
    let half = (a ^ six ^ a.wrapping_add(six)) & 0x10;
    result(value, half, u8::from(high))
}

#[no_mangle]
#[inline(never)]
pub extern "C" fn plain_accumulator(y: u8, a: u8, f: u8) -> u16 {
    let rest = f & 0xD4 | 0x02;
    let carry = f & 1;
    match y {
        0 => packed(a.rotate_left(1), rest | a >> 7),
        1 => packed(a.rotate_right(1), rest | a & 1),
        2 => packed(a << 1 | carry, rest | a >> 7),
        3 => packed(a >> 1 | carry << 7, rest | a & 1),
        4 => daa(a, f),
        5 => packed(!a, rest | carry),
        6 => packed(a, rest | 1),
        _ => packed(a, rest | carry ^ 1),
    }
}

#[no_mangle]
#[inline(never)]
pub extern "C" fn plain_inr(v: u8, f: u8) -> u16 {
    let value = v.wrapping_add(1);
    let half = if value & 15 == 0 { 0x10 } else { 0 };
    result(value, half, f & 1)
}

#[no_mangle]
#[inline(never)]
pub extern "C" fn plain_code(p: u64, c: u8) -> u8 {
    match c {
        1..=5 => (p >> (48 - 8 * c)) as u8,
        _ => 0,
    }
}

/// The kind of a cycle that reads, by the code's first digit.
static READS: [u8; 16] = [0, 1, 2, 2, 2, 2, 2, 4, 4, 4, 4, 6, 9, 11, 0, 0];

#[no_mangle]
#[inline(never)]
pub extern "C" fn plain_kind(code: u8) -> u8 {
    let writes = (0x20..0xC0).contains(&code) && code & 15 != 0;
    READS[usize::from(code >> 4)] + u8::from(writes)
}

#[no_mangle]
#[inline(never)]
pub extern "C" fn plain_states(code: u8) -> u8 {
    match code {
        0x10..=0x1F => code & 15,
        0x7C => 5,
        _ => 3,
    }
}
