//! The proved functions of `crates/leaves`, for Rust to call.
//! A flag byte has the bits S, Z, 0, AC, 0, P, 1, CY.

/// The functions as they are exported. Each is proved for all arguments, so every call is safe.
pub mod raw {
    unsafe extern "C" {
        pub safe fn leaf_arithmetic(y: u8, a: u8, b: u8, f: u8) -> u16;
        pub safe fn leaf_accumulator(y: u8, a: u8, f: u8) -> u16;
        pub safe fn leaf_inr(v: u8, f: u8) -> u16;
        pub safe fn leaf_dcr(v: u8, f: u8) -> u16;
        pub safe fn leaf_dad(h: u16, x: u16) -> u32;
        pub safe fn leaf_up(x: u16, n: u16) -> u16;
        pub safe fn leaf_down(x: u16, n: u16) -> u16;
        pub safe fn leaf_entry(op: u8) -> u64;
        pub safe fn leaf_code(p: u64, c: u8) -> u8;
        pub safe fn leaf_count(p: u64, met: bool) -> u8;
        pub safe fn leaf_defined(p: u64) -> bool;
        pub safe fn leaf_kind(code: u8) -> u8;
        pub safe fn leaf_status(kind: u8) -> u8;
        pub safe fn leaf_states(code: u8) -> u8;
        pub safe fn leaf_met(op: u8, f: u8) -> bool;
    }
}

pub use raw::leaf_code as code;
pub use raw::leaf_count as count;
pub use raw::leaf_defined as defined;
pub use raw::leaf_down as down;
pub use raw::leaf_entry as entry;
pub use raw::leaf_kind as kind;
pub use raw::leaf_met as met;
pub use raw::leaf_states as states;
pub use raw::leaf_status as status;
pub use raw::leaf_up as up;

/// A byte and the flag byte after it was made.
#[derive(Clone, Copy, Debug, PartialEq, Eq)]
pub struct Flagged {
    pub value: u8,
    pub flags: u8,
}

impl Flagged {
    /// The answer of a leaf taken apart: the byte, and 256 times the flag byte.
    fn unpack(answer: u16) -> Flagged {
        let [value, flags] = answer.to_le_bytes();
        Flagged { value, flags }
    }
}

/// ADD, ADC, SUB, SBB, ANA, XRA, ORA, CMP for y from 0 to 7.
pub fn arithmetic(y: u8, a: u8, b: u8, f: u8) -> Flagged {
    Flagged::unpack(raw::leaf_arithmetic(y, a, b, f))
}

/// RLC, RRC, RAL, RAR, DAA, CMA, STC, CMC for y from 0 to 7.
pub fn accumulator(y: u8, a: u8, f: u8) -> Flagged {
    Flagged::unpack(raw::leaf_accumulator(y, a, f))
}

pub fn inr(v: u8, f: u8) -> Flagged {
    Flagged::unpack(raw::leaf_inr(v, f))
}

pub fn dcr(v: u8, f: u8) -> Flagged {
    Flagged::unpack(raw::leaf_dcr(v, f))
}

/// The sum of two register pairs, and its carry.
pub fn dad(h: u16, x: u16) -> (u16, bool) {
    let answer = raw::leaf_dad(h, x);
    (answer as u16, answer >> 16 == 1)
}
