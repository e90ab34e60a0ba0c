//! The flag byte, taken apart.

/// The five flags: sign, zero, half carry, parity, carry, by Intel's letters.
///
/// ```
/// use fezgandom::Flags;
///
/// let flags = Flags { z: true, p: true, ..Flags::default() };
/// assert_eq!(flags.byte(), 0x46);
/// assert_eq!(Flags::from_byte(0x46), flags);
/// assert_eq!(flags.to_string(), "-Z-P-");
/// ```
#[derive(Clone, Copy, Debug, Default, PartialEq, Eq)]
pub struct Flags {
    /// Sign: bit 7 of the result.
    pub s: bool,
    /// The result is zero.
    pub z: bool,
    /// Half carry, out of bit 3.
    pub ac: bool,
    /// The result has an even number of ones.
    pub p: bool,
    /// Carry, or the borrow of a subtraction.
    pub cy: bool,
}

impl Flags {
    /// The flags of a byte with the bits S, Z, 0, AC, 0, P, 1, CY; the fixed bits are not looked at.
    pub const fn from_byte(byte: u8) -> Flags {
        Flags {
            s: byte & 0x80 != 0,
            z: byte & 0x40 != 0,
            ac: byte & 0x10 != 0,
            p: byte & 0x04 != 0,
            cy: byte & 0x01 != 0,
        }
    }

    /// The flag byte, fixed bits included.
    pub const fn byte(self) -> u8 {
        (self.s as u8) << 7
            | (self.z as u8) << 6
            | (self.ac as u8) << 4
            | (self.p as u8) << 2
            | 0x02
            | self.cy as u8
    }
}

/// A letter for each flag that is set, in the byte's order, and `-` for the others.
impl std::fmt::Display for Flags {
    fn fmt(&self, f: &mut std::fmt::Formatter<'_>) -> std::fmt::Result {
        let letters = [
            (self.s, "S"),
            (self.z, "Z"),
            (self.ac, "A"),
            (self.p, "P"),
            (self.cy, "C"),
        ];
        letters
            .iter()
            .try_for_each(|&(set, letter)| f.write_str(if set { letter } else { "-" }))
    }
}
