//! The published 8080 instruction exerciser: its groups, their cases and its checksum.
//! tests/data/README.md says what a case is and how the checksum is made.

const GROUPS: &str = include_str!("../../data/exerciser.tsv");
const OPCODES: &str = include_str!("../../data/opcodes8080.tsv");

/// The opcode that no case may have.
const HLT: u8 = 0x76;

/// The 20 bytes of a case as the exerciser has them.
type Bytes = [u8; 20];

/// What a case starts from.
#[derive(Clone, Copy, Debug)]
pub struct Case {
    pub instruction: [u8; 4],
    /// Three words, of which the first is the operand.
    pub memory: [u8; 6],
    pub hl: u16,
    pub de: u16,
    pub bc: u16,
    /// The flag byte, whose fixed bits may be wrong.
    pub flags: u8,
    pub a: u8,
    pub sp: u16,
}

impl Case {
    fn of(b: Bytes) -> Case {
        let word = |at: usize| u16::from_le_bytes([b[at], b[at + 1]]);
        Case {
            instruction: [b[0], b[1], b[2], b[3]],
            memory: [b[4], b[5], b[6], b[7], b[8], b[9]],
            hl: word(10),
            de: word(12),
            bc: word(14),
            flags: b[16],
            a: b[17],
            sp: word(18),
        }
    }
}

/// What a case leaves, of which the checksum is made.
#[derive(Clone, Copy, Debug)]
pub struct Left {
    /// The first word of memory.
    pub memory: [u8; 2],
    pub hl: u16,
    pub de: u16,
    pub bc: u16,
    pub flags: u8,
    pub a: u8,
    pub sp: u16,
}

impl Left {
    fn bytes(self) -> [u8; 16] {
        let [m, n] = self.memory;
        let ([l, h], [e, d]) = (self.hl.to_le_bytes(), self.de.to_le_bytes());
        let ([c, b], [s, p]) = (self.bc.to_le_bytes(), self.sp.to_le_bytes());
        [m, n, l, h, l, h, l, h, e, d, c, b, self.flags, self.a, s, p]
    }
}

/// One group: an instruction or a few like ones, from many starting states.
pub struct Group {
    pub name: &'static str,
    base: Bytes,
    count: Bytes,
    shift: Bytes,
    /// The checksum that real chips give.
    pub published: u32,
}

impl Group {
    /// The group of a line of the table.
    fn of(line: &'static str) -> Group {
        let columns: Vec<&str> = line.split('\t').collect();
        Group {
            name: columns[0],
            base: bytes(columns[1]),
            count: bytes(columns[2]),
            shift: bytes(columns[3]),
            published: u32::from_str_radix(columns[4], 16).expect("a checksum in hex"),
        }
    }

    /// The cases in order. The first is the base itself.
    pub fn cases(&self) -> impl Iterator<Item = Case> + '_ {
        let (counted, shifted) = (places(&self.count), places(&self.shift));
        let counts = 1usize << counted.len();
        let numbers = 0..(shifted.len() + 1) * counts;
        numbers
            .map(move |number| {
                let (place, count) = (number / counts, number % counts);
                let flips = (0..counted.len()).filter(|i| count >> i & 1 == 1);
                let turned = shifted.get(place).filter(|_| number > 0);
                let flips = flips.map(|i| counted[i]).chain(turned.copied());
                flips.fold(self.base, flip)
            })
            .filter(|case| case[0] != HLT)
            .map(Case::of)
    }

    /// The checksum over what all cases leave, and how many there are.
    pub fn checksum(&self, mut leaves: impl FnMut(&Case) -> Left) -> (u32, usize) {
        self.cases().fold((0xFFFF_FFFF, 0), |(sum, cases), case| {
            let left = leaves(&case);
            (left.bytes().into_iter().fold(sum, crc), cases + 1)
        })
    }
}

/// All groups, in the table's order.
pub fn groups() -> Vec<Group> {
    GROUPS.lines().skip(1).map(Group::of).collect()
}

/// The states of each opcode's instruction, with its condition met.
pub fn states() -> Vec<u32> {
    let total = |line: &str| line.split('\t').nth(6).expect("a total").parse();
    let totals = OPCODES.lines().skip(1).map(total);
    totals.collect::<Result<_, _>>().expect("totals in decimal")
}

/// Bytes as the table writes them: each group of hex digits but the first is a number.
fn bytes(text: &str) -> Bytes {
    let mut all = Vec::new();
    for (i, digits) in text.split(' ').enumerate() {
        let mut part: Vec<u8> = (0..digits.len())
            .step_by(2)
            .map(|d| u8::from_str_radix(&digits[d..d + 2], 16).expect("two hex digits"))
            .collect();
        if i > 0 {
            part.reverse();
        }
        all.extend(part);
    }
    all.try_into().expect("20 bytes")
}

/// A bit of a case: its byte, and a mask.
type Place = (usize, u8);

/// The set bits of a mask, from the lowest bit of the first byte on.
fn places(mask: &Bytes) -> Vec<Place> {
    let all = (0..20).flat_map(|byte| (0..8).map(move |bit| (byte, 1 << bit)));
    all.filter(|&(byte, bit)| mask[byte] & bit != 0).collect()
}

/// The case with one bit turned over.
fn flip(mut case: Bytes, (byte, bit): Place) -> Bytes {
    case[byte] ^= bit;
    case
}

/// The CRC-32 register after one more byte.
fn crc(register: u32, byte: u8) -> u32 {
    register >> 8 ^ TABLE[usize::from(register as u8 ^ byte)]
}

/// What the register becomes of each byte alone.
static TABLE: [u32; 256] = table();

const fn table() -> [u32; 256] {
    let mut all = [0; 256];
    let mut byte = 0;
    while byte < 256 {
        all[byte] = shifted(byte as u32, 8);
        byte += 1;
    }
    all
}

/// The register after so many more bits, with the polynomial added where a one falls out.
const fn shifted(register: u32, bits: u32) -> u32 {
    if bits == 0 {
        return register;
    }
    let polynomial = if register & 1 == 1 { 0xEDB8_8320 } else { 0 };
    shifted(register >> 1 ^ polynomial, bits - 1)
}
