//! The published 8080 instruction exerciser over the leaf functions: the groups that are arithmetic
//! alone. tests/data/README.md says what a case is and how the checksum is made.

use leaves::{accumulator, arithmetic, dad, dcr, down, inr, up, Flagged};

const TABLE: &str = include_str!("../../data/exerciser.tsv");

/// The groups that must give the published checksum, with the number of their cases.
const HELD: [(&str, usize); 16] = [
    ("dad <b,d,h,sp>", 36_352),
    ("aluop nn", 30_720),
    ("<daa,cma,stc,cmc>", 65_536),
    ("<inr,dcr> a", 3_584),
    ("<inr,dcr> b", 3_584),
    ("<inr,dcr> c", 3_584),
    ("<inr,dcr> d", 3_584),
    ("<inr,dcr> e", 3_584),
    ("<inr,dcr> h", 3_584),
    ("<inr,dcr> l", 3_584),
    ("<inr,dcr> m", 3_584),
    ("<inx,dcx> b", 1_792),
    ("<inx,dcx> d", 1_792),
    ("<inx,dcx> h", 1_792),
    ("<inx,dcx> sp", 1_792),
    ("<rlc,rrc,ral,rar>", 7_168),
];

/// A case: four instruction bytes, then three words of memory, HL, DE, BC, flags, A and SP.
type State = [u8; 20];
const MEMORY: usize = 4;
const HL: usize = 10;
const DE: usize = 12;
const BC: usize = 14;
const F: usize = 16;
const A: usize = 17;
const SP: usize = 18;

/// Where the registers B C D E H L M A and the pairs BC DE HL SP stand in a state.
const REGISTERS: [usize; 8] = [BC + 1, BC, DE + 1, DE, HL + 1, HL, MEMORY, A];
const PAIRS: [usize; 4] = [BC, DE, HL, SP];

fn word(s: &State, at: usize) -> u16 {
    u16::from_le_bytes([s[at], s[at + 1]])
}

fn set_word(s: &mut State, at: usize, x: u16) {
    s[at..at + 2].copy_from_slice(&x.to_le_bytes());
}

fn set_flagged(s: &mut State, at: usize, x: Flagged) {
    s[at] = x.value;
    s[F] = x.flags;
}

/// Does the one instruction of a case.
fn step(s: &mut State) {
    let op = s[0];
    let (y, z) = (op >> 3 & 7, op & 7);
    let (a, f) = (s[A], s[F]);
    let register = REGISTERS[usize::from(y)];
    let pair = PAIRS[usize::from(y >> 1)];
    match (op >> 6, z) {
        (0, 1) if y % 2 == 1 => {
            let (sum, carry) = dad(word(s, HL), word(s, pair));
            set_word(s, HL, sum);
            s[F] = f & !1 | u8::from(carry);
        }
        (0, 3) if y % 2 == 0 => set_word(s, pair, up(word(s, pair), 1)),
        (0, 3) => set_word(s, pair, down(word(s, pair), 1)),
        (0, 4 | 5) => {
            assert!(y != 6 || word(s, HL) == 0x0103, "M is the memory operand");
            let count = if z == 4 { inr } else { dcr };
            set_flagged(s, register, count(s[register], f));
        }
        (0, 7) => set_flagged(s, A, accumulator(y, a, f)),
        (3, 6) => set_flagged(s, A, arithmetic(y, a, s[1], f)),
        _ => panic!("{op:02X} is in no group that is done here"),
    }
}

struct Group {
    base: State,
    count: State,
    shift: State,
    published: u32,
}

/// A state as the table writes it: each group of hex digits but the first is a number.
fn state(text: &str) -> State {
    let mut bytes = Vec::new();
    for (i, digits) in text.split(' ').enumerate() {
        let mut part: Vec<u8> = (0..digits.len())
            .step_by(2)
            .map(|d| u8::from_str_radix(&digits[d..d + 2], 16).unwrap())
            .collect();
        if i > 0 {
            part.reverse();
        }
        bytes.extend(part);
    }
    bytes.try_into().unwrap()
}

fn group(name: &str) -> Group {
    let line = TABLE
        .lines()
        .find(|l| l.split('\t').next() == Some(name))
        .unwrap();
    let columns: Vec<&str> = line.split('\t').collect();
    Group {
        base: state(columns[1]),
        count: state(columns[2]),
        shift: state(columns[3]),
        published: u32::from_str_radix(columns[4], 16).unwrap(),
    }
}

/// The set bits of a mask, as byte and bit, from the lowest bit of the first byte on.
fn places(mask: &State) -> Vec<(usize, u8)> {
    let all = (0..20).flat_map(|byte| (0..8).map(move |bit| (byte, 1 << bit)));
    all.filter(|&(byte, bit)| mask[byte] & bit != 0).collect()
}

/// All cases of a group, in order. The first is the base itself.
fn cases(g: &Group) -> Vec<State> {
    let (counted, shifted) = (places(&g.count), places(&g.shift));
    let mut all = Vec::new();
    for p in 0..=shifted.len() {
        for c in 0..1usize << counted.len() {
            let mut s = g.base;
            for (i, &(byte, bit)) in counted.iter().enumerate() {
                if c >> i & 1 == 1 {
                    s[byte] ^= bit;
                }
            }
            let is_base = all.is_empty();
            if !is_base && p < shifted.len() {
                let (byte, bit) = shifted[p];
                s[byte] ^= bit;
            }
            all.push(s);
        }
    }
    all
}

fn crc(mut register: u32, byte: u8) -> u32 {
    register ^= u32::from(byte);
    for _ in 0..8 {
        register = register >> 1 ^ if register & 1 == 1 { 0xEDB8_8320 } else { 0 };
    }
    register
}

/// The checksum over the states after all cases, and how many cases there were.
fn checksum(g: &Group) -> (u32, usize) {
    let all = cases(g);
    let mut sum = 0xFFFF_FFFF;
    for case in &all {
        let mut s = *case;
        s[F] = s[F] & 0xD7 | 0x02;
        step(&mut s);
        let (memory, hl) = (&s[MEMORY..MEMORY + 2], &s[HL..HL + 2]);
        let after = [memory, hl, hl, &s[HL..]].concat();
        sum = after.into_iter().fold(sum, crc);
    }
    (sum, all.len())
}

#[test]
fn groups_give_the_published_checksum() {
    for (name, number) in HELD {
        let g = group(name);
        let (sum, cases) = checksum(&g);
        assert_eq!(cases, number, "cases of {name}");
        assert_eq!(
            sum, g.published,
            "{name}: {sum:08x}, published {:08x}",
            g.published
        );
    }
}
