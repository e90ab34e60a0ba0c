//! The opcode lookups against tests/data/opcodes8080.tsv and document 01's tables.

use leaves::{code, count, defined, entry, kind, met, states, status};

const TABLE: &str = include_str!("../../data/opcodes8080.tsv");

/// What one line of the table says of the cycles: kinds, states and their total.
struct Cycles {
    kinds: Vec<u8>,
    states: Vec<u8>,
    total: u32,
}

fn numbers(text: &str) -> Vec<u8> {
    text.split(',').map(|n| n.parse().unwrap()).collect()
}

fn cycles(columns: &[&str]) -> Cycles {
    Cycles {
        kinds: numbers(columns[0]),
        states: numbers(columns[1]),
        total: columns[2].parse().unwrap(),
    }
}

fn assert_cycles(op: u8, taken: bool, expected: &Cycles) {
    let p = entry(op);
    let codes: Vec<u8> = (1..=count(p, taken)).map(|c| code(p, c)).collect();
    let kinds: Vec<u8> = codes.iter().map(|&c| kind(c)).collect();
    let lengths: Vec<u8> = codes.iter().map(|&c| states(c)).collect();
    let total: u32 = lengths.iter().map(|&n| u32::from(n)).sum();
    assert_eq!(kinds, expected.kinds, "kinds of {op:02X}, taken {taken}");
    assert_eq!(
        lengths, expected.states,
        "states of {op:02X}, taken {taken}"
    );
    assert_eq!(total, expected.total, "total of {op:02X}, taken {taken}");
}

/// No cycle stands before the first or after the last.
fn assert_no_more(op: u8) {
    let p = entry(op);
    let last = count(p, true);
    for c in (0..=255).filter(|&c| c == 0 || c > last) {
        assert_eq!(code(p, c), 0, "cycle {c} of {op:02X}");
    }
}

/// An undefined opcode has no cycles: what the table lists for it is the fetch that finds it.
fn assert_undefined(op: u8) {
    let p = entry(op);
    assert!(!defined(p), "{op:02X} is undefined");
    assert_eq!(
        (count(p, true), count(p, false)),
        (0, 0),
        "cycles of {op:02X}"
    );
}

#[test]
fn all_opcodes() {
    let mut seen = 0;
    for (i, line) in TABLE.lines().skip(1).enumerate() {
        let columns: Vec<&str> = line.split('\t').collect();
        let op = u8::from_str_radix(columns[0], 16).unwrap();
        assert_eq!(usize::from(op), i);
        assert_no_more(op);
        if columns[3] == "0" {
            assert_undefined(op);
        } else {
            assert!(defined(entry(op)), "{op:02X} is defined");
            let untaken = if columns[7].is_empty() { 4 } else { 7 };
            assert_cycles(op, true, &cycles(&columns[4..7]));
            assert_cycles(op, false, &cycles(&columns[untaken..untaken + 3]));
        }
        seen += 1;
    }
    assert_eq!(seen, 256);
}

#[test]
fn twelve_are_undefined() {
    let undefined: Vec<u8> = (0..=255).filter(|&op| !defined(entry(op))).collect();
    let listed = [
        0x08, 0x10, 0x18, 0x20, 0x28, 0x30, 0x38, 0xCB, 0xD9, 0xDD, 0xED, 0xFD,
    ];
    assert_eq!(undefined, listed);
}

/// Document 01, "Cycles": the status byte of kinds 1 to 11.
#[test]
fn status_of_every_kind() {
    let listed = [
        0xA2, 0x82, 0x00, 0x86, 0x04, 0x42, 0x10, 0x23, 0x8A, 0x2B, 0x00,
    ];
    for k in 0..=255u8 {
        let expected = usize::from(k)
            .checked_sub(1)
            .and_then(|i| listed.get(i).copied());
        assert_eq!(status(k), expected.unwrap_or(0), "status of kind {k}");
    }
}

/// Whether a condition is met, from its number in the opcode and the flag byte.
fn expected_met(condition: u8, f: u8) -> bool {
    let s = f & 0x80 != 0;
    let z = f & 0x40 != 0;
    let p = f & 0x04 != 0;
    let cy = f & 0x01 != 0;
    match condition {
        0 => !z,  // NZ
        1 => z,   // Z
        2 => !cy, // NC
        3 => cy,  // C
        4 => !p,  // PO
        5 => p,   // PE
        6 => !s,  // P
        7 => s,   // M
        _ => unreachable!(),
    }
}

#[test]
fn conditions_at_every_flag_byte() {
    for op in 0..=255u8 {
        for f in 0..=255u8 {
            assert_eq!(
                met(op, f),
                expected_met(op >> 3 & 7, f),
                "opcode {op:02X}, flags {f:02X}"
            );
        }
    }
}
