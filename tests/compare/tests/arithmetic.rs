//! The last state of every arithmetic instruction, for all bytes and the flags that count, on both sides.

use compare::model::flat::flatten;
use compare::model::record::{Machine, Next};
use compare::proved::Proved;
use compare::side::{Model, Side};

/// The flag bytes that differ in CY and AC, with S, Z and P down and up.
const FLAGS: [u8; 8] = [0x02, 0x03, 0x12, 0x13, 0xC6, 0xC7, 0xD6, 0xD7];

/// Does the last state of the machine's instruction on both sides; they must leave the same record.
fn last_state(m: &Machine) {
    let (mut mine, mut theirs) = (flatten(m), flatten(m));
    let numbers = (Model.step(&mut mine, 0), Proved.step(&mut theirs, 0));
    assert_eq!(numbers, (0, 0), "{m:02X?}");
    assert!(
        mine == theirs,
        "{m:02X?} gives {mine:02X?} and {theirs:02X?}"
    );
}

/// The instruction in the last state of its fetch.
fn in_fetch(opcode: u8, state: u8) -> Machine {
    Machine {
        opcode,
        next: Next::Later { cycle: 1, state },
        ..Machine::cold()
    }
}

/// ADD, ADC, SUB, SBB, ANA, XRA, ORA and CMP of B, for every A and B.
#[test]
fn operations() {
    for opcode in (0x80..=0xB8).step_by(8) {
        let mut m = in_fetch(opcode, 4);
        for (a, b) in (0..=255).flat_map(|a| (0..=255).map(move |b| (a, b))) {
            for flags in [0x02, 0xD7, 0x13] {
                (m.a, m.b, m.flags) = (a, b, flags);
                last_state(&m);
            }
        }
    }
}

/// The rotates, DAA, CMA, STC and CMC, INR A and DCR A, for every A.
#[test]
fn accumulator() {
    let rotates = (0x07..=0x3F).step_by(8).map(|opcode| in_fetch(opcode, 4));
    let counts = [0x3C, 0x3D].map(|opcode| in_fetch(opcode, 5));
    for mut m in rotates.chain(counts) {
        for (a, flags) in (0..=255).flat_map(|a| FLAGS.map(|flags| (a, flags))) {
            (m.a, m.flags) = (a, flags);
            last_state(&m);
        }
    }
}

/// INX, DCX and DAD of every pair, with both pairs at the edges of a byte and of a word.
#[test]
fn pairs() {
    const EDGES: [u16; 10] = [
        0, 1, 0xFF, 0x100, 0x7FFF, 0x8000, 0x8001, 0xFEFF, 0xFFFE, 0xFFFF,
    ];
    for opcode in 0..=0x3F {
        let place = match opcode & 0x0F {
            0x03 | 0x0B => Next::Later { cycle: 1, state: 5 },
            0x09 => Next::Later { cycle: 3, state: 3 },
            _ => continue,
        };
        for (x, y) in EDGES.iter().flat_map(|&x| EDGES.map(|y| (x, y))) {
            for flags in FLAGS {
                let ([d, e], [h, l]) = (x.to_be_bytes(), y.to_be_bytes());
                let (b, c, sp, next) = (d, e, x, place);
                let m = in_fetch(opcode, 5);
                last_state(&Machine {
                    b,
                    c,
                    d,
                    e,
                    h,
                    l,
                    sp,
                    flags,
                    next,
                    ..m
                });
            }
        }
    }
}
