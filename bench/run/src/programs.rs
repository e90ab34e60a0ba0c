//! The programs that are measured, as 65,536 bytes of memory.

const SUBROUTINE: [u8; 9] = [0xF5, 0x7E, 0x0F, 0xD2, 0x07, 0x30, 0x00, 0xF1, 0xC9];

/// The memory of a program: `mix`, `dcr` or `int`.
pub fn program(name: &str) -> Vec<u8> {
    let mut memory = vec![0; 65_536];
    match name {
        "mix" => put(&mut memory, 0, &mixed()),
        "dcr" => put(&mut memory, 0, &nested_loops()),
        "int" => copying_loop(&mut memory),
        _ => panic!("a program is mix, dcr or int"),
    }
    put(&mut memory, 0x3000, &SUBROUTINE);
    memory
}

fn put(memory: &mut [u8], at: usize, bytes: &[u8]) {
    memory[at..at + bytes.len()].copy_from_slice(bytes);
}

/// DCR and JNZ, four loops deep.
fn nested_loops() -> Vec<u8> {
    vec![
        0x1E, 0, 0x16, 0, 0x0E, 0, 0x06, 0, 0x05, 0xC2, 8, 0, 0x0D, 0xC2, 6, 0, 0x15, 0xC2, 4, 0,
        0x1D, 0xC2, 2, 0, 0xC3, 0, 0,
    ]
}

/// A loop over memory with stack traffic and a call, and a service routine at each restart.
fn copying_loop(memory: &mut [u8]) {
    put(memory, 0, &[0xC3, 0x00, 0x01]);
    for restart in 1..8 {
        put(memory, 8 * restart, &[0xC3, 0x00, 0x31]);
    }
    let service = [
        0xF5, 0xE5, 0x21, 0x00, 0x50, 0x34, 0x7E, 0xE1, 0xF1, 0xFB, 0xC9,
    ];
    put(memory, 0x3100, &service);
    let body = [
        0x31, 0x00, 0x80, 0xFB, 0x21, 0x00, 0x40, 0x06, 0x20, 0x7E, 0x80, 0x77, 0x23, 0xC5, 0xE5,
        0xE1, 0xC1, 0x05, 0xC2, 0x09, 0x01, 0xCD, 0x00, 0x30, 0xC3, 0x00, 0x01,
    ];
    put(memory, 0x100, &body);
}

/// Random bytes, in which the twelve undefined opcodes and most halts give way to EI and others.
pub fn wild(random: &mut Random) -> Vec<u8> {
    let defined =
        |b: u8| !(b & 0xC7 == 0 && b != 0 || matches!(b, 0xCB | 0xD9 | 0xDD | 0xED | 0xFD));
    let mut byte = || loop {
        let b = random.byte();
        if b == 0x76 && random.next() % 4 > 0 {
            return 0xFB;
        }
        if defined(b) || random.next() % 200 == 0 {
            return b;
        }
    };
    (0..65_536).map(|_| byte()).collect()
}

/// Up to 1,000 events in order: each line is set now and then, to any value that it takes.
pub fn wild_events(random: &mut Random) -> Vec<u8> {
    let mut schedule = Vec::new();
    let mut number = 0;
    while schedule.len() < 5_980 {
        number += random.next() % 24;
        let [a, b, c, d] = number.to_le_bytes();
        for (line, values) in [(0, 2), (1, 2), (2, 9)] {
            if random.next() % 3 == 0 {
                schedule.extend([a, b, c, d, line, (random.next() % values) as u8]);
            }
        }
        number += 1;
    }
    schedule
}

pub struct Random(pub u64);

impl Random {
    pub fn next(&mut self) -> u32 {
        self.0 ^= self.0 << 13;
        self.0 ^= self.0 >> 7;
        self.0 ^= self.0 << 17;
        (self.0 >> 20) as u32
    }

    fn byte(&mut self) -> u8 {
        self.next() as u8
    }

    fn below(&mut self, n: u32) -> u8 {
        (self.next() % n) as u8
    }
}

/// 600 instructions drawn by the weights of ordinary programs, with jumps over one byte and calls,
/// and HL loaded anew often, so that no instruction is overwritten; then all over again.
fn mixed() -> Vec<u8> {
    let mut random = Random(0x9E37_79B9_7F4A_7C15);
    let mut code = vec![0x31, 0x00, 0x80];
    for i in 0..600 {
        let draw = random.below(100);
        let to = [0, 1, 2, 3, 7][usize::from(random.below(5))];
        let from = [0, 1, 2, 3, 4, 5, 7][usize::from(random.below(7))];
        instruction(&mut code, &mut random, draw, to, from);
        if i % 20 == 0 {
            code.extend([0x21, random.byte(), 0x45]);
        }
    }
    code.extend([0xC3, 0, 0]);
    code
}

fn instruction(code: &mut Vec<u8>, random: &mut Random, draw: u8, to: u8, from: u8) {
    match draw {
        0..=15 => code.push(0x40 | to << 3 | from),
        16..=25 => code.extend([0x06 | to << 3, random.byte()]),
        26..=35 => code.push(0x80 | random.below(8) << 3 | from),
        36..=43 => code.push(0x04 + draw % 2 | to << 3),
        44..=49 => code.push(0x7E),
        50..=53 => code.push(0x70 | from),
        54..=58 => code.extend([0xC6 | random.below(8) << 3, random.byte()]),
        59..=63 => code.extend([0x21, random.byte(), 0x40 | random.byte() & 15]),
        64..=67 => code.push(0x23),
        68..=70 => code.extend([0x3A, random.byte(), 0x41]),
        71..=72 => code.extend([0x32, random.byte(), 0x42]),
        73..=80 => {
            let [low, high] = (code.len() as u16 + 4).to_le_bytes();
            code.extend([0xC2 | random.below(8) << 3, low, high, 0x00]);
        }
        81..=84 => code.extend([0xE5, 0xC5, 0xC1, 0xE1]),
        85..=88 => code.extend([0xCD, 0x00, 0x30]),
        89..=90 => code.push(0x34 + draw % 2),
        91..=92 => code.push(0x86 | random.below(8) << 3),
        93 => code.push(0x09),
        94 => code.push(0x27),
        95..=96 => code.push(0x07 | random.below(4) << 3),
        97 => code.push(0xEB),
        98 => code.extend([0xEB, 0x21, 0x00, 0x44]),
        _ => code.extend([0xDB, 7, 0xD3, 9]),
    }
}
