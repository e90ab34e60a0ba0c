//! Reads the trace that stretches.lua has MAME write.

/// A byte that an instruction writes, to memory or to an output port.
#[derive(Clone, Copy, Debug, PartialEq)]
pub enum Write {
    Memory(u16, u8),
    Port(u8, u8),
}

/// The registers before an instruction. The flags are those that the 8080 has: MAME fills in the fixed bits only where a push
/// shows them.
#[derive(Clone, Copy, Debug, PartialEq)]
pub struct Registers {
    pub pc: u16,
    pub a: u8,
    pub flags: u8,
    pub bc: u16,
    pub de: u16,
    pub hl: u16,
    pub sp: u16,
    pub inte: u8,
}

/// S, Z, AC, P and CY.
pub const FLAGS: u8 = 0xD5;

/// An instruction: the registers and the cycles before it, and what it writes.
#[derive(Debug)]
pub struct Instruction {
    pub before: Registers,
    pub cycles: u64,
    pub writes: Vec<Write>,
}

/// A row of instructions from one start, over the image of this number.
pub struct Stretch {
    pub image: usize,
    pub instructions: Vec<Instruction>,
}

/// The stretches of a trace.
pub fn stretches(text: &str) -> Vec<Stretch> {
    let mut all: Vec<Stretch> = Vec::new();
    for line in text.lines() {
        let words: Vec<&str> = line.split([' ', ';']).collect();
        match (words[0], all.last_mut()) {
            ("stretch", _) => all.push(Stretch {
                image: words[1].parse().expect("an image's number"),
                instructions: Vec::new(),
            }),
            (_, None) => {}
            ("write", Some(stretch)) => {
                let write = Write::Memory(hex(words[1]), hex(words[2]) as u8);
                stretch.written(write);
            }
            ("out", Some(stretch)) => {
                let write = Write::Port(hex(words[1]) as u8, hex(words[2]) as u8);
                stretch.written(write);
            }
            (_, Some(stretch)) => stretch.instructions.push(instruction(&words)),
        }
    }
    all
}

impl Stretch {
    fn written(&mut self, write: Write) {
        let last = self.instructions.last_mut();
        last.expect("an instruction that writes").writes.push(write);
    }
}

fn instruction(words: &[&str]) -> Instruction {
    let [a, flags] = hex(words[1]).to_be_bytes();
    Instruction {
        before: Registers {
            pc: hex(words[0]),
            a,
            flags: flags & FLAGS,
            bc: hex(words[2]),
            de: hex(words[3]),
            hl: hex(words[4]),
            sp: hex(words[5]),
            inte: hex(words[6]) as u8,
        },
        cycles: words[7].parse().expect("a number of cycles"),
        writes: Vec::new(),
    }
}

fn hex(word: &str) -> u16 {
    u16::from_str_radix(word, 16).expect("a hexadecimal number")
}
