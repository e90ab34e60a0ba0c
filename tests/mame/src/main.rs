//! `mame-compare FOLDER STRETCHES`: holds the trace of so many stretches that MAME left there against the proved machine:
//! registers, flags, INTE, states and written bytes of each instruction. Fails at any difference but one, the
//! states of XCHG.

mod mame;
mod ours;

use mame::{Instruction, Stretch};
use ours::Ours;
use std::collections::BTreeMap;
use std::fs;
use std::path::Path;

/// MAME counts 5 states for it, Intel's manual 4.
const XCHG: u8 = 0xEB;

/// What was compared, and how many differences were met.
#[derive(Default)]
struct Tally {
    stretches: u64,
    writes: u64,
    opcodes: BTreeMap<u8, u64>,
    xchgs: u64,
    others: u64,
}

impl Tally {
    /// Reports a difference that nobody expects; the first twenty are printed.
    fn report(
        &mut self,
        opcode: u8,
        what: &str,
        before: &Instruction,
        after: &Instruction,
        ours: &Ours,
    ) {
        self.others += 1;
        if self.others <= 20 {
            println!("opcode {opcode:02X}: {what}");
            println!(
                "  before {before:X?}\n  MAME   {after:X?}\n  ours   {:X?}",
                ours.registers()
            );
        }
    }

    /// Goes through a stretch to its end, a halt, an undefined opcode or an unexpected difference.
    fn stretch(&mut self, stretch: &Stretch, image: &[u8]) {
        self.stretches += 1;
        let mut ours = Ours::new(image, &stretch.instructions[0].before);
        for pair in stretch.instructions.windows(2) {
            if !self.instruction(&mut ours, &pair[0], &pair[1]) {
                return;
            }
        }
    }

    /// Compares one instruction; says whether the stretch goes on.
    fn instruction(&mut self, ours: &mut Ours, before: &Instruction, after: &Instruction) -> bool {
        let opcode = ours.opcode();
        let Some(done) = ours.instruction(after.before.a) else {
            return false;
        };
        *self.opcodes.entry(opcode).or_default() += 1;
        self.writes += done.writes.len() as u64;

        let mut mine = ours.registers();
        if done.halted {
            // MAME fetches HLT again and again.
            mine.pc = before.before.pc;
        }
        let states = (after.cycles - before.cycles) as u32;
        let one_more = opcode == XCHG && states == done.states + 1;
        self.xchgs += u64::from(one_more);
        let checks = [
            ("registers", mine == after.before),
            ("states", one_more || states == done.states),
            ("writes", done.writes == before.writes),
        ];
        for (what, same) in checks {
            if !same {
                self.report(opcode, what, before, after, ours);
                return false;
            }
        }
        !done.halted
    }

    fn print(&self) {
        let instructions: u64 = self.opcodes.values().sum();
        let least = self.opcodes.values().min().unwrap_or(&0);
        println!(
            "{} stretches, {instructions} instructions, {} written bytes; {} opcodes, each at least {least} times",
            self.stretches,
            self.writes,
            self.opcodes.len()
        );
        println!(
            "known: XCHG takes one state more in MAME: {} times",
            self.xchgs
        );
        println!("other differences: {}", self.others);
    }
}

fn main() {
    let words: Vec<String> = std::env::args().collect();
    assert!(words.len() == 3, "mame-compare FOLDER STRETCHES");
    let folder = Path::new(&words[1]);
    let wanted: u64 = words[2].parse().expect("a number of stretches");
    let images: Vec<Vec<u8>> = (0..10)
        .map(|number| fs::read(folder.join(format!("image-{number}"))).expect("an image"))
        .collect();
    let text = fs::read_to_string(folder.join("trace")).expect("a trace");
    let mut tally = Tally::default();
    for stretch in mame::stretches(&text) {
        tally.stretch(&stretch, &images[stretch.image]);
    }
    tally.print();
    assert!(tally.stretches == wanted && tally.others == 0);
}
