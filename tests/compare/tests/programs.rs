//! Programs that others published, with what their documents print (`tests/programs`), done by both sides.

use compare::model::schedule::Event;
use compare::proved::Proved;
use compare::side::{Lent, Model, Side};
use std::path::Path;

/// A machine on its way through a published program.
struct Bench<'a> {
    side: &'a dyn Side,
    record: [u8; 64],
    memory: Vec<u8>,
    outputs: [u8; 256],
    schedule: Vec<u8>,
    done: u32,
    rows: u32,
}

/// A hex number.
fn hex(word: &str) -> u16 {
    u16::from_str_radix(word, 16).unwrap_or_else(|_| panic!("{word} is no hex number"))
}

/// A decimal number.
fn decimal(word: &str) -> u32 {
    word.parse()
        .unwrap_or_else(|_| panic!("{word} is no decimal number"))
}

impl<'a> Bench<'a> {
    /// A cold machine over zeroed memory.
    fn new(side: &'a dyn Side) -> Bench<'a> {
        let mut record = [0; 64];
        assert_eq!(side.cold(&mut record), 0);
        Bench {
            side,
            record,
            memory: vec![0; 65_536],
            outputs: [0; 256],
            schedule: vec![],
            done: 0,
            rows: 0,
        }
    }

    /// Does what a line says: `load` bytes, `set` a register, an `event`, a `row` to be met, or `halted`.
    fn line(&mut self, line: &str) {
        let words: Vec<&str> = line.split_whitespace().collect();
        match words[..] {
            ["load", address, ref bytes @ ..] => {
                let at = usize::from(hex(address));
                for (place, byte) in self.memory[at..].iter_mut().zip(bytes) {
                    *place = hex(byte) as u8;
                }
            }
            ["set", name, value] => self.set(name, hex(value)),
            ["event", state, line, value] => {
                let [line, value] = [line, value].map(|word| decimal(word) as u8);
                let state = decimal(state);
                self.schedule.extend(Event { state, line, value }.bytes());
            }
            ["row", states, ref shown @ ..] => {
                self.go(decimal(states));
                shown.iter().for_each(|pair| self.check(line, pair));
                self.rows += 1;
            }
            ["halted", states] => {
                self.go(decimal(states));
                assert_eq!(self.record[13], 1, "{line}");
            }
            _ => panic!("{line}"),
        }
    }

    /// Runs until so many states are done.
    fn go(&mut self, states: u32) {
        let more = states - self.done;
        let mut lent = Lent {
            memory: &mut self.memory,
            inputs: &[0; 256],
            outputs: &mut self.outputs,
            schedule: &self.schedule,
            trace: &mut vec![0; 8 * more as usize],
        };
        let answer = self.side.run(&mut self.record, more, &mut lent);
        assert_eq!(answer, 256 * u64::from(more));
        self.done = states;
    }

    /// The place of a register in the record, and whether it has two bytes.
    fn place(name: &str) -> Option<(usize, bool)> {
        let singles = ["A", "F", "B", "C", "D", "E", "H", "L"];
        let single = singles.iter().position(|&single| single == name);
        match name {
            "SP" => Some((8, true)),
            "PC" => Some((10, true)),
            "INTE" => Some((12, false)),
            _ => single.map(|at| (at, false)),
        }
    }

    /// Sets a register before the run.
    fn set(&mut self, name: &str, value: u16) {
        let (at, is_word) = Self::place(name).expect(name);
        let [low, high] = value.to_le_bytes();
        self.record[at] = low;
        if is_word {
            self.record[at + 1] = high;
        }
    }

    /// The value of a register, a pair, the flags without AC, the byte at HL, or a byte of memory.
    fn get(&self, name: &str) -> u16 {
        let pair = |at: usize| u16::from_be_bytes([self.record[at], self.record[at + 1]]);
        let byte = |address: u16| u16::from(self.memory[usize::from(address)]);
        match (name, Self::place(name)) {
            (_, Some((at, true))) => u16::from_le_bytes([self.record[at], self.record[at + 1]]),
            (_, Some((at, false))) => u16::from(self.record[at]),
            ("BC", _) => pair(2),
            ("DE", _) => pair(4),
            ("HL", _) => pair(6),
            ("SZPC", _) => u16::from(self.record[1] & 0xC5),
            ("M", _) => byte(pair(6)),
            _ => byte(hex(name)),
        }
    }

    /// What a row shows is so.
    fn check(&self, line: &str, pair: &str) {
        let (name, value) = pair.split_once('=').expect(pair);
        let mask = if name == "SZPC" { 0xC5 } else { 0xFFFF };
        assert_eq!(self.get(name), hex(value) & mask, "{name} in {line}");
    }
}

/// Goes through a file on one side: the record and memory at its end, and the rows met.
fn play(side: &dyn Side, text: &str) -> (Vec<u8>, Vec<u8>, u32) {
    let mut bench = Bench::new(side);
    let lines = text
        .lines()
        .map(|line| line.split('#').next().unwrap_or(""));
    lines
        .filter(|line| !line.trim().is_empty())
        .for_each(|line| bench.line(line));
    (bench.record.to_vec(), bench.memory, bench.rows)
}

/// Goes through a file on both sides, which must show as many rows.
fn published(name: &str, rows: u32) {
    let folder = Path::new(env!("CARGO_MANIFEST_DIR")).join("../programs");
    let text = std::fs::read_to_string(folder.join(name)).expect(name);
    let mine = play(&Model, &text);
    assert_eq!(mine.2, rows, "rows of {name}");
    assert!(mine == play(&Proved, &text), "{name}");
}

/// Document 000, Appendix C.
#[test]
fn decimal_addition_with_an_interrupt() {
    published("000-decimal-addition.txt", 54);
}

/// Document 004, examples 1 and 2.
#[test]
fn sort_and_decimal_addition() {
    published("004-sort.txt", 67);
    published("004-decimal-addition.txt", 26);
}

/// Document 003, figures 6, 29 and 30.
#[test]
fn examples_of_003() {
    published("003-editor.txt", 5);
    published("003-aci.txt", 1);
    published("003-adc.txt", 1);
}
