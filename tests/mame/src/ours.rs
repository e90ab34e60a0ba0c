//! The proved machine, with the memory and ports of MAME's al8800bt around it.

use crate::mame::{Registers, Write, FLAGS};
use fezgandom::{Board, Kind, Machine, Ran, Row, Schedule, State, Trace};

/// From here on al8800bt has ROM (zeros here) or nothing, which reads as FF.
const RAM: usize = 0xFD00;

/// The ports of the serial chip.
const SERIAL: [usize; 4] = [0x00, 0x01, 0x10, 0x11];

pub struct Ours {
    machine: Machine,
    board: Board,
    trace: Trace,
}

/// What an instruction did.
pub struct Done {
    pub states: u32,
    pub writes: Vec<Write>,
    pub halted: bool,
}

impl Ours {
    /// A machine with these registers over an image of RAM.
    pub fn new(image: &[u8], start: &Registers) -> Ours {
        let mut machine = Machine::cold();
        machine.set_a(start.a);
        machine.set_flag_byte(start.flags | 2);
        machine.set_bc(start.bc);
        machine.set_de(start.de);
        machine.set_hl(start.hl);
        machine.set_sp(start.sp);
        machine.set_pc(start.pc);
        machine.set_inte(start.inte == 1);
        let mut ours = Ours {
            machine,
            board: Board::with_program(image),
            trace: Trace::new(),
        };
        ours.board.inputs.fill(0xFF);
        ours.restore();
        ours
    }

    pub fn registers(&self) -> Registers {
        Registers {
            pc: self.machine.pc(),
            a: self.machine.a(),
            flags: self.machine.flag_byte() & FLAGS,
            bc: self.machine.bc(),
            de: self.machine.de(),
            hl: self.machine.hl(),
            sp: self.machine.sp(),
            inte: self.machine.inte().into(),
        }
    }

    /// The opcode that comes next.
    pub fn opcode(&self) -> u8 {
        self.board.memory[usize::from(self.machine.pc())]
    }

    /// One instruction, state by state; nothing where its opcode is undefined. The serial chip gives `serial`.
    pub fn instruction(&mut self, serial: u8) -> Option<Done> {
        for port in SERIAL {
            self.board.inputs[port] = serial;
        }
        self.trace.clear();
        let start = self.machine.clock();
        loop {
            let none = Schedule::new();
            let ran = self.machine.run(&mut self.board, &none, &mut self.trace, 1);
            if matches!(ran.expect("no refusal"), Ran::Stopped { .. }) {
                return None;
            }
            if self.machine.is_between_instructions() {
                break;
            }
        }
        self.restore();
        Some(Done {
            states: self.machine.clock() - start,
            writes: self.trace.rows().iter().filter_map(written).collect(),
            halted: self.machine.is_halted(),
        })
    }

    /// What was written past RAM is lost.
    fn restore(&mut self) {
        self.board.memory[RAM..].fill(0);
        self.board.memory[RAM + 0x100..RAM + 0x200].fill(0xFF);
    }
}

/// What the state of this row wrote.
fn written(row: &Row) -> Option<Write> {
    match (row.state, row.kind) {
        (State::T3, Kind::MemoryWrite | Kind::StackWrite) => {
            Some(Write::Memory(row.address, row.byte))
        }
        (State::T3, Kind::Output) => Some(Write::Port(row.address as u8, row.byte)),
        _ => None,
    }
}
