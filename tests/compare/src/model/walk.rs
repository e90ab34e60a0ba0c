//! The walk: instructions as cycles, cycles as states, waits and holds, until the states asked are done.
//! It can begin and end at any state, since the record says where it stands. The states are in `states`.

use super::bus::plan;
use super::effects::effect;
use super::instructions::rest;
use super::record::{Acknowledge, Machine, Next, INT_DOWN};

const HLT: u8 = 0x76;
const EI: u8 = 0xFB;

/// What the machine meets: the events of a state, the bytes of memory and ports, and who watches.
pub trait Outside {
    /// The events of the state that begins act on the machine's lines.
    fn meet(&mut self, machine: &mut Machine);
    /// The byte of memory at the address.
    fn read(&mut self, address: u16) -> u8;
    /// Puts a byte into memory.
    fn write(&mut self, address: u16, byte: u8);
    /// The byte at an input port.
    fn input(&mut self, port: u8) -> u8;
    /// Puts a byte to an output port.
    fn output(&mut self, port: u8, byte: u8);
    /// The byte that the interrupting device gives for this restart number.
    fn restart(&mut self, number: u8) -> u8;
    /// The trace of a state that was done.
    fn row(&mut self, row: [u8; 8]);
}

/// Why a walk ends.
#[derive(Clone, Copy, Debug, PartialEq, Eq)]
pub enum Pause {
    Asked,
    Stopped,
}

/// Where in a cycle a walk begins, in the order of time.
#[derive(Clone, Copy, Debug, PartialEq, Eq, PartialOrd, Ord)]
enum Entry {
    T1,
    T2,
    Wait,
    T3,
    T4,
    T5,
    Hold,
}

/// The machine on its way, with the states asked and done.
pub(super) struct Walk<'a, O: Outside> {
    pub(super) m: &'a mut Machine,
    pub(super) outside: &'a mut O,
    pub(super) asked: u32,
    pub(super) done: u32,
}

/// Walks so many states, or to a stop: why it ended and the states done.
pub fn walk<O: Outside>(m: &mut Machine, outside: &mut O, asked: u32) -> (Pause, u32) {
    let mut walk = Walk {
        m,
        outside,
        asked,
        done: 0,
    };
    loop {
        if let Err(pause) = walk.onward() {
            return (pause, walk.done);
        }
    }
}

impl<O: Outside> Walk<'_, O> {
    /// The rest of the instruction that the record stands in, or a whole one, or a halt state.
    fn onward(&mut self) -> Result<(), Pause> {
        match self.m.next {
            Next::Fetch => self.instruction(1, Entry::T1),
            Next::Later { cycle, state } => self.instruction(cycle, entry_of(state)),
            Next::Wait { cycle } => self.instruction(cycle, Entry::Wait),
            Next::Hold { cycle } => self.instruction(cycle, Entry::Hold),
            Next::Halt => self.halted(),
            Next::Stop => Err(Pause::Stopped),
        }
    }

    /// The cycles of an instruction from this place on, and what follows it.
    fn instruction(&mut self, mut cycle: u8, mut entry: Entry) -> Result<(), Pause> {
        loop {
            self.cycle(cycle, entry)?;
            if self.is_last(cycle) {
                break;
            }
            (cycle, entry) = (cycle + 1, Entry::T1);
        }
        self.ended();
        Ok(())
    }

    /// The states of a cycle from this place on, then the effect if it is the last one, then its holds.
    fn cycle(&mut self, cycle: u8, entry: Entry) -> Result<(), Pause> {
        if entry != Entry::Hold {
            self.states(cycle, entry)?;
            if self.is_last(cycle) {
                effect(self.m);
            }
            if self.m.hold == 0 {
                return Ok(());
            }
        }
        self.holds(cycle)
    }

    /// T1 to the last state of a cycle, with its waits, from this place on.
    fn states(&mut self, cycle: u8, entry: Entry) -> Result<(), Pause> {
        if entry <= Entry::T1 {
            self.t1(cycle)?;
        }
        let mut waiting = entry == Entry::Wait;
        if entry <= Entry::T2 {
            self.t2(cycle)?;
            waiting = self.m.ready == 0 && !matches!(plan(self.m, cycle).kind, 9 | 11);
        }
        while waiting {
            self.wait(cycle)?;
            waiting = self.m.ready == 0;
        }
        if entry <= Entry::T3 {
            self.t3(cycle)?;
        }
        let states = plan(self.m, cycle).states;
        if entry <= Entry::T4 && states >= 4 {
            self.idle(cycle, 4)?;
        }
        if entry <= Entry::T5 && states >= 5 {
            self.idle(cycle, 5)?;
        }
        Ok(())
    }

    /// Holds after a cycle, the first of which HOLD has already asked for.
    fn holds(&mut self, cycle: u8) -> Result<(), Pause> {
        loop {
            self.begin(Next::Hold { cycle })?;
            self.row(7, cycle, 0, 0, 0);
            if self.m.hold == 0 {
                return Ok(());
            }
        }
    }

    /// A halt state, and what follows it: it counts as the end of HLT's second cycle.
    fn halted(&mut self) -> Result<(), Pause> {
        self.begin(Next::Halt)?;
        self.m.opcode = HLT;
        self.row(8, 2, 0, 0, 0);
        if self.m.hold != 0 {
            self.holds(2)?;
        }
        self.ended();
        Ok(())
    }

    /// After an instruction's last state or hold: an interrupt is taken, or a fetch or halt state follows.
    fn ended(&mut self) {
        let halting = self.m.opcode == HLT;
        let taken = self.m.int != INT_DOWN && self.m.inte && self.m.opcode != EI;
        self.m.forget();
        self.m.next = match halting && !taken {
            true => Next::Halt,
            false => Next::Fetch,
        };
        if taken {
            self.take(halting);
        }
    }

    /// The interrupt is taken: its number is kept, INT falls and INTE is off.
    fn take(&mut self, halting: bool) {
        self.m.restart = self.m.int;
        self.m.int = INT_DOWN;
        self.m.inte = false;
        self.m.acknowledge = match halting {
            true => Acknowledge::Halted,
            false => Acknowledge::Running,
        };
    }

    /// Whether the instruction ends with this cycle.
    fn is_last(&self, cycle: u8) -> bool {
        usize::from(cycle) == rest(self.m.opcode, self.m.flags).len() + 1
    }
}

/// The entry into a cycle at this state.
fn entry_of(state: u8) -> Entry {
    match state {
        1 => Entry::T1,
        2 => Entry::T2,
        3 => Entry::T3,
        4 => Entry::T4,
        _ => Entry::T5,
    }
}
