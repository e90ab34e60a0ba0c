//! The machine's record: 64 bytes, and names for what they hold.

use crate::{ffi, Request, RECORD};
use std::fmt;

/// Where each part of the record stands. Words have their low byte first.
pub(crate) mod at {
    pub const A: usize = 0;
    pub const FLAGS: usize = 1;
    pub const B: usize = 2;
    pub const C: usize = 3;
    pub const D: usize = 4;
    pub const E: usize = 5;
    pub const H: usize = 6;
    pub const L: usize = 7;
    pub const SP: usize = 8;
    pub const PC: usize = 10;
    pub const INTE: usize = 12;
    pub const NEXT: usize = 13;
    pub const CLOCK: usize = 14;
    pub const READY: usize = 18;
    pub const HOLD: usize = 19;
    pub const INT: usize = 20;
    pub const CYCLE: usize = 24;
    pub const STATE: usize = 25;
    pub const OPCODE: usize = 26;
    pub const ACKNOWLEDGE: usize = 27;
    pub const RESTART: usize = 28;
}

/// An 8080 between two states: registers, lines, clock, and how far its instruction has come.
///
/// A machine that is cold, loaded, stepped or run is always well formed. One that is made of bytes
/// or changed by the setters may be ill formed; then a run refuses it.
///
/// ```
/// use fezgandom::{Flags, Machine, Next};
///
/// let mut machine = Machine::cold();
/// assert_eq!((machine.pc(), machine.clock(), machine.next()), (0, 0, Next::Fetch));
///
/// machine.set_hl(0x1234);
/// machine.set_flags(Flags { cy: true, ..Flags::default() });
/// assert_eq!((machine.h(), machine.l()), (0x12, 0x34));
/// assert_eq!(machine.flag_byte(), 0x03);
/// assert!(machine.is_well_formed());
///
/// machine.set_flag_byte(0xFF); // no 8080 has these fixed bits
/// assert!(!machine.is_well_formed());
/// ```
#[derive(Clone, PartialEq, Eq)]
pub struct Machine {
    pub(crate) record: [u8; RECORD],
}

/// What comes next.
#[derive(Clone, Copy, Debug, PartialEq, Eq)]
pub enum Next {
    /// T1 of an instruction.
    Fetch,
    /// T1 of an interrupt's acknowledge.
    Acknowledge,
    /// A later state of a cycle, T1 to T5.
    Later { cycle: u8, state: u8 },
    /// A wait in a cycle.
    Wait { cycle: u8 },
    /// A hold after a cycle.
    Hold { cycle: u8 },
    /// A halt state.
    Halt,
    /// Nothing, after an undefined opcode.
    Stop,
    /// The record's byte for it is none of those listed.
    Unlisted(u8),
}

impl Machine {
    /// The cold machine: registers, SP, PC and clock 0, READY up, HOLD and INT down, a fetch next.
    pub fn cold() -> Machine {
        let mut record = [0; RECORD];
        let number = ffi::cold(&mut record);
        debug_assert_eq!(number, 0, "a record of 64 bytes is not refused");
        Machine { record }
    }

    /// A machine of a record's bytes, whatever they are.
    pub const fn from_bytes(record: [u8; RECORD]) -> Machine {
        Machine { record }
    }

    /// The record.
    pub const fn as_bytes(&self) -> &[u8; RECORD] {
        &self.record
    }

    /// Whether a run would take this machine (the paper's rule for 8).
    pub fn is_well_formed(&self) -> bool {
        ffi::well(&self.record)
    }

    /// What the state that comes next asks of the bus.
    pub fn request(&self) -> Request {
        Request::unpack(ffi::request(&self.record))
    }

    /// What comes next.
    pub fn next(&self) -> Next {
        let cycle = self.record[at::CYCLE];
        let state = self.record[at::STATE];
        match self.record[at::NEXT] {
            0 if self.restart().is_some() => Next::Acknowledge,
            0 => Next::Fetch,
            1 => Next::Halt,
            2 => Next::Stop,
            3 => Next::Later { cycle, state },
            4 => Next::Wait { cycle },
            5 => Next::Hold { cycle },
            byte => Next::Unlisted(byte),
        }
    }

    /// Whether a halt state comes next.
    pub fn is_halted(&self) -> bool {
        self.next() == Next::Halt
    }

    /// Whether an undefined opcode has stopped the machine.
    pub fn is_stopped(&self) -> bool {
        self.next() == Next::Stop
    }

    /// Whether a fetch, a halt state or a stop comes next, so that the machine can be saved.
    pub fn is_between_instructions(&self) -> bool {
        matches!(self.next(), Next::Fetch | Next::Halt | Next::Stop)
    }

    /// The opcode of the instruction under way, 0 where none is read yet.
    pub fn opcode(&self) -> u8 {
        self.record[at::OPCODE]
    }

    /// The restart number that was taken, while its acknowledge is under way.
    pub fn restart(&self) -> Option<u8> {
        match self.record[at::ACKNOWLEDGE] {
            0 => None,
            _ => Some(self.record[at::RESTART]),
        }
    }
}

impl Default for Machine {
    fn default() -> Machine {
        Machine::cold()
    }
}

/// Registers in hex, then clock, lines and what comes next.
impl fmt::Display for Machine {
    fn fmt(&self, f: &mut fmt::Formatter<'_>) -> fmt::Result {
        write!(
            f,
            "A {:02X} {} BC {:04X} DE {:04X} HL {:04X} SP {:04X} PC {:04X} INTE {} clock {} \
             READY {} HOLD {} INT {:?} next {:?}",
            self.a(),
            self.flags(),
            self.bc(),
            self.de(),
            self.hl(),
            self.sp(),
            self.pc(),
            u8::from(self.inte()),
            self.clock(),
            u8::from(self.ready()),
            u8::from(self.hold()),
            self.int(),
            self.next(),
        )
    }
}

/// What `Display` says, and the record's bytes.
impl fmt::Debug for Machine {
    fn fmt(&self, f: &mut fmt::Formatter<'_>) -> fmt::Result {
        write!(f, "Machine({self}; {:02X?})", self.record)
    }
}
