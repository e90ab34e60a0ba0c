//! What a state of a run leaves.

use std::fmt;

/// The bytes of a row.
pub(crate) const ROW: usize = 8;

/// A state by its code in the trace.
#[derive(Clone, Copy, Debug, PartialEq, Eq, Hash)]
#[repr(u8)]
pub enum State {
    /// The address goes out.
    T1 = 1,
    /// READY is looked at.
    T2 = 2,
    /// A byte is read or written.
    T3 = 3,
    /// Work inside.
    T4 = 4,
    /// Work inside.
    T5 = 5,
    /// READY was down.
    Wait = 6,
    /// The bus is lent away, after HOLD.
    Hold = 7,
    /// HLT was done and no interrupt is taken yet.
    Halt = 8,
}

impl State {
    const ALL: [State; 8] = [
        State::T1,
        State::T2,
        State::T3,
        State::T4,
        State::T5,
        State::Wait,
        State::Hold,
        State::Halt,
    ];

    /// The code, 1 to 8.
    pub const fn code(self) -> u8 {
        self as u8
    }

    /// The state of a code, none where it is not listed.
    pub fn from_code(code: u8) -> Option<State> {
        let place = usize::from(code).checked_sub(1)?;
        State::ALL.get(place).copied()
    }

    /// The name as it is printed: T1 to T5, TW, HOLD, HALT.
    pub const fn name(self) -> &'static str {
        match self {
            State::T1 => "T1",
            State::T2 => "T2",
            State::T3 => "T3",
            State::T4 => "T4",
            State::T5 => "T5",
            State::Wait => "TW",
            State::Hold => "HOLD",
            State::Halt => "HALT",
        }
    }
}

impl fmt::Display for State {
    fn fmt(&self, f: &mut fmt::Formatter<'_>) -> fmt::Result {
        f.pad(self.name())
    }
}

/// A cycle by its kind, with the paper's numbers.
#[derive(Clone, Copy, Debug, PartialEq, Eq, Hash)]
#[repr(u8)]
pub enum Kind {
    /// Of an instruction's opcode.
    Fetch = 1,
    /// Of an operand or of data.
    MemoryRead = 2,
    /// Of data.
    MemoryWrite = 3,
    /// POP, RET, XTHL.
    StackRead = 4,
    /// PUSH, CALL, RST, XTHL.
    StackWrite = 5,
    /// IN.
    Input = 6,
    /// OUT.
    Output = 7,
    /// Of an interrupt, while running.
    Acknowledge = 8,
    /// The second cycle of HLT, and the halt states.
    HaltAcknowledge = 9,
    /// Of an interrupt, while halted.
    AcknowledgeHalted = 10,
    /// DAD's two cycles without the bus.
    Internal = 11,
}

impl Kind {
    const ALL: [Kind; 11] = [
        Kind::Fetch,
        Kind::MemoryRead,
        Kind::MemoryWrite,
        Kind::StackRead,
        Kind::StackWrite,
        Kind::Input,
        Kind::Output,
        Kind::Acknowledge,
        Kind::HaltAcknowledge,
        Kind::AcknowledgeHalted,
        Kind::Internal,
    ];

    /// The paper's number, 1 to 11.
    pub const fn number(self) -> u8 {
        self as u8
    }

    /// The kind of a number, none where it is not listed.
    pub fn from_number(number: u8) -> Option<Kind> {
        let place = usize::from(number).checked_sub(1)?;
        Kind::ALL.get(place).copied()
    }
}

/// READY, HOLD, INT and INTE in a state, after its events.
#[derive(Clone, Copy, Debug, Default, PartialEq, Eq)]
pub struct Levels {
    /// READY is up.
    pub ready: bool,
    /// HOLD is up.
    pub hold: bool,
    /// INT is up.
    pub int: bool,
    /// Interrupts are enabled.
    pub inte: bool,
}

impl Levels {
    /// The levels of a byte: bits 0 to 3 are READY, HOLD, INT, INTE. None where it has other bits.
    pub const fn from_byte(byte: u8) -> Option<Levels> {
        if byte > 0x0F {
            return None;
        }
        Some(Levels {
            ready: byte & 1 != 0,
            hold: byte & 2 != 0,
            int: byte & 4 != 0,
            inte: byte & 8 != 0,
        })
    }

    /// The byte of the levels.
    pub const fn byte(self) -> u8 {
        self.ready as u8 | (self.hold as u8) << 1 | (self.int as u8) << 2 | (self.inte as u8) << 3
    }
}

/// One state of a run.
///
/// It prints as the printing program does: state number, name, kind, address and data.
///
/// ```
/// use fezgandom::{Kind, Row, State};
///
/// let row = Row::from_bytes(6, [3, 2, 0x01, 0x00, 0x05, 0, 2, 1]).unwrap();
/// assert_eq!((row.state, row.kind, row.address), (State::T3, Kind::MemoryRead, 1));
/// assert_eq!(row.to_string(), "6 T3 2 0001 05");
/// ```
#[derive(Clone, Copy, Debug, PartialEq, Eq)]
pub struct Row {
    /// The state's number: the clock before it.
    pub number: u32,
    /// Which state of its cycle it is.
    pub state: State,
    /// The cycle's kind; a hold has that of the cycle before it.
    pub kind: Kind,
    /// In T1, T2, waits and T3; else 0.
    pub address: u16,
    /// The byte read or written, in T3; else 0.
    pub byte: u8,
    /// The status byte, in T1; else 0.
    pub status: u8,
    /// The cycle's number within the instruction, from 1.
    pub cycle: u8,
    /// The lines after the events of the state.
    pub levels: Levels,
}

impl Row {
    /// The row of a state's number and its eight bytes in the trace, none where they hold a code
    /// that is not listed.
    pub fn from_bytes(number: u32, bytes: [u8; ROW]) -> Option<Row> {
        let [state, kind, low, high, byte, status, cycle, levels] = bytes;
        Some(Row {
            number,
            state: State::from_code(state)?,
            kind: Kind::from_number(kind)?,
            address: u16::from_le_bytes([low, high]),
            byte,
            status,
            cycle,
            levels: Levels::from_byte(levels)?,
        })
    }

    /// The eight bytes of the row.
    pub const fn to_bytes(self) -> [u8; ROW] {
        let [low, high] = self.address.to_le_bytes();
        [
            self.state.code(),
            self.kind.number(),
            low,
            high,
            self.byte,
            self.status,
            self.cycle,
            self.levels.byte(),
        ]
    }
}

impl fmt::Display for Row {
    fn fmt(&self, f: &mut fmt::Formatter<'_>) -> fmt::Result {
        write!(
            f,
            "{} {} {} {:04X} {:02X}",
            self.number,
            self.state,
            self.kind.number(),
            self.address,
            self.byte
        )
    }
}
