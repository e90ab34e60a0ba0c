//! What a state asks of the bus, so that a caller can be the bus of one state after the other.

use super::bus::{address, plan, written};
use super::instructions::Cycle;
use super::record::{Machine, Next};

/// A transfer over the bus, or none.
#[derive(Clone, Copy, Debug, PartialEq, Eq)]
pub enum Request {
    Nothing,
    Read { address: u16 },
    Write { address: u16, byte: u8 },
    Input { port: u8 },
    Output { port: u8, byte: u8 },
    Restart { number: u8 },
}

impl Request {
    /// What the state that comes next asks for: only T3 has a transfer.
    pub fn of(m: &Machine) -> Request {
        match m.next {
            Next::Later { cycle, state: 3 } => Request::in_t3(m, plan(m, cycle)),
            _ => Request::Nothing,
        }
    }

    /// The transfer of a cycle.
    fn in_t3(m: &Machine, now: Cycle) -> Request {
        let (address, port) = (address(m, now.at, true), m.kept[0]);
        let byte = written(m, now.byte);
        match now.kind {
            1 | 2 | 4 => Request::Read { address },
            3 | 5 => Request::Write { address, byte },
            6 => Request::Input { port },
            7 => Request::Output { port, byte },
            8 | 10 => Request::Restart { number: m.restart },
            _ => Request::Nothing,
        }
    }

    /// The request in one number: which it is, the byte, the address or port.
    pub fn packed(self) -> u32 {
        let pack =
            |which: u32, byte: u8, at: u16| (which << 24) + (u32::from(byte) << 16) + u32::from(at);
        match self {
            Request::Nothing => 0,
            Request::Read { address } => pack(1, 0, address),
            Request::Write { address, byte } => pack(2, byte, address),
            Request::Input { port } => pack(3, 0, u16::from(port)),
            Request::Output { port, byte } => pack(4, byte, u16::from(port)),
            Request::Restart { number } => pack(5, 0xC7 + 8 * number, 0),
        }
    }
}
