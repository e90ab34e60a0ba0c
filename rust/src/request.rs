//! What a state asks of the bus.

/// What the state that comes next asks of the bus. Only T3 of a cycle asks for something.
///
/// See [`Machine::step`](crate::Machine::step) for a caller that is the bus.
#[derive(Clone, Copy, Debug, PartialEq, Eq)]
pub enum Request {
    /// Nothing: the byte on the bus does not count.
    Nothing,
    /// The byte of memory at this address.
    Read { address: u16 },
    /// That this byte goes into memory.
    Write { address: u16, byte: u8 },
    /// The byte of this input port.
    Input { port: u8 },
    /// That this byte goes to an output port.
    Output { port: u8, byte: u8 },
    /// The RST instruction of the interrupting device, which is this byte.
    Restart { byte: u8 },
}

impl Request {
    /// The request of a number as `fez_request` packs it.
    pub(crate) fn unpack(number: u32) -> Request {
        let [low, high, byte, which] = number.to_le_bytes();
        let address = u16::from_le_bytes([low, high]);
        match which {
            1 => Request::Read { address },
            2 => Request::Write { address, byte },
            3 => Request::Input { port: low },
            4 => Request::Output { port: low, byte },
            5 => Request::Restart { byte },
            _ => Request::Nothing,
        }
    }
}
