//! What a machine is connected to.

use crate::{Request, MEMORY, PORTS};
use std::fmt;

/// Memory and ports. All parts are open: set them before a run and look at them after it.
///
/// ```
/// use fezgandom::{Board, Machine, Schedule, Trace};
///
/// let mut board = Board::with_program(&[0xDB, 0x02, 0xD3, 0x03]); // IN 02, OUT 03
/// board.inputs[2] = 0x41;
/// Machine::cold().run(&mut board, &Schedule::new(), &mut Trace::new(), 20)?;
/// assert_eq!(board.outputs[3], 0x41);
/// # Ok::<(), fezgandom::Refusal>(())
/// ```
#[derive(Clone, PartialEq, Eq)]
pub struct Board {
    /// What the machine reads and writes.
    pub memory: Box<[u8; MEMORY]>,
    /// What IN reads.
    pub inputs: [u8; PORTS],
    /// What OUT has set.
    pub outputs: [u8; PORTS],
}

impl Board {
    /// All memory and all ports 0.
    pub fn new() -> Board {
        let memory = vec![0; MEMORY].into_boxed_slice();
        Board {
            memory: memory.try_into().expect("as long as memory is"),
            inputs: [0; PORTS],
            outputs: [0; PORTS],
        }
    }

    /// A new board with a program at address 0, where a cold machine starts.
    ///
    /// # Panics
    /// Where the program is longer than memory.
    pub fn with_program(program: &[u8]) -> Board {
        let mut board = Board::new();
        board.put(0, program);
        board
    }

    /// Puts bytes into memory from an address on.
    ///
    /// # Panics
    /// Where they go past address FFFF.
    pub fn put(&mut self, address: u16, bytes: &[u8]) {
        let start = usize::from(address);
        self.memory[start..start + bytes.len()].copy_from_slice(bytes);
    }

    /// Does what a state asks, as a run does it, and returns the byte that is then on the bus.
    pub fn serve(&mut self, request: Request) -> u8 {
        match request {
            Request::Nothing => 0,
            Request::Read { address } => self.memory[usize::from(address)],
            Request::Write { address, byte } => {
                self.memory[usize::from(address)] = byte;
                byte
            }
            Request::Input { port } => self.inputs[usize::from(port)],
            Request::Output { port, byte } => {
                self.outputs[usize::from(port)] = byte;
                byte
            }
            Request::Restart { byte } => byte,
        }
    }
}

impl Default for Board {
    fn default() -> Board {
        Board::new()
    }
}

/// Bytes and ports that are not 0, by address and number.
impl fmt::Debug for Board {
    fn fmt(&self, f: &mut fmt::Formatter<'_>) -> fmt::Result {
        f.debug_struct("Board")
            .field("memory", &NonZero(&self.memory[..]))
            .field("inputs", &NonZero(&self.inputs))
            .field("outputs", &NonZero(&self.outputs))
            .finish()
    }
}

/// Bytes of which only those that are not 0 are shown.
struct NonZero<'a>(&'a [u8]);

impl fmt::Debug for NonZero<'_> {
    fn fmt(&self, f: &mut fmt::Formatter<'_>) -> fmt::Result {
        let all = self.0.iter().enumerate();
        f.debug_map()
            .entries(all.filter(|&(_, &byte)| byte != 0))
            .finish()
    }
}
