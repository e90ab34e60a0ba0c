//! The functions that are held against each other, and the model's way of doing them.

use crate::model::flat::{flatten, RECORD};
use crate::model::record::{Machine, Next};
use crate::model::request::Request;
use crate::model::schedule::Cursor;
use crate::model::walk::{walk, Outside, Pause};
use crate::model::{refusals, saved};

/// What is lent to a run.
pub struct Lent<'a> {
    pub memory: &'a mut [u8],
    pub inputs: &'a [u8],
    pub outputs: &'a mut [u8],
    pub schedule: &'a [u8],
    pub trace: &'a mut [u8],
}

/// One of the two sides: the C interface, with slices.
pub trait Side {
    /// Makes the record that of a cold machine.
    fn cold(&self, record: &mut [u8]) -> u8;
    /// Whether the record is well formed.
    fn well(&self, record: &[u8]) -> bool;
    /// One state with this byte on the bus; 8, 9 and 10 in a run's order.
    fn step(&self, record: &mut [u8], byte: u8) -> u8;
    /// What the state that comes next asks of the bus, for a well-formed record.
    fn request(&self, record: &[u8]) -> u32;
    /// So many states: the number, and 256 times the states done.
    fn run(&self, record: &mut [u8], states: u32, lent: &mut Lent) -> u64;
    /// Writes the saved form.
    fn save(&self, record: &[u8], memory: &[u8], outputs: &[u8], out: &mut [u8]) -> u8;
    /// Fills record, memory and output ports from a saved form.
    fn load(&self, record: &mut [u8], saved: &[u8], memory: &mut [u8], outputs: &mut [u8]) -> u8;
}

/// The walk of `model`.
pub struct Model;

impl Side for Model {
    fn cold(&self, record: &mut [u8]) -> u8 {
        if record.len() != RECORD {
            return 8;
        }
        record.copy_from_slice(&flatten(&Machine::cold()));
        0
    }

    fn well(&self, record: &[u8]) -> bool {
        refusals::record(record).is_ok()
    }

    fn step(&self, record: &mut [u8], byte: u8) -> u8 {
        let mut m = match refusals::record(record) {
            Err(number) => return number,
            Ok(m) if m.clock == u32::MAX => return 9,
            Ok(m) if m.next == Next::Stop => return 10,
            Ok(m) => m,
        };
        walk(&mut m, &mut OneByte(byte), 1);
        record.copy_from_slice(&flatten(&m));
        0
    }

    fn request(&self, record: &[u8]) -> u32 {
        refusals::record(record).map_or(0, |m| Request::of(&m).packed())
    }

    fn run(&self, record: &mut [u8], states: u32, lent: &mut Lent) -> u64 {
        let mut m = match refusals::run(record, states, lent) {
            Err(number) => return u64::from(number),
            Ok(m) => m,
        };
        let (pause, done) = walk(&mut m, &mut World::new(lent), states);
        record.copy_from_slice(&flatten(&m));
        let number = match pause {
            Pause::Asked => 0,
            Pause::Stopped => 10,
        };
        number + 256 * u64::from(done)
    }

    fn save(&self, record: &[u8], memory: &[u8], outputs: &[u8], out: &mut [u8]) -> u8 {
        match refusals::save(record, memory, outputs, out) {
            Err(number) => number,
            Ok(()) => {
                saved::save(record, memory, outputs, out);
                0
            }
        }
    }

    fn load(&self, record: &mut [u8], from: &[u8], memory: &mut [u8], outputs: &mut [u8]) -> u8 {
        match refusals::load(from, record, memory, outputs) {
            Err(number) => number,
            Ok(()) => {
                saved::load(from, record, memory, outputs);
                0
            }
        }
    }
}

/// The byte that an interrupting device gives: RST of its number.
fn rst(number: u8) -> u8 {
    0xC7 + 8 * number
}

/// What is lent to a run, as the walk meets it.
struct World<'a> {
    memory: &'a mut [u8],
    inputs: &'a [u8],
    outputs: &'a mut [u8],
    events: Cursor<'a>,
    rows: std::slice::ChunksExactMut<'a, u8>,
}

impl<'a> World<'a> {
    /// The lent buffers, of lengths that have been tested.
    fn new(lent: &'a mut Lent) -> World<'a> {
        World {
            memory: lent.memory,
            inputs: lent.inputs,
            outputs: lent.outputs,
            events: Cursor::new(lent.schedule),
            rows: lent.trace.chunks_exact_mut(8),
        }
    }
}

impl Outside for World<'_> {
    fn meet(&mut self, m: &mut Machine) {
        self.events.meet(m);
    }

    fn read(&mut self, address: u16) -> u8 {
        self.memory[usize::from(address)]
    }

    fn write(&mut self, address: u16, byte: u8) {
        self.memory[usize::from(address)] = byte;
    }

    fn input(&mut self, port: u8) -> u8 {
        self.inputs[usize::from(port)]
    }

    fn output(&mut self, port: u8, byte: u8) {
        self.outputs[usize::from(port)] = byte;
    }

    fn restart(&mut self, number: u8) -> u8 {
        rst(number)
    }

    fn row(&mut self, row: [u8; 8]) {
        let place = self.rows.next().expect("a row for each state asked");
        place.copy_from_slice(&row);
    }
}

/// A bus with one byte on it, for one state: no events, and nobody watches.
struct OneByte(u8);

impl Outside for OneByte {
    fn meet(&mut self, _: &mut Machine) {}

    fn read(&mut self, _: u16) -> u8 {
        self.0
    }

    fn write(&mut self, _: u16, _: u8) {}

    fn input(&mut self, _: u8) -> u8 {
        self.0
    }

    fn output(&mut self, _: u8, _: u8) {}

    fn restart(&mut self, _: u8) -> u8 {
        self.0
    }

    fn row(&mut self, _: [u8; 8]) {}
}
