//! What a call is given and leaves, for one side.

use super::random::Random;
use crate::model::refusals::{MEMORY, PORTS};
use crate::side::{Lent, Side};

/// The record and every buffer.
#[derive(Default)]
pub struct World {
    pub record: Vec<u8>,
    pub memory: Vec<u8>,
    pub inputs: Vec<u8>,
    pub outputs: Vec<u8>,
    pub schedule: Vec<u8>,
    pub trace: Vec<u8>,
    pub saved: Vec<u8>,
}

/// Makes a buffer equal to another without new room.
pub fn copy(to: &mut Vec<u8>, from: &[u8]) {
    to.clear();
    to.extend_from_slice(from);
}

impl World {
    /// Buffers of the right sizes with random ports and this memory; no trace, no schedule.
    pub fn prepare(&mut self, random: &mut Random, record: &[u8], memory: &[u8]) {
        copy(&mut self.record, record);
        copy(&mut self.memory, &memory[..MEMORY]);
        for ports in [&mut self.inputs, &mut self.outputs] {
            ports.clear();
            ports.extend(std::iter::repeat_with(|| random.byte()).take(PORTS));
        }
        self.schedule.clear();
        self.trace.clear();
        self.saved.clear();
    }

    /// The buffers and their names.
    fn parts(&self) -> [(&'static str, &[u8]); 7] {
        [
            ("record", &self.record),
            ("memory", &self.memory),
            ("inputs", &self.inputs),
            ("outputs", &self.outputs),
            ("schedule", &self.schedule),
            ("trace", &self.trace),
            ("saved", &self.saved),
        ]
    }

    /// Takes over every buffer of another.
    pub fn copy_from(&mut self, other: &World) {
        copy(&mut self.record, &other.record);
        copy(&mut self.memory, &other.memory);
        copy(&mut self.inputs, &other.inputs);
        copy(&mut self.outputs, &other.outputs);
        copy(&mut self.schedule, &other.schedule);
        copy(&mut self.trace, &other.trace);
        copy(&mut self.saved, &other.saved);
    }

    /// Fails with the first byte in which two worlds differ.
    pub fn same_as(&self, other: &World) -> Result<(), String> {
        for ((name, mine), (_, theirs)) in self.parts().into_iter().zip(other.parts()) {
            same_bytes(name, mine, theirs)?;
        }
        Ok(())
    }

    /// One run on a side, whose trace begins at this byte.
    pub fn run(&mut self, side: &dyn Side, states: u32, from: usize) -> u64 {
        let mut lent = Lent {
            memory: &mut self.memory,
            inputs: &self.inputs,
            outputs: &mut self.outputs,
            schedule: &self.schedule,
            trace: &mut self.trace[from..],
        };
        side.run(&mut self.record, states, &mut lent)
    }

    /// So many states by hand, or to a stop, as the bus that the side asks: the states done.
    pub fn drive(&mut self, side: &dyn Side, states: u32) -> u64 {
        for done in 0..u64::from(states) {
            let byte = self.transfer(side.request(&self.record));
            if side.step(&mut self.record, byte) != 0 {
                return done;
            }
        }
        u64::from(states)
    }

    /// Does what a state asks of the bus, and gives the byte that goes over it.
    fn transfer(&mut self, asked: u32) -> u8 {
        let [low, high, byte, which] = asked.to_le_bytes();
        let address = usize::from(u16::from_le_bytes([low, high]));
        match which {
            1 => return self.memory[address],
            2 => self.memory[address] = byte,
            3 => return self.inputs[address],
            4 => self.outputs[address] = byte,
            _ => {}
        }
        byte
    }

    /// The clock of a record of full length.
    pub fn clock(&self) -> u32 {
        u32::from_le_bytes([
            self.record[14],
            self.record[15],
            self.record[16],
            self.record[17],
        ])
    }

    /// PC of a record of full length.
    pub fn pc(&self) -> u16 {
        u16::from_le_bytes([self.record[10], self.record[11]])
    }
}

/// Fails with the first byte in which two buffers differ.
pub fn same_bytes(name: &str, one: &[u8], other: &[u8]) -> Result<(), String> {
    if one == other {
        return Ok(());
    }
    let at = one.iter().zip(other).take_while(|(x, y)| x == y).count();
    Err(format!(
        "{name} differs at byte {at} of {} and {}: {:02X?} and {:02X?}",
        one.len(),
        other.len(),
        one.get(at),
        other.get(at)
    ))
}
