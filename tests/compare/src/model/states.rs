//! The states that a walk goes through: what each shows on the bus, and where the walk may pause.

use super::bus::{address, plan, written};
use super::instructions::{instruction, status, At, Byte, Cycle};
use super::record::{Next, INT_DOWN};
use super::walk::{Outside, Pause, Walk};

impl<O: Outside> Walk<'_, O> {
    /// T1: address and status.
    pub(super) fn t1(&mut self, cycle: u8) -> Result<(), Pause> {
        self.begin(later(cycle, 1))?;
        let now = plan(self.m, cycle);
        let place = address(self.m, now.at, false);
        self.row(1, cycle, place, 0, status(now.kind));
        Ok(())
    }

    /// T2: the address stays, PC rises.
    pub(super) fn t2(&mut self, cycle: u8) -> Result<(), Pause> {
        self.begin(later(cycle, 2))?;
        let now = plan(self.m, cycle);
        let place = address(self.m, now.at, false);
        self.row(2, cycle, place, 0, 0);
        if now.at == At::Program {
            self.m.pc = self.m.pc.wrapping_add(1);
        }
        Ok(())
    }

    /// A wait for READY.
    pub(super) fn wait(&mut self, cycle: u8) -> Result<(), Pause> {
        self.begin(Next::Wait { cycle })?;
        let place = address(self.m, plan(self.m, cycle).at, true);
        self.row(6, cycle, place, 0, 0);
        Ok(())
    }

    /// T3: the byte is read or written. An undefined opcode stops the machine here.
    pub(super) fn t3(&mut self, cycle: u8) -> Result<(), Pause> {
        self.begin(later(cycle, 3))?;
        let now = plan(self.m, cycle);
        let place = address(self.m, now.at, true);
        let byte = self.transfer(now, place);
        self.row(3, cycle, place, byte, 0);
        if cycle == 1 {
            return self.decode(byte);
        }
        if now.byte == Byte::Read {
            self.m.kept[usize::from(cycle) - 2] = byte;
        }
        Ok(())
    }

    /// T4 or T5.
    pub(super) fn idle(&mut self, cycle: u8, state: u8) -> Result<(), Pause> {
        self.begin(later(cycle, state))?;
        self.row(state, cycle, 0, 0, 0);
        Ok(())
    }

    /// A state begins here, unless all that were asked are done: then the record keeps the place.
    pub(super) fn begin(&mut self, place: Next) -> Result<(), Pause> {
        if self.done == self.asked {
            self.m.next = place;
            return Err(Pause::Asked);
        }
        self.outside.meet(self.m);
        Ok(())
    }

    /// A state is traced and counted, with the levels from before its own changes.
    pub(super) fn row(&mut self, code: u8, cycle: u8, address: u16, data: u8, status: u8) {
        let levels = u8::from(self.m.ready == 1)
            + 2 * u8::from(self.m.hold == 1)
            + 4 * u8::from(self.m.int != INT_DOWN)
            + 8 * u8::from(self.m.inte);
        let [low, high] = address.to_le_bytes();
        let kind = plan(self.m, cycle).kind;
        self.outside
            .row([code, kind, low, high, data, status, cycle, levels]);
        self.m.clock += 1;
        self.done += 1;
    }

    /// The byte goes over the bus.
    fn transfer(&mut self, now: Cycle, address: u16) -> u8 {
        let port = self.m.kept[0];
        let byte = written(self.m, now.byte);
        match now.kind {
            1 | 2 | 4 => return self.outside.read(address),
            6 => return self.outside.input(port),
            8 | 10 => return self.outside.restart(self.m.restart),
            3 | 5 => self.outside.write(address, byte),
            7 => self.outside.output(port, byte),
            _ => {}
        }
        byte
    }

    /// The opcode is kept, or the machine stops.
    fn decode(&mut self, byte: u8) -> Result<(), Pause> {
        if instruction(byte).is_some() {
            self.m.opcode = byte;
            return Ok(());
        }
        self.m.forget();
        self.m.next = Next::Stop;
        Err(Pause::Stopped)
    }
}

/// The place of a state of a cycle; T1 of cycle 1 has a name of its own.
fn later(cycle: u8, state: u8) -> Next {
    match (cycle, state) {
        (1, 1) => Next::Fetch,
        _ => Next::Later { cycle, state },
    }
}
