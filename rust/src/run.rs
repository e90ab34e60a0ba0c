//! What a machine does: run, step, save and load.

use crate::{ffi, Board, Machine, Refusal, Schedule, Trace, SAVED};

/// The paper's number of a stop.
const STOP: u8 = 10;

/// How a run ended that was not refused.
#[derive(Clone, Copy, Debug, PartialEq, Eq)]
pub enum Ran {
    /// All states that were asked are done.
    Done { states: u32 },
    /// An undefined opcode was fetched, in this run or in one before it. The states are those of
    /// this run, up to and including the fetch's T3.
    Stopped { states: u32 },
}

impl Ran {
    /// The states done.
    pub const fn states(self) -> u32 {
        match self {
            Ran::Done { states } | Ran::Stopped { states } => states,
        }
    }

    /// The paper's number: 0 for done, 10 for a stop.
    pub const fn number(self) -> u8 {
        match self {
            Ran::Done { .. } => 0,
            Ran::Stopped { .. } => STOP,
        }
    }

    /// What a number answered and a count of states mean.
    fn judge(number: u8, states: u32) -> Result<Ran, Refusal> {
        if number == STOP {
            return Ok(Ran::Stopped { states });
        }
        Refusal::judge(number).map(|()| Ran::Done { states })
    }
}

/// What is lent to a run, as slices of any length. A run refuses the wrong ones: memory must have
/// 65,536 bytes, each side's ports 256, the trace at least 8 for each state asked.
///
/// ```
/// use fezgandom::{Lent, Machine, Refusal};
///
/// let lent = Lent {
///     memory: &mut [0; 100],
///     inputs: &[0; 256],
///     outputs: &mut [0; 256],
///     schedule: &[],
///     trace: &mut [0; 8],
/// };
/// assert_eq!(Machine::cold().run_lent(lent, 1), Err(Refusal::MemorySize));
/// ```
#[derive(Debug)]
pub struct Lent<'a> {
    /// What the machine reads and writes.
    pub memory: &'a mut [u8],
    /// What IN reads.
    pub inputs: &'a [u8],
    /// What OUT sets.
    pub outputs: &'a mut [u8],
    /// Six bytes for each event, as [`Schedule::as_bytes`] gives them.
    pub schedule: &'a [u8],
    /// Eight bytes for each state, which [`Row::from_bytes`](crate::Row::from_bytes) reads.
    pub trace: &'a mut [u8],
}

impl Machine {
    /// Runs so many states, at most 8,192, and adds a row for each to the trace.
    ///
    /// READY, HOLD and INT move as the schedule says; lend the same one to the next call, and its
    /// later events come then.
    ///
    /// ```
    /// use fezgandom::{Board, Machine, Schedule, Trace};
    ///
    /// // A NOP with READY down in states 1 and 2 takes 6 states instead of 4.
    /// let schedule = Schedule::new().at(1).ready(false).at(3).ready(true);
    /// let mut trace = Trace::new();
    /// Machine::cold().run(&mut Board::new(), &schedule, &mut trace, 6)?;
    /// let names: Vec<String> = trace.rows().iter().map(|r| r.state.to_string()).collect();
    /// assert_eq!(names, ["T1", "T2", "TW", "TW", "T3", "T4"]);
    /// # Ok::<(), fezgandom::Refusal>(())
    /// ```
    pub fn run(
        &mut self,
        board: &mut Board,
        schedule: &Schedule,
        trace: &mut Trace,
        states: u32,
    ) -> Result<Ran, Refusal> {
        let start = self.clock();
        let lent = Lent {
            memory: &mut board.memory[..],
            inputs: &board.inputs,
            outputs: &mut board.outputs,
            schedule: schedule.as_bytes(),
            trace: trace.room(states),
        };
        let ran = self.run_lent(lent, states)?;
        trace.take(start, ran.states());
        Ok(ran)
    }

    /// Runs so many states over buffers of your own.
    pub fn run_lent(&mut self, lent: Lent<'_>, states: u32) -> Result<Ran, Refusal> {
        let answer = ffi::run(
            &mut self.record,
            states,
            lent.memory,
            lent.inputs,
            lent.outputs,
            lent.schedule,
            lent.trace,
        );
        Ran::judge((answer % 256) as u8, (answer / 256) as u32)
    }

    /// One state, with this byte on the bus, for a caller that is memory and ports itself.
    ///
    /// Ask [`request`](Machine::request) first. A machine that was stopped before stays as it is,
    /// with no state done.
    ///
    /// ```
    /// use fezgandom::{Machine, Request};
    ///
    /// let rom = [0x3E, 0x05, 0x76]; // MVI A,05 and HLT
    /// let mut machine = Machine::cold();
    /// while !machine.is_halted() {
    ///     let byte = match machine.request() {
    ///         Request::Read { address } => rom[usize::from(address)],
    ///         _ => 0,
    ///     };
    ///     machine.step(byte)?;
    /// }
    /// assert_eq!((machine.a(), machine.clock()), (5, 14));
    /// # Ok::<(), fezgandom::Refusal>(())
    /// ```
    pub fn step(&mut self, byte: u8) -> Result<Ran, Refusal> {
        let number = ffi::step(&mut self.record, byte);
        Ran::judge(number, u32::from(number == 0))
    }

    /// The saved form of the machine with the board's memory and output ports: 65,816 bytes.
    ///
    /// ```
    /// use fezgandom::{Board, Machine, Refusal, Schedule, Trace};
    ///
    /// let mut board = Board::with_program(&[0x3C]); // INR A
    /// let mut machine = Machine::cold();
    /// machine.run(&mut board, &Schedule::new(), &mut Trace::new(), 5)?;
    /// let saved = machine.save(&board)?;
    ///
    /// let (mut other, mut empty) = (Machine::cold(), Board::new());
    /// other.load(&saved, &mut empty)?;
    /// assert_eq!(other, machine);
    /// assert_eq!(empty, board);
    ///
    /// machine.run(&mut board, &Schedule::new(), &mut Trace::new(), 1)?;
    /// assert_eq!(machine.save(&board), Err(Refusal::InsideInstruction));
    /// # Ok::<(), fezgandom::Refusal>(())
    /// ```
    pub fn save(&self, board: &Board) -> Result<Vec<u8>, Refusal> {
        let mut out = vec![0; SAVED];
        self.save_lent(&board.memory[..], &board.outputs, &mut out)?;
        Ok(out)
    }

    /// Saves memory and output ports of your own, with the machine, into an output of your own.
    pub fn save_lent(&self, memory: &[u8], outputs: &[u8], out: &mut [u8]) -> Result<(), Refusal> {
        Refusal::judge(ffi::save(&self.record, memory, outputs, out))
    }

    /// Becomes the machine that was saved, and fills the board's memory and output ports. Input
    /// ports are not saved and stay.
    pub fn load(&mut self, saved: &[u8], board: &mut Board) -> Result<(), Refusal> {
        self.load_lent(saved, &mut board.memory[..], &mut board.outputs)
    }

    /// Becomes the machine that was saved, and fills memory and output ports of your own.
    pub fn load_lent(
        &mut self,
        saved: &[u8],
        memory: &mut [u8],
        outputs: &mut [u8],
    ) -> Result<(), Refusal> {
        Refusal::judge(ffi::load(&mut self.record, saved, memory, outputs))
    }
}
