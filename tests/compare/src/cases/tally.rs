//! How often each number, fault, place, state, cycle kind and opcode was met. What must be met is in `demands`.

use super::faults::Fault;
use crate::model::flat::unflatten;
use crate::model::record::{Acknowledge, Machine, Next};
use crate::model::refusals::MOST_STATES;
use crate::model::schedule::{EVENT, MOST_EVENTS};

/// The most places of an instruction, numbered by `place`.
const PLACES: usize = 39;

/// The counts.
pub struct Tally {
    pub run: [u64; 15],
    pub step: [u64; 15],
    pub save: [u64; 15],
    pub load: [u64; 15],
    pub cold: [u64; 15],
    /// Requests of single states, by which they are.
    pub requests: [u64; 6],
    /// Runs that one side did in several calls.
    pub splits: u64,
    /// States done by runs.
    pub states: u64,
    pub(super) ill_formed: u64,
    /// Runs done without events, with as many as allowed, and with as many states as allowed.
    pub(super) no_events: u64,
    pub(super) most_events: u64,
    pub(super) most_states: u64,
    /// Runs with both of two faults, or with one alone.
    pub(super) pairs: [[u64; 12]; 12],
    /// Records met, by the opcode kept and the place.
    pub(super) places: Vec<[u64; PLACES]>,
    /// States done, by cycle kind and by state code.
    pub(super) shown: [[u64; 9]; 12],
    /// Opcodes fetched.
    pub(super) opcodes: [u64; 256],
    /// T1 at the last address of memory, of a program byte and of a stack cycle.
    pub(super) program_edge: u64,
    pub(super) stack_edge: u64,
    /// T1 of the second byte of SHLD or LHLD at address 0.
    pub(super) word_edge: u64,
}

impl Default for Tally {
    /// Nothing was met yet.
    fn default() -> Tally {
        Tally {
            run: [0; 15],
            step: [0; 15],
            save: [0; 15],
            load: [0; 15],
            cold: [0; 15],
            requests: [0; 6],
            splits: 0,
            states: 0,
            ill_formed: 0,
            no_events: 0,
            most_events: 0,
            most_states: 0,
            pairs: [[0; 12]; 12],
            places: vec![[0; PLACES]; 256],
            shown: [[0; 9]; 12],
            opcodes: [0; 256],
            program_edge: 0,
            stack_edge: 0,
            word_edge: 0,
        }
    }
}

/// The number of a place among those of an opcode.
pub(super) fn place(m: &Machine) -> usize {
    let at = |cycle: u8| usize::from(cycle) - 1;
    match m.next {
        Next::Fetch if m.acknowledge == Acknowledge::None => 0,
        Next::Fetch => 1,
        Next::Halt => 2,
        Next::Stop => 3,
        Next::Later { cycle, state } => 4 + 5 * at(cycle) + at(state),
        Next::Wait { cycle } => 29 + at(cycle),
        Next::Hold { cycle } => 34 + at(cycle),
    }
}

impl Tally {
    /// Counts a record that a call is given.
    pub fn record(&mut self, record: &[u8], well: bool) {
        match unflatten(record) {
            Some(m) if well => self.places[usize::from(m.opcode)][place(&m)] += 1,
            _ => self.ill_formed += 1,
        }
    }

    /// Counts the faults of a run.
    pub fn faults(&mut self, faults: &[Fault]) {
        if let (Some(&first), Some(&last)) = (faults.first(), faults.last()) {
            self.pairs[first as usize][last as usize] += 1;
        }
    }

    /// Counts a run's number, its schedule and the rows of its trace.
    pub fn run(&mut self, answer: u64, schedule: &[u8], trace: &[u8]) {
        self.run[(answer % 256) as usize] += 1;
        let done = answer / 256;
        self.states += done;
        if done > 0 {
            self.no_events += u64::from(schedule.is_empty());
            self.most_events += u64::from(schedule.len() == EVENT * MOST_EVENTS);
            self.most_states += u64::from(done == u64::from(MOST_STATES));
        }
        for row in trace.chunks_exact(8).take(done as usize) {
            self.row(row);
        }
    }

    /// Counts a row of a trace.
    fn row(&mut self, row: &[u8]) {
        let [code, kind, low, high, data, _, cycle, _] = *row else {
            return;
        };
        self.shown[usize::from(kind)][usize::from(code)] += 1;
        match (code, kind, u16::from_le_bytes([low, high])) {
            (3, 1, _) => self.opcodes[usize::from(data)] += 1,
            (1, 2 | 3, 0) if cycle == 5 => self.word_edge += 1,
            (1, 1 | 2, 0xFFFF) => self.program_edge += 1,
            (1, 4 | 5, 0xFFFF) => self.stack_edge += 1,
            _ => {}
        }
    }

    /// The states done with this code, of all kinds.
    fn code(&self, code: usize) -> u64 {
        self.shown.iter().map(|of_kind| of_kind[code]).sum()
    }
}

impl std::fmt::Display for Tally {
    /// The numbers of each function, the state codes, the cycle kinds, and what runs did.
    fn fmt(&self, to: &mut std::fmt::Formatter) -> std::fmt::Result {
        let lists = [
            ("run", &self.run),
            ("step", &self.step),
            ("save", &self.save),
            ("load", &self.load),
            ("cold", &self.cold),
        ];
        for (name, counts) in lists {
            write!(to, "{name}:")?;
            for (number, met) in counts.iter().enumerate().filter(|(_, &met)| met > 0) {
                write!(to, " {number} x {met},")?;
            }
            writeln!(to)?;
        }
        let codes: Vec<u64> = (1..9).map(|code| self.code(code)).collect();
        let kinds: Vec<u64> = self.shown[1..]
            .iter()
            .map(|kind| kind.iter().sum())
            .collect();
        writeln!(to, "state codes 1 to 8: {codes:?}")?;
        writeln!(to, "cycle kinds 1 to 11: {kinds:?}")?;
        let least = self.opcodes.iter().min().unwrap_or(&0);
        write!(
            to,
            "{} states of runs, {} runs in several calls, {} ill-formed records, each opcode at least {least} times",
            self.states, self.splits, self.ill_formed
        )
    }
}
