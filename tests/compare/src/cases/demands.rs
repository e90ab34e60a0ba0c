//! What must have been met, and how often in 100,000 cases, so that a comparison cannot pass on nothing.

use super::faults::FAULTS;
use super::records::places;
use super::tally::{place, Tally};
use crate::model::instructions::instruction;
use crate::model::record::{Machine, Next};

/// Fails where something was met less often than wanted.
fn often(what: &str, met: u64, wanted: u64) -> Result<(), String> {
    match met >= wanted {
        true => Ok(()),
        false => Err(format!("{what} was met {met} times, less than {wanted}")),
    }
}

impl Tally {
    /// Fails unless everything was met often enough for so many hundred thousand cases.
    pub fn demand(&self, times: u64) -> Result<(), String> {
        self.demand_numbers(times)?;
        self.demand_sizes(times)?;
        self.demand_pairs(times)?;
        self.demand_rows(times)?;
        self.demand_places(times)
    }

    /// Every number that a function can give.
    fn demand_numbers(&self, times: u64) -> Result<(), String> {
        let lists: [(&str, &[u64], &[usize]); 6] = [
            ("run", &self.run, &[0, 1, 2, 3, 4, 5, 6, 7, 8, 9, 10]),
            ("step", &self.step, &[0, 8, 9, 10]),
            ("save", &self.save, &[0, 1, 2, 8, 11, 14]),
            ("load", &self.load, &[0, 1, 2, 8, 12, 13]),
            ("cold", &self.cold, &[0, 8]),
            ("request", &self.requests, &[0, 1, 2, 3, 4, 5]),
        ];
        for (name, counts, numbers) in lists {
            for &number in numbers {
                often(&format!("{name} {number}"), counts[number], 150 * times)?;
            }
        }
        Ok(())
    }

    /// Ill-formed records, calls in several parts, and the least and most of events and states.
    fn demand_sizes(&self, times: u64) -> Result<(), String> {
        often("an ill-formed record", self.ill_formed, 2000 * times)?;
        often("a run in several calls", self.splits, 5000 * times)?;
        often("a run without events", self.no_events, 2000 * times)?;
        often("a run with 1,000 events", self.most_events, 200 * times)?;
        often("a run of 8,192 states", self.most_states, 10 * times)
    }

    /// Every fault alone, and every two at once.
    fn demand_pairs(&self, times: u64) -> Result<(), String> {
        for (first, row) in self.pairs.iter().enumerate() {
            for (last, &met) in row.iter().enumerate().skip(first) {
                let what = format!("{:?} with {:?}", FAULTS[first], FAULTS[last]);
                often(&what, met, 40 * times)?;
            }
        }
        Ok(())
    }

    /// Every state code that a cycle kind can have, every opcode, and the edges of memory.
    fn demand_rows(&self, times: u64) -> Result<(), String> {
        for (kind, met) in self.shown.iter().enumerate().skip(1) {
            let codes: &[usize] = match kind {
                1 | 8 | 10 => &[1, 2, 3, 4, 5, 6, 7],
                5 => &[1, 2, 3, 4, 5, 6, 7],
                9 => &[1, 2, 3, 7, 8],
                11 => &[1, 2, 3, 7],
                _ => &[1, 2, 3, 6, 7],
            };
            for &code in codes {
                let what = format!("state code {code} of kind {kind}");
                often(&what, met[code], 40 * times)?;
            }
        }
        for (opcode, &met) in self.opcodes.iter().enumerate() {
            often(&format!("opcode {opcode:02X}"), met, 40 * times)?;
        }
        often("PC at the edge", self.program_edge, 1000 * times)?;
        often("SP at the edge", self.stack_edge, 500 * times)?;
        often("a word over the edge", self.word_edge, 20 * times)
    }

    /// Every place of every instruction, with its condition met and not met.
    fn demand_places(&self, times: u64) -> Result<(), String> {
        let mut m = Machine::cold();
        for opcode in (0..=255).filter(|&opcode| instruction(opcode).is_some()) {
            for flags in [0x02, 0xD7] {
                (m.opcode, m.flags) = (opcode, flags);
                for next in places(&m) {
                    let met = self.met_at(&Machine { next, ..m });
                    often(&format!("opcode {opcode:02X} at {next:?}"), met, times)?;
                }
            }
        }
        let others = ["a fetch", "an acknowledge", "a halt", "a stop"];
        for (at, name) in others.iter().enumerate() {
            often(name, self.places[0][at], 500 * times)?;
        }
        Ok(())
    }

    /// How often a place was met; where the opcode is not yet read, with any opcode.
    fn met_at(&self, m: &Machine) -> u64 {
        let opcode = match m.next {
            Next::Wait { cycle: 1 } => 0,
            Next::Later { cycle: 1, state } if state <= 3 => 0,
            _ => m.opcode,
        };
        self.places[usize::from(opcode)][place(m)]
    }
}
